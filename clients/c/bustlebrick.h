/* Bustlebrick inside the host's process: a library for hosts in C, and in what can call C.

   An engine is the program `asremote` on a stack of its own: the object file that was proved and run, whose reads,
   writes and heap are answered by this library. A host gives it commands, the lines of a session (docs/FORMATS.md,
   "Session"), and has their replies as text ("Output"). What scripts ask comes to the host in one of two ways:

   - by a callback: bb_command calls the host's function at each ask, and returns when the command is done;
   - by steps: bb_begin returns at each ask, and bb_resume goes on with the answer. So a script may wait for its answer
   as long as the host likes, and the host's code may throw or jump where it wants, since nothing of the library is
   below it.

   Threads: an engine is for the thread that made it. In another one its functions do nothing and answer BB_THREAD, but
   for bb_cancel, which any thread may call, and those that only read, which must not run while a command does. Engines
   share nothing: each thread may have its own, and one thread any number (each takes two mappings of the process, of
   which Linux allows 65,530 where nothing else is said).

   Stacks: a callback runs on the stack of the host that called bb_command. The handler of a signal that comes while an
   engine runs is run on the engine's stack, unless it has one of its own (sigaltstack); 1.5 MiB are there for it where
   stack_bytes is 0. Below the stack of each engine there is 1 MiB without access: what overruns it ends the process by
   SIGSEGV.

   C99 and above, C++11 and above; x86-64 Linux with glibc. */
#ifndef BUSTLEBRICK_H
#define BUSTLEBRICK_H

#include <stdbool.h>
#include <stddef.h>
#include <stdint.h>

#define BUSTLEBRICK_VERSION "0.1.0"

#ifdef __cplusplus
extern "C" {
#endif

/* ---- What scripts ask, and what the host answers */

/* The kinds of values. Nothing is converted: a number of a signed type (an enumeration too) is BB_INT, one of an
   unsigned type BB_UINT, and an answer of another kind, or outside the declared type's range, is the script's fault
   BadAnswer. */
typedef enum bb_kind {
    BB_INT,  /* as.i64 */
    BB_UINT, /* as.u64 */
    BB_BOOL, /* as.truth: 0 is false, all else true */
    BB_KEY,  /* as.key: an object of the host, by the key that the host gave it */
    BB_NULL  /* no object */
} bb_kind;

typedef struct bb_value {
    bb_kind kind;
    union {
        int64_t i64;
        uint64_t u64;
        uint64_t truth;
        uint64_t key;
    } as;
} bb_value;

/* What is asked: a factory for an object, a function or a method, a property for its value, a property to change it. */
typedef enum bb_ask_kind { BB_MAKE, BB_CALL, BB_READ, BB_WRITE } bb_ask_kind;

/* What a script asks, or has posted. It is the library's, and holds until it is answered. What is posted comes before
   what the script asks next, and before the end of the command, in the order of the script's calls. */
typedef struct bb_ask {
    bb_ask_kind kind;
    uint32_t driver;   /* the number of the driver, below bb_options.drivers */
    uint32_t function; /* the number that the profile gives the entry (its `F`) */
    bool has_object;   /* whether an object is asked: a method's, or a property's */
    bool posted;       /* whether the profile has the function `posted`: the script went on, and the answer is dropped */
    uint64_t object;   /* its key, which is live; 0 where there is none */
    size_t count;      /* how many values there are: 0 to 32; 1 of BB_WRITE, the new value; none of BB_READ */
    const bb_value *values;
} bb_ask;

/* Calls of one posted function, one after the other (bb_take_posts). */
typedef struct bb_posts {
    uint32_t driver, function; /* as of a bb_ask */
    size_t calls;              /* how many there are: 1 or more */
    size_t count;              /* how many values each has */
    const bb_value *values;    /* those of the first call, then those of the next */
} bb_posts;

/* The kinds of answers. One of another kind than the ask takes is the fault Host 4294967284. */
typedef enum bb_answer_kind {
    BB_VOID, /* to a call or a write: done, without a value */
    BB_GAVE, /* to a call or a read: `value`; of BB_KEY the key has to be live, or it is the fault Host 4294967286 */
    BB_MADE, /* to a make: an object was made, its key is value.as.key, which must not be live (the fault 4294967285) */
    BB_NOTHING, /* to a make: no object was made */
    BB_FAULT,   /* to all: the fault Host of the number `fault` */
    BB_MEMORY   /* to all: the host wants memory, the fault Memory */
} bb_answer_kind;

/* An answer; one that is all zeros is BB_VOID. Of a kind that is none it is the fault Host 4294967283. */
typedef struct bb_answer {
    bb_answer_kind kind;
    uint32_t fault; /* of BB_FAULT: below 4294967280 */
    bb_value value; /* of BB_GAVE and BB_MADE */
} bb_answer;

/* The host's function: it fills the answer, which is BB_VOID before. Keys are the host's to choose; a key is live from
   the BB_MADE that gave it until a reply says `end DRIVER #KEY`.

   It may use other engines, and not the one that asks it: that answers BB_BUSY. It must not be left by longjmp. A C++
   exception may leave it: it goes through bb_command to who called that, and the engine waits for the answer, as by
   steps. */
typedef void (*bb_host)(void *data, const bb_ask *ask, bb_answer *answer);

/* ---- An engine */

typedef struct bb_engine bb_engine;

/* The least bytes of a stack: what a build may take (docs/SECURITY.md, "The stack"). */
#define BB_LEAST_STACK ((size_t)6656 * 1024)

/* What an engine is made with. All zeros but for the profile is right. */
typedef struct bb_options {
    const char *profile; /* the text of a profile (docs/FORMATS.md, "Profile"); bb_new alone reads it */
    size_t profile_bytes;
    uint32_t drivers;    /* how many drivers the host is: 1 to 64; 0 for 1 */
    uint64_t budget;     /* the ticks of each command, until a line `budget`: 1 to 2147483647; 0 for 1,000,000 */
    size_t stack_bytes;  /* BB_LEAST_STACK or more; 0 for 8 MiB. Only what was once used takes memory */
    size_t memory_bytes; /* the most bytes of the heap that the engine may have; 0 for no limit. See bb_memory_used */
    bb_host host;        /* NULL: bb_command then goes by steps, as bb_begin does */
    void *data;          /* passed to `host` */
} bb_options;

/* What a function answers, and where an engine stands. */
typedef enum bb_state {
    BB_DONE,   /* the command is done, and bb_reply has its reply; the engine takes the next one */
    BB_ASKS,   /* by steps: a script asks (bb_asked), and waits for bb_resume */
    BB_ENDED,  /* the engine has ended, and does nothing more: bb_status says why, bb_reply what it printed last */
    BB_BUSY,   /* nothing was done: it is not the engine's turn for this. It waits for an answer (or, for bb_resume, for
                  none), its own callback uses it, or the handler of a signal that came while it ran */
    BB_THREAD, /* nothing was done: another thread made the engine */
    BB_FORM    /* nothing was done: the text is not one command (see bb_command) */
} bb_state;

/* An engine with this profile. NULL, with errno, where there is none: EINVAL where an option is out of its range,
   ENOMEM where memory, or a mapping for its stack, was refused. A profile that is refused gives an engine that has
   ended (bb_state_of), with the status 2, whose reply is the line that says why: `profile 3 BadDeclaration`. */
bb_engine *bb_new(const bb_options *options);

/* Does one command: a line of a session, and after `section NAME N` the N lines of the text. The last LF may be left
   out. The text is the host's, and is read until the command is done. The host's function is called for each ask.

   BB_DONE, BB_ENDED, BB_BUSY or BB_THREAD. BB_FORM where the text has other lines than one command, or more than
   16,777,216 bytes, or where its first letters are `section`, in either case, and it is no head of a section: so text
   of a script is never taken for a command. A line that no command spells is a command whose reply is `refused
   BadLine`. Where there is no host's function, BB_ASKS as well. */
bb_state bb_command(bb_engine *engine, const char *text, size_t bytes);

/* The command `section NAME N` with this text, whose lines it counts. The name ends with a 0. BB_FORM also where the
   name is empty, or has a space or an LF. */
bb_state bb_section(bb_engine *engine, const char *name, const char *text, size_t bytes);

/* A command by steps: as bb_command, but returns BB_ASKS at an ask. The text is not read any more after the first
   return. */
bb_state bb_begin(bb_engine *engine, const char *text, size_t bytes);

/* What the script asks that waits. Only in the state BB_ASKS, until bb_resume or bb_end; NULL in any other. All asks of an
   engine, and the values of them, have one place each. */
const bb_ask *bb_asked(const bb_engine *engine);

/* Answers the ask, and goes on to the next one (BB_ASKS) or to the end of the command (BB_DONE). BB_BUSY where none
   waits. To what is posted nothing is answered, and `answer` may be NULL. */
bb_state bb_resume(bb_engine *engine, const bb_answer *answer);

/* Takes what waits, where that is posted, and the posts behind it, as many as there is room for: runs of calls of one
   function, in the order of the script's calls. `runs` is set to how many these are. bb_resume goes on behind them. They are
   the library's, and hold until then. For hosts in languages from which each call of C costs much; others take one after
   the other (bb_asked). NULL, and 0 runs, where nothing posted waits that was not taken, and in another thread. */
const bb_posts *bb_take_posts(bb_engine *engine, size_t *runs);

/* The lines of the reply to the last command that was done, each with its LF: events, errors, denials, and one line for
   the outcome. A 0 follows them, which is not counted. They are the library's, and hold until the next command; empty
   while a command waits at an ask, and after an empty line or a comment. They are not counted in the engine's heap, and
   may be long: a line for each event. */
const char *bb_reply(const bb_engine *engine, size_t *bytes);

/* The last line of the reply alone: `ok`, `ok 42`, `fault Host 7`, `refused NoFunction`. Its LF, which follows it, is
   not counted. */
const char *bb_outcome(const bb_engine *engine, size_t *bytes);

/* Cancels the command that is done, from any thread and from a signal's handler: the next growth of the engine's heap is
   refused, and so the command ends with `fault Memory`, `refused BuildMemory` or `refused Memory`, as where memory is
   used up, and the engine takes the next one. The first 128 growths of a command, with which it is read, are not refused
   so; a run that grows nothing, as an empty loop, goes on to the end of its budget. What a script posts next is refused
   likewise, and ends it with `fault Host 4294967280`. Without a command it does nothing. The engine must not be freed
   meanwhile. */
void bb_cancel(bb_engine *engine);

/* How many milliseconds each command from the next one on may take, with the host's answers; 0, as at first, is no limit.
   After them a growth of the heap, or a post, is refused, as by bb_cancel. It is told to within some 10 milliseconds. Only by the
   thread that made the engine; in another one it does nothing. */
void bb_set_timeout(bb_engine *engine, uint64_t milliseconds);

/* Where the engine stands: BB_DONE, BB_ASKS or BB_ENDED; BB_BUSY while it runs. */
bb_state bb_state_of(const bb_engine *engine);

/* Once it has ended, the exit status of asremote (docs/FORMATS.md, "Exit status"): 0 and 1 after bb_end, where all
   commands were answered by `ok`, or not; 2 of a profile that was refused, and where memory was refused for a reply's
   text; 3 where memory was refused outside of a command, at the start or for the text of a command; 127 at the start
   where the processor lacks what the object was built for (x86-64-v2). Before that 0. */
int bb_status(const bb_engine *engine);

/* The bytes of the heap that the engine has now, in blocks as malloc makes them. Blocks that the library keeps from one command
   to the next count while something stands in them: one of 136 bytes for the texts of lines; and two for long lists, mostly those
   of a command's events, of which what the list wanted counts. These two have 2 MiB at most, and a 32nd of memory_bytes. Where
   there is a limit (memory_bytes), a growth above it is refused, and that is want of memory in the command, as of bb_cancel. So
   that a command can be read whatever was used up before it, each may take 64 KiB and eight times its bytes above what there was
   when it began, but never more than one and a half of the limit; where it has not even these, the engine ends with the
   status 3. */
size_t bb_memory_used(const bb_engine *engine);

/* The bytes of its stack that are in memory, in whole pages: what was ever used of it. */
size_t bb_stack_used(const bb_engine *engine);

/* Ends the engine, and keeps its status and its last reply: a script that waits is answered the fault Host 4294967282,
   what one posts from then on is refused by the fault Host 4294967280, and the reply is that of its command. BB_ENDED,
   BB_BUSY or BB_THREAD. */
bb_state bb_end(bb_engine *engine);

/* The same, and then the engine is gone. BB_BUSY and BB_THREAD: nothing was done, and it is still there. NULL is
   BB_ENDED. */
bb_state bb_free(bb_engine *engine);

/* Which object this library was made of, in three words: `proved`, or `unproved` for one of tools/build_unproved.py;
   BUSTLEBRICK_VERSION; and the first 16 hexadecimal digits of the object's SHA-256. */
const char *bb_version(void);

#ifdef __cplusplus
}
#endif

#endif
