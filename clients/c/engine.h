/* What the files of the library share. None of these names leaves it (build.sh). */
#ifndef BB_ENGINE_H
#define BB_ENGINE_H

#include "bustlebrick.h"

#include <pthread.h>
#include <stdatomic.h>

enum {
    MOST_ARGUMENTS = 32,
    MOST_PIECES = 5,
    MOST_ANSWER = 64,       /* bytes of an answer's line */
    LISTS = 2,              /* blocks for long lists: the events, and their arguments */
    MOST_RUNS = 128,        /* of posts that are kept */
    MOST_VALUES = 1024,     /* of all these */
    FRONTS = 8,             /* of posts that are kept, so that functions in turn are not read anew */
    MOST_FRONT = 64,        /* bytes of an ask's line in front of its values: two numbers of 32 bits, a key, some 20 more */
    MOST_COMMAND = 16777216 /* bytes of a command */
};

/* ---- Two stacks in one thread (stack.c) */

struct bb_stack {
    void *engine, *host; /* the stack pointers of both sides, of which the one that does not run holds */
    char *mapping;       /* the guard, and above it the engine's stack */
    size_t bytes;        /* without the guard */
    void *fake;          /* for the address sanitizer alone, as are the next two */
    const void *host_bottom;
    size_t host_bytes;
    unsigned number; /* for valgrind alone */
};

/* Maps a stack of so many bytes, on which `run` is begun by the first bb_to_engine. It never returns. False, with
   errno, where it can't be mapped. */
bool bb_map_stack(struct bb_stack *stack, size_t bytes, void (*run)(void));
void bb_unmap_stack(struct bb_stack *stack);
size_t bb_stack_in_memory(const struct bb_stack *stack);

/* Goes over to the other side, and returns when it comes back. */
void bb_to_engine(struct bb_stack *stack);
void bb_to_host(struct bb_stack *stack);

/* Called once by `run`, first of all. */
void bb_arrived(struct bb_stack *stack);

/* ---- Lines (lines.c) */

/* The line of an ask or of a post with which a text begins: what stands in front of its values, and then these, which are put
   where `values` is. Each gives where it ends, the second behind the line's LF; or NULL where there is none. */
const char *bb_read_front(const char *text, const char *end, bb_ask *ask);
const char *bb_read_values(const char *text, const char *end, bb_ask *ask, bb_value values[MOST_ARGUMENTS]);

/* Writes the line of an answer, with its LF, and gives its bytes. */
size_t bb_write_answer(char line[MOST_ANSWER], const bb_answer *answer);

/* Whether a text is one command, with or without its last LF. */
bool bb_is_command(const char *text, size_t bytes);

/* How many lines a text has. */
size_t bb_count_lines(const char *text, size_t bytes);

/* ---- An engine, and what its program calls of the system (program.c) */

struct piece {
    const char *at;
    size_t left;
};

/* Why the program lets the host go on. */
enum bb_stop {
    BB_TO_HEAR,  /* it has read all that the host said, and wants the next command, or the answer to an ask */
    BB_FOR_ROOM, /* there are as many posts as are kept, which the host is to be told before the program goes on */
    BB_AT_END
};

/* What the line of a post has in front of its values: most posts have the same as one of the last. */
struct bb_front {
    char text[MOST_FRONT];
    size_t bytes; /* 0 for none */
    bb_ask ask;
    size_t count; /* how many values the last call had */
};

/* What is posted, of which the host was not told all. */
struct bb_kept {
    bb_posts runs[MOST_RUNS];
    bb_value values[MOST_VALUES];
    size_t runs_kept, values_kept;
    size_t empty_calls;     /* of runs before the last one: those without values, each of which takes the room of a value */
    size_t room;            /* how many more calls of the last run are kept before the host is told all */
    struct bb_front fronts[FRONTS];
    struct bb_front *front; /* that of the last run */
    size_t next_front;      /* the place of the one that is read next */
    bb_posts *last;         /* that run, or NULL */
    size_t runs_told, left; /* the runs that the host was told, and how many calls of the last of these it was not */
    const bb_value *told;   /* the values of the call that is the ask, which has a copy of them */
    bool waits;             /* whether the ask is a call of that run, and the rest was not taken at once */
};

/* A block for a long list of the program, which is kept when the program gives it back, so that the next command has it: that
   of the events above all, for which the system would zero each page anew. */
struct bb_list {
    char *block; /* NULL for none */
    size_t room;
    size_t counted; /* the bytes that the program has of it, 0 where it has not got it */
};

struct bb_engine {
    struct bb_stack stack;
    enum bb_stop stop;
    bb_state state; /* BB_BUSY while its program runs */
    int status;
    bool in_host; /* its callback runs */
    pthread_t thread;
    bb_host host;
    void *data;
    uint32_t drivers;
    uint64_t budget;

    struct piece profile;
    struct piece input[MOST_PIECES]; /* what is left of a command, or of an answer */
    size_t input_at, input_count;
    bool input_ended;

    char *output; /* what the program wrote since the command began, but for what it posted and what was read of it, and a 0 */
    size_t output_bytes, output_room;
    int error; /* the program's errno */

    bb_ask ask;
    bb_value values[MOST_ARGUMENTS];
    struct bb_kept *posts; /* NULL until something is posted */
    char answer[MOST_ANSWER];

    size_t memory_used;
    size_t memory_most; /* the host's limit */
    size_t memory_now;  /* that of the command */
    size_t growths;     /* of the heap, since the command began */
    bool has_written;   /* the program, since the command began: an ask, a post or some of the reply */
    void *line;         /* a block for the text of a line, or NULL */
    bool line_is_lent;  /* whether the program has it */
    struct bb_list lists[LISTS];
    atomic_bool cancelled;
    uint64_t timeout;  /* milliseconds of a command, 0 for no limit */
    uint64_t deadline; /* that of the command, as bb_now tells it; 0 for none */
#ifdef BB_TRIAL
    size_t refuse_at; /* the growth of a command that is refused, from 1; 0 for none */
#endif
};

/* Lets the program run until the host is told something: what was posted, or that the program waits or has ended. `state`
   says which. */
void bb_run(bb_engine *engine);

/* Tells the host the next thing, where it was told a post before. The program runs if there is no other post. */
void bb_tell(bb_engine *engine);

/* Leaves the blocks to the program that it has kept of those for a line and for long lists: they are as any other then. */
void bb_leave_line(bb_engine *engine);
void bb_leave_lists(bb_engine *engine);

/* Milliseconds from some moment on. */
uint64_t bb_now(void);

/* The function that the engine's stack begins with. */
void bb_begin_program(void);

/* ---- What is posted (posts.c): it is kept as runs of calls of one function, until the host was told all of it */

/* What became of a text. */
enum bb_keeping {
    BB_NO_POST,   /* it is no line of a post: nothing was done */
    BB_NO_MEMORY, /* nothing was done */
    BB_KEPT       /* it is a post, which is kept */
};

/* Keeps the post whose line a text is, behind the others. There is room for it. */
enum bb_keeping bb_keep_post(bb_engine *engine, const char *text, size_t bytes);

/* Takes the next post of which the host is to be told, if there is one, as the ask. Once the input has ended it is told
   nothing more. */
bool bb_next_post(bb_engine *engine);

/* Puts the values of a call, which is the ask, where those of all asks are. */
static inline void bb_tell_values(bb_engine *engine, const bb_value *values)
{
    engine->posts->told = values;
    for (size_t at = 0; at < engine->ask.count; at++)
        engine->values[at] = values[at];
}

/* Takes the next call of the run of which the ask is one, if the host was not told them all. */
static inline bool bb_next_call(bb_engine *engine)
{
    if (!engine->posts->left)
        return false;
    engine->posts->left--;
    bb_tell_values(engine, engine->posts->told + engine->ask.count);
    return true;
}

/* Lets go the posts that were taken. */
void bb_forget_posts(bb_engine *engine);

/* Takes the post that is the ask, and those behind it. NULL, and no runs, where they were taken. */
const bb_posts *bb_rest_of_posts(bb_engine *engine, size_t *runs);

/* ---- What is read of the output (program.c) */

/* Takes the last line of the output away where it is an ask or `done`, and says which: BB_ASKS, BB_DONE, or BB_ENDED
   for neither. */
bb_state bb_take_last_line(bb_engine *engine);

#endif
