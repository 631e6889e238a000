/* The program in the library: `asremote`, whose calls of the system are answered here, and not by the system.

   build.sh gives its `main` the name bb_program_main, and what it calls the names of the functions below. Each keeps
   the contract of the function that it stands for, as the kit states it: that is trusted here, as it is of the C
   library for the program. The streams are a profile, standard input and standard output; there are no others. */
#define _GNU_SOURCE
#include "engine.h"
#include "plain.h"

#include <errno.h>
#include <malloc.h>
#include <stdio.h>
#include <stdlib.h>
#include <string.h>
#include <sys/types.h>
#include <time.h>

enum { INPUT = 0, OUTPUT = 1, ERRORS = 2, PROFILE = 3 };

/* The first growths of a command, with which the program may still read it: these are not cancelled, so that the engine
   lives on. trials/inproc.sh refuses each growth of many commands in turn, and prints how many the program needs. */
enum { READING = 128 };

/* The bytes of the line's block: what malloc gives where 128 and some are wanted. */
enum { LINE = 136 };

/* The least bytes of a long list; and the most of a block for one that is kept for the next command, which is no more than this
   part of the engine's limit of memory either. */
enum { LONG_LIST = 4 << 10, KEPT_LIST = 2 << 20, KEPT_PART = 32 };

/* So many posts come between two looks at the clock, where the command has a deadline. */
enum { UNWATCHED = 64 };

int bb_program_main(void);

/* The engine whose program runs in this thread. By this model no call is needed to find it in a shared library either. */
static _Thread_local bb_engine *now __attribute__((tls_model("initial-exec")));

/* ---- Running, on the engine's stack */

/* Lets the host go on, and returns when it lets the program do so. */
static void stop(bb_engine *engine, enum bb_stop why)
{
    engine->stop = why;
    bb_to_host(&engine->stack);
}

void bb_begin_program(void)
{
    bb_engine *engine = now;
    bb_arrived(&engine->stack);
    engine->status = bb_program_main();
    for (;;)
        stop(engine, BB_AT_END);
}

/* ---- Running, on the host's stack */

static void run_program(bb_engine *engine)
{
    bb_engine *before = now;
    now = engine;
    engine->state = BB_BUSY;
    bb_to_engine(&engine->stack);
    now = before;
}

/* The host has been told all that was posted: where the program stands then. It never wants more than a command has; if
   it did, its input would end here, so that it doesn't wait for ever. BB_BUSY where it goes on by itself. */
static bb_state state_at_stop(bb_engine *engine)
{
    if (engine->stop == BB_FOR_ROOM)
        return BB_BUSY;
    bb_state state = bb_take_last_line(engine);
    if (engine->stop == BB_AT_END)
        return BB_ENDED;
    if (state == BB_ENDED)
        engine->input_ended = true;
    return engine->input_ended ? BB_BUSY : state;
}

void bb_tell(bb_engine *engine)
{
    for (;;) {
        if (bb_next_post(engine)) {
            engine->state = BB_ASKS;
            return;
        }
        bb_forget_posts(engine);
        engine->state = state_at_stop(engine);
        if (engine->state != BB_BUSY)
            return;
        run_program(engine);
    }
}

void bb_run(bb_engine *engine)
{
    run_program(engine);
    bb_tell(engine);
}

/* ---- The heap */

struct tried {
    bool ok;
    void *block;
};

/* A block that none is. */
static char nowhere;

uint64_t bb_now(void)
{
    struct timespec now;
    clock_gettime(CLOCK_MONOTONIC_COARSE, &now);
    return (uint64_t)now.tv_sec * 1000 + (uint64_t)now.tv_nsec / 1000000;
}

/* Whether the command has taken too long. */
static bool is_late(bb_engine *engine)
{
    if (bb_now() < engine->deadline)
        return false;
    engine->deadline = 0;
    return true;
}

/* Whether the command is to end, because it was cancelled, or takes too long. That is told once. */
static inline bool is_ending(bb_engine *engine)
{
    if (engine->deadline && is_late(engine))
        return true;
    return atomic_load_explicit(&engine->cancelled, memory_order_relaxed) &&
           atomic_exchange_explicit(&engine->cancelled, false, memory_order_relaxed);
}

/* Whether a growth is granted: the heap is to have so many bytes more than the `used` ones. */
static bool is_granted(bb_engine *engine, size_t used, size_t more)
{
    engine->growths++;
#ifdef BB_TRIAL
    if (engine->growths == engine->refuse_at)
        return false;
#endif
    if (engine->growths > READING && is_ending(engine))
        return false;
    return more <= engine->memory_now && used <= engine->memory_now - more;
}

static struct tried told(bb_engine *engine, size_t used, void *block)
{
    if (!block)
        return (struct tried){false, &nowhere};
    engine->memory_used = used + malloc_usable_size(block);
    return (struct tried){true, block};
}

/* The line's block, where a new block is to be one: the program has a text for each line that it writes and reads, which
   begins with 8 bytes, is doubled, and is given back soon. Texts of builds come before a command has written anything. */
static void *line_block(bb_engine *engine, size_t bytes, size_t alignment)
{
    if (!engine->has_written || engine->line_is_lent || alignment != 1 || bytes > LINE)
        return NULL;
    if (!engine->line)
        engine->line = malloc(LINE);
    engine->line_is_lent = engine->line;
    return engine->line;
}

static bool is_line(const bb_engine *engine, const void *block)
{
    return engine->line_is_lent && block == engine->line;
}

/* A block of so many bytes, aligned as malloc does it: `alignment` divides 16. */
struct tried bb_alloc(size_t bytes, size_t alignment)
{
    bb_engine *engine = now;
    size_t used = engine->memory_used, size = bytes ? bytes : alignment;
    if (!is_granted(engine, used, size))
        return (struct tried){false, &nowhere};
    void *line = line_block(engine, bytes, alignment);
    if (!line)
        return told(engine, used, malloc(size));
    engine->memory_used = used + LINE;
    return (struct tried){true, line};
}

/* The list whose block this is, which the program has; or NULL. */
static inline struct bb_list *list_with(bb_engine *engine, const void *block)
{
    for (size_t at = 0; at < LISTS; at++)
        if (engine->lists[at].counted && engine->lists[at].block == block)
            return &engine->lists[at];
    return NULL;
}

/* A list whose block the program has not got: that with the largest block, where a command has written something. */
static struct bb_list *free_list(bb_engine *engine)
{
    struct bb_list *found = NULL;
    for (size_t at = 0; at < LISTS && engine->has_written; at++) {
        struct bb_list *list = &engine->lists[at];
        if (!list->counted && (!found || list->room > found->room))
            found = list;
    }
    return found;
}

static struct tried lent(bb_engine *engine, struct bb_list *list, size_t used, size_t bytes)
{
    list->counted = bytes;
    engine->memory_used = used + bytes;
    return (struct tried){true, list->block};
}

/* Puts what stands in a block into the list's one, if that has room, or else makes the block that of the list. */
static struct tried make_long(bb_engine *engine, struct bb_list *list, void *block, size_t used, size_t bytes)
{
    size_t has = malloc_usable_size(block);
    if (list->room >= bytes) {
        memcpy(list->block, block, has < bytes ? has : bytes);
        free(block);
        return lent(engine, list, used, bytes);
    }
    char *grown = realloc(block, bytes);
    if (!grown)
        return (struct tried){false, &nowhere};
    free(list->block);
    list->block = grown;
    list->room = malloc_usable_size(grown);
    return lent(engine, list, used, bytes);
}

/* The list's block with so many bytes. One that is to be smaller is the program's from then on. */
static struct tried resized(bb_engine *engine, struct bb_list *list, size_t used, size_t bytes)
{
    if (list->counted <= bytes && bytes <= list->room)
        return lent(engine, list, used, bytes);
    char *block = realloc(list->block, bytes);
    if (!block)
        return (struct tried){false, &nowhere};
    bool is_smaller = bytes < list->counted;
    *list = is_smaller ? (struct bb_list){NULL, 0, 0} : (struct bb_list){block, malloc_usable_size(block), bytes};
    engine->memory_used = used + (is_smaller ? malloc_usable_size(block) : bytes);
    return (struct tried){true, block};
}

/* What is counted of a block that the program has. */
static size_t counted_of(const bb_engine *engine, const struct bb_list *list, void *block)
{
    if (list)
        return list->counted;
    return is_line(engine, block) ? LINE : malloc_usable_size(block);
}

/* The block, which may move, with so many bytes. Where it is refused it stays as it was; and so it does where it has these,
   and not more than twice as many. */
struct tried bb_realloc(void *block, size_t kept, size_t bytes, size_t alignment)
{
    (void)kept;
    bb_engine *engine = now;
    bool was_line = is_line(engine, block);
    struct bb_list *list = was_line ? NULL : list_with(engine, block);
    size_t has = counted_of(engine, list, block), used = engine->memory_used - has;
    size_t size = bytes ? bytes : alignment;
    if (!is_granted(engine, used, size))
        return (struct tried){false, &nowhere};
    if (list)
        return resized(engine, list, used, size);
    if (size <= has && (was_line || has / 2 <= size))
        return (struct tried){true, block};
    if (size >= LONG_LIST && !was_line && (list = free_list(engine)))
        return make_long(engine, list, block, used, size);
    struct tried tried = told(engine, used, realloc(block, size));
    if (was_line && tried.ok)
        bb_leave_line(engine);
    return tried;
}

/* The program has given a list's block back, which is kept where it is not too large. */
static void keep_list(bb_engine *engine, struct bb_list *list)
{
    engine->memory_used -= list->counted;
    list->counted = 0;
    if (list->room <= KEPT_LIST && list->room <= engine->memory_most / KEPT_PART)
        return;
    free(list->block);
    *list = (struct bb_list){NULL, 0, 0};
}

void bb_dealloc(void *block)
{
    bb_engine *engine = now;
    if (is_line(engine, block)) {
        engine->line_is_lent = false;
        engine->memory_used -= LINE;
        return;
    }
    struct bb_list *list = list_with(engine, block);
    if (list) {
        keep_list(engine, list);
        return;
    }
    engine->memory_used -= malloc_usable_size(block);
    free(block);
}

void bb_leave_lists(bb_engine *engine)
{
    for (size_t at = 0; at < LISTS; at++) {
        struct bb_list *list = &engine->lists[at];
        if (!list->counted)
            continue;
        engine->memory_used += list->room - list->counted;
        *list = (struct bb_list){NULL, 0, 0};
    }
}

void bb_leave_line(bb_engine *engine)
{
    engine->line = NULL;
    engine->line_is_lent = false;
}

/* ---- What is written */

/* Makes room for so many bytes more, and for the 0 after them. */
static bool has_room(bb_engine *engine, size_t bytes)
{
    if (bytes < engine->output_room - engine->output_bytes)
        return true;
    if (bytes > SIZE_MAX / 4 - engine->output_bytes)
        return false;
    size_t room = (engine->output_bytes + bytes + 1) * 2;
    char *output = realloc(engine->output, room);
    if (!output)
        return false;
    engine->output = output;
    engine->output_room = room;
    return true;
}

static inline bool is_post(const char *bytes, size_t count)
{
    return count > 5 && memcmp(bytes, "post ", 5) == 0;
}

static ssize_t refused(bb_engine *engine, int error)
{
    engine->error = error;
    return -1;
}

static ssize_t write_text(bb_engine *engine, const char *text, size_t count)
{
    if (!has_room(engine, count))
        return refused(engine, ENOMEM);
    if (count)
        memcpy(engine->output + engine->output_bytes, text, count);
    engine->output_bytes += count;
    engine->output[engine->output_bytes] = 0;
    engine->has_written = true;
    return (ssize_t)count;
}

/* Lets the host take what is kept, if it has to before another post. */
__attribute__((noinline)) static ssize_t kept(bb_engine *engine, size_t count)
{
    if (!engine->posts->room)
        stop(engine, BB_FOR_ROOM);
    return (ssize_t)count;
}

/* A post, for which the program takes no memory, is where a command may end that grows nothing; and once the engine is to end,
   it does so there, since the host is told nothing more. */
static ssize_t write_post(bb_engine *engine, const char *line, size_t count)
{
    if (engine->input_ended || is_ending(engine))
        return refused(engine, ECANCELED);
    enum bb_keeping keeping = bb_keep_post(engine, line, count);
    if (keeping == BB_NO_POST)
        return write_text(engine, line, count);
    if (keeping == BB_NO_MEMORY)
        return refused(engine, ENOMEM);
    engine->has_written = true;
    return kept(engine, count);
}

/* What is written to standard error is dropped: the status says it. */
__attribute__((noinline)) static ssize_t write_apart(bb_engine *engine, int stream, const void *bytes, size_t count)
{
    if (stream != OUTPUT)
        return stream == ERRORS ? (ssize_t)count : refused(engine, EBADF);
    return is_post(bytes, count) ? write_post(engine, bytes, count) : write_text(engine, bytes, count);
}

/* Whether a post that is as the one before may be where the command ends. At the clock is looked for some of these alone. */
static inline bool may_end(bb_engine *engine)
{
    return (engine->deadline && engine->posts->room % UNWATCHED == 0) ||
           atomic_load_explicit(&engine->cancelled, memory_order_relaxed);
}

/* Whether a text is a post of the function that was posted last, so that its values are to be read alone. */
static inline bool is_as_before(bb_engine *engine, const char *text, size_t bytes)
{
    struct bb_kept *kept = engine->posts;
    return kept && kept->last && !may_end(engine) && is_post_with(kept->front, text, bytes);
}

/* Keeps the values that were put behind the others, as those of one call more of the last run. */
static inline ssize_t keep_call(bb_engine *engine, size_t values, size_t count)
{
    struct bb_kept *posts = engine->posts;
    posts->values_kept += values;
    posts->last->calls++;
    return --posts->room ? (ssize_t)count : kept(engine, count);
}

/* Keeps a post that is as the one before, if its values are plain ones. */
__attribute__((noinline)) static ssize_t write_as_before(bb_engine *engine, const char *text, size_t count)
{
    struct bb_kept *kept = engine->posts;
    const char *last = text + count - 2;
    bb_value *values = &kept->values[kept->values_kept];
    if (read_plains(text + kept->front->bytes, last, values, kept->last->count) != last)
        return write_apart(engine, OUTPUT, text, count);
    return keep_call(engine, kept->last->count, count);
}

/* The program writes a post as one line, by one call. Most have one value, and most of these no sign. */
ssize_t bb_write(int stream, const void *bytes, size_t count)
{
    bb_engine *engine = now;
    const char *text = bytes;
    if (stream != OUTPUT || !is_as_before(engine, text, count))
        return write_apart(engine, stream, bytes, count);
    struct bb_kept *kept = engine->posts;
    const char *at = text + kept->front->bytes;
    bool is_natural = kept->last->count == 1 && digit_at(at) < 10 &&
                      read_natural(at, &kept->values[kept->values_kept]) == text + count - 2;
    return is_natural ? keep_call(engine, 1, count) : write_as_before(engine, text, count);
}

/* What the program's start calls, to say that the processor lacks what it was built for. */
ssize_t bb_write_plainly(int stream, const void *bytes, size_t count)
{
    return bb_write(stream, bytes, count);
}

/* Whether a line is an ask, which is read then. */
static bool is_ask(bb_engine *engine, const char *line, const char *end)
{
    const char *values = bb_read_front(line, end, &engine->ask);
    return values && !engine->ask.posted && bb_read_values(values, end, &engine->ask, engine->values) == end;
}

bb_state bb_take_last_line(bb_engine *engine)
{
    size_t end = engine->output_bytes;
    if (!end || engine->output[end - 1] != '\n')
        return BB_ENDED;
    const char *before = memrchr(engine->output, '\n', end - 1);
    const char *line = before ? before + 1 : engine->output;
    const char *line_end = engine->output + end;
    size_t bytes = (size_t)(line_end - line);
    bb_state state = BB_ENDED;
    if (bytes == 5 && memcmp(line, "done\n", 5) == 0)
        state = BB_DONE;
    else if (is_ask(engine, line, line_end))
        state = BB_ASKS;
    if (state != BB_ENDED) {
        engine->output_bytes -= bytes;
        engine->output[engine->output_bytes] = 0;
    }
    return state;
}

/* ---- What is read */

static size_t given(void *bytes, size_t count, struct piece *from)
{
    size_t some = count < from->left ? count : from->left;
    if (some)
        memcpy(bytes, from->at, some);
    from->at += some;
    from->left -= some;
    return some;
}

static size_t given_of_input(bb_engine *engine, void *bytes, size_t count)
{
    while (engine->input_at < engine->input_count && !engine->input[engine->input_at].left)
        engine->input_at++;
    if (engine->input_at == engine->input_count)
        return 0;
    return given(bytes, count, &engine->input[engine->input_at]);
}

ssize_t bb_read(int stream, void *bytes, size_t count)
{
    bb_engine *engine = now;
    if (stream == PROFILE)
        return (ssize_t)given(bytes, count, &engine->profile);
    if (stream != INPUT) {
        engine->error = EBADF;
        return -1;
    }
    size_t some = given_of_input(engine, bytes, count);
    if (!some && count && !engine->input_ended) {
        stop(engine, BB_TO_HEAR);
        some = given_of_input(engine, bytes, count);
    }
    return (ssize_t)some;
}

/* ---- The profile is the one file, whatever its name */

int bb_open(const char *path, int flags, ...)
{
    (void)path;
    (void)flags;
    return PROFILE;
}

int bb_close(int stream)
{
    (void)stream;
    return 0;
}

/* ---- The rest */

int bb_errno(void)
{
    return now->error;
}

void bb_set_errno(int error)
{
    now->error = error;
}

/* The signals are the host's: the program would ignore SIGPIPE, and no pipe is there. */
void *bb_signal(int number, void *handler)
{
    (void)number;
    (void)handler;
    return NULL;
}

/* The words of the program's command line. Gives the word's bytes, -1 behind the last one, or -2 where it has no room.
 */
ssize_t bb_arg(size_t index, char *to, size_t room)
{
    char drivers[16], budget[24];
    const char *words[] = {"asremote", "--profile", "-", "--drivers", drivers, "--budget", budget};
    if (index >= sizeof words / sizeof *words)
        return -1;
    snprintf(drivers, sizeof drivers, "%lu", (unsigned long)now->drivers);
    snprintf(budget, sizeof budget, "%llu", (unsigned long long)now->budget);
    size_t bytes = strlen(words[index]);
    memcpy(to, words[index], bytes < room ? bytes : room);
    return bytes <= room ? (ssize_t)bytes : -2;
}
