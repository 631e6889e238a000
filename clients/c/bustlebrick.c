/* The functions of bustlebrick.h. */
#define _GNU_SOURCE
#include "engine.h"

#include <errno.h>
#include <stdio.h>
#include <stdlib.h>
#include <string.h>

enum {
    MOST_DRIVERS = 64,
    MOST_BUDGET = 2147483647,
    BUDGET = 1000000,
    STACK = 8 << 20,
    KEPT_OUTPUT = 1 << 20, /* bytes of room for a reply that are kept for the next one */
    SPARE = 64 << 10,      /* bytes of the heap that a command may take beside those for its text */
    TEXTS = 8              /* for each byte of its text: the program has it several times, in room that is doubled */
};

/* ---- Whose turn it is */

/* `wanted` where the engine is in this state, and the caller may go on with it. */
static bb_state turn(const bb_engine *engine, bb_state wanted)
{
    if (!pthread_equal(engine->thread, pthread_self()))
        return BB_THREAD;
    if (engine->state == BB_ENDED)
        return BB_ENDED;
    return engine->state == wanted && !engine->in_host ? wanted : BB_BUSY;
}

/* ---- An engine's begin */

static bool are_right(const bb_options *options)
{
    return options->drivers <= MOST_DRIVERS && options->budget <= MOST_BUDGET &&
           (!options->stack_bytes ||
            (BB_LEAST_STACK <= options->stack_bytes && options->stack_bytes <= SIZE_MAX / 4)) &&
           (options->profile || !options->profile_bytes);
}

static void set_up(bb_engine *engine, const bb_options *options)
{
    engine->thread = pthread_self();
    engine->host = options->host;
    engine->data = options->data;
    engine->drivers = options->drivers ? options->drivers : 1;
    engine->budget = options->budget ? options->budget : BUDGET;
    engine->profile = (struct piece){options->profile, options->profile_bytes};
    engine->memory_most = options->memory_bytes ? options->memory_bytes : SIZE_MAX;
    engine->memory_now = engine->memory_most;
}

bb_engine *bb_new(const bb_options *options)
{
    if (!are_right(options)) {
        errno = EINVAL;
        return NULL;
    }
    bb_engine *engine = calloc(1, sizeof *engine);
    if (!engine)
        return NULL;
    set_up(engine, options);
    if (!bb_map_stack(&engine->stack, options->stack_bytes ? options->stack_bytes : STACK, bb_begin_program)) {
        free(engine);
        errno = ENOMEM;
        return NULL;
    }
    bb_run(engine);
    engine->profile = (struct piece){NULL, 0};
    return engine;
}

/* ---- Commands */

static size_t sum_to(size_t one, size_t other)
{
    return one <= SIZE_MAX - other ? one + other : SIZE_MAX;
}

/* The limit of memory of a command with so many bytes. */
static size_t memory_for(const bb_engine *engine, size_t bytes)
{
    size_t most = sum_to(engine->memory_most, engine->memory_most / 2);
    size_t needed = sum_to(engine->memory_used, SPARE + TEXTS * bytes);
    size_t lower = needed < most ? needed : most;
    return lower > engine->memory_most ? lower : engine->memory_most;
}

/* Lets the room for a reply go where the last one was a long one. */
static void forget_reply(bb_engine *engine)
{
    engine->output_bytes = 0;
    if (engine->output_room > KEPT_OUTPUT) {
        free(engine->output);
        engine->output = NULL;
        engine->output_room = 0;
    }
    if (engine->output)
        engine->output[0] = 0;
}

static uint64_t sum_of_times(uint64_t one, uint64_t other)
{
    return one <= UINT64_MAX - other ? one + other : UINT64_MAX;
}

/* Begins the command that these pieces are. */
static bb_state begin(bb_engine *engine, const struct piece *pieces, size_t count)
{
    size_t bytes = 0;
    for (size_t at = 0; at < count; at++)
        bytes += pieces[at].left;
    memcpy(engine->input, pieces, count * sizeof *pieces);
    engine->input_at = 0;
    engine->input_count = count;
    forget_reply(engine);
    engine->memory_now = memory_for(engine, bytes);
    engine->growths = 0;
    engine->has_written = false;
    if (engine->line_is_lent)
        bb_leave_line(engine);
    bb_leave_lists(engine);
    atomic_store_explicit(&engine->cancelled, false, memory_order_relaxed);
    engine->deadline = engine->timeout ? sum_of_times(bb_now(), engine->timeout) : 0;
    bb_run(engine);
    return engine->state;
}

/* The LF that a text lacks. */
static struct piece last_end(const char *text, size_t bytes)
{
    return (struct piece){"\n", !bytes || text[bytes - 1] != '\n'};
}

bb_state bb_begin(bb_engine *engine, const char *text, size_t bytes)
{
    bb_state state = turn(engine, BB_DONE);
    if (state != BB_DONE)
        return state;
    if (!bb_is_command(text, bytes))
        return BB_FORM;
    struct piece pieces[] = {{text, bytes}, last_end(text, bytes)};
    return begin(engine, pieces, 2);
}

/* Goes on after a post. */
static bb_state go_past(bb_engine *engine)
{
    bb_tell(engine);
    return engine->state;
}

/* Goes on after an ask, which is answered so. */
static bb_state go_on(bb_engine *engine, const bb_answer *answer)
{
    engine->input[0] = (struct piece){engine->answer, bb_write_answer(engine->answer, answer)};
    engine->input_at = 0;
    engine->input_count = 1;
    bb_run(engine);
    return engine->state;
}

bb_state bb_resume(bb_engine *engine, const bb_answer *answer)
{
    bb_state state = turn(engine, BB_ASKS);
    if (state != BB_ASKS)
        return state;
    return engine->ask.posted ? go_past(engine) : go_on(engine, answer);
}

static void leave_host(bb_engine **engine)
{
    (*engine)->in_host = false;
}

static const bb_answer nothing = {BB_VOID, 0, {BB_NULL, {0}}};

/* Asks the host's function, which an exception may leave. */
static void ask_host(bb_engine *engine, bb_answer *answer)
{
    __attribute__((cleanup(leave_host))) bb_engine *asking = engine;
    asking->in_host = true;
    *answer = nothing;
    asking->host(asking->data, &asking->ask, answer);
}

/* Tells it what is posted, and all that is posted behind that. */
static void tell_host(bb_engine *engine)
{
    __attribute__((cleanup(leave_host))) bb_engine *telling = engine;
    telling->in_host = true;
    do {
        bb_answer dropped = nothing;
        telling->host(telling->data, &telling->ask, &dropped);
    } while (bb_next_call(telling) || bb_next_post(telling));
}

static bb_state by_host(bb_engine *engine)
{
    if (engine->ask.posted) {
        tell_host(engine);
        return go_past(engine);
    }
    bb_answer answer;
    ask_host(engine, &answer);
    return go_on(engine, &answer);
}

/* Goes on to the command's end by the host's function, if there is one. */
static bb_state by_callback(bb_engine *engine, bb_state state)
{
    while (state == BB_ASKS && engine->host)
        state = by_host(engine);
    return state;
}

bb_state bb_command(bb_engine *engine, const char *text, size_t bytes)
{
    return by_callback(engine, bb_begin(engine, text, bytes));
}

bb_state bb_section(bb_engine *engine, const char *name, const char *text, size_t bytes)
{
    static const char head[] = "section ";
    char count[32];
    size_t name_bytes = strlen(name), lines = bb_count_lines(text, bytes);
    bb_state state = turn(engine, BB_DONE);
    if (state != BB_DONE)
        return state;
    if (!name_bytes || strpbrk(name, " \n") || bytes > MOST_COMMAND || name_bytes > MOST_COMMAND)
        return BB_FORM;
    size_t count_bytes = (size_t)snprintf(count, sizeof count, " %zu\n", lines);
    struct piece end = bytes ? last_end(text, bytes) : (struct piece){NULL, 0};
    if (sizeof head - 1 + name_bytes + count_bytes + bytes + end.left > MOST_COMMAND)
        return BB_FORM;
    struct piece pieces[] = {{head, sizeof head - 1}, {name, name_bytes}, {count, count_bytes}, {text, bytes}, end};
    return by_callback(engine, begin(engine, pieces, MOST_PIECES));
}

void bb_cancel(bb_engine *engine)
{
    atomic_store_explicit(&engine->cancelled, true, memory_order_relaxed);
}

void bb_set_timeout(bb_engine *engine, uint64_t milliseconds)
{
    if (pthread_equal(engine->thread, pthread_self()))
        engine->timeout = milliseconds;
}

/* ---- What it says */

const bb_ask *bb_asked(const bb_engine *engine)
{
    return engine->state == BB_ASKS ? &engine->ask : NULL;
}

const bb_posts *bb_take_posts(bb_engine *engine, size_t *runs)
{
    *runs = 0;
    bool is_posted = turn(engine, BB_ASKS) == BB_ASKS && engine->ask.posted;
    return is_posted ? bb_rest_of_posts(engine, runs) : NULL;
}

/* The bytes of the reply: at an ask, or where something is posted, there is none yet. */
static size_t reply_bytes(const bb_engine *engine)
{
    return engine->state == BB_ASKS ? 0 : engine->output_bytes;
}

const char *bb_reply(const bb_engine *engine, size_t *bytes)
{
    *bytes = reply_bytes(engine);
    return *bytes ? engine->output : "";
}

const char *bb_outcome(const bb_engine *engine, size_t *bytes)
{
    size_t end = reply_bytes(engine), begin = end ? end - 1 : 0;
    while (begin && engine->output[begin - 1] != '\n')
        begin--;
    *bytes = end ? end - 1 - begin : 0;
    return end ? engine->output + begin : "";
}

bb_state bb_state_of(const bb_engine *engine)
{
    return engine->state;
}

/* The program may have ended before the host was told all that it posted. */
int bb_status(const bb_engine *engine)
{
    return engine->state == BB_ENDED ? engine->status : 0;
}

size_t bb_memory_used(const bb_engine *engine)
{
    return engine->memory_used;
}

size_t bb_stack_used(const bb_engine *engine)
{
    return bb_stack_in_memory(&engine->stack);
}

const char *bb_version(void)
{
    return BB_VERSION;
}

/* ---- Its end */

bb_state bb_end(bb_engine *engine)
{
    bb_state state = turn(engine, engine->state == BB_ASKS ? BB_ASKS : BB_DONE);
    if (state != BB_DONE && state != BB_ASKS)
        return state;
    engine->input_count = engine->input_at = 0;
    engine->input_ended = true;
    if (state == BB_ASKS && engine->ask.posted)
        bb_tell(engine);
    else
        bb_run(engine);
    return engine->state;
}

bb_state bb_free(bb_engine *engine)
{
    if (!engine)
        return BB_ENDED;
    bb_state state = bb_end(engine);
    if (state != BB_ENDED)
        return state;
    bb_unmap_stack(&engine->stack);
    free(engine->line);
    for (size_t at = 0; at < LISTS; at++)
        free(engine->lists[at].block);
    free(engine->posts);
    free(engine->output);
    free(engine);
    return BB_ENDED;
}

#ifdef BB_TRIAL
/* Of the trial's build alone: refuses that growth of each command from here on (0: none); how many the last one had. */
void bb_refuse_growth(bb_engine *engine, size_t number)
{
    engine->refuse_at = number;
}

size_t bb_growths(const bb_engine *engine)
{
    return engine->growths;
}
#endif
