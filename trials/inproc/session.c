/* asrun over the library: runs a session with the drivers of asrun in C, and prints what asrun prints.

       session [--steps | --at-once] [--stack BYTES] [--memory BYTES] [--budget N] --profile PROFILE --session SESSION

   By the callback; with --steps by steps; with --at-once too, and then what is posted is taken at once. The status is
   asrun's; 9 for what can't be. With --memory a last line on standard error has the bytes of the heap, and of the stack
   that was used. */
#include "bustlebrick.h"
#include "commands.h"
#include "drivers.h"

#include <stdio.h>
#include <stdlib.h>
#include <string.h>

struct run {
    bool by_steps, at_once, tells;
    bb_options options;
    const char *profile, *session;
};

/* The number of the option's word. */
static size_t number(const char *word)
{
    return strtoull(word, NULL, 10);
}

static struct run chosen(int count, char **words)
{
    struct run run = {.options = {.drivers = 3}};
    for (int at = 1; at < count; at++) {
        const char *name = words[at];
        if (strcmp(name, "--steps") == 0 || strcmp(name, "--at-once") == 0) {
            run.by_steps = true;
            run.at_once = strcmp(name, "--at-once") == 0;
            continue;
        }
        const char *value = ++at < count ? words[at] : "";
        if (strcmp(name, "--stack") == 0)
            run.options.stack_bytes = number(value);
        else if (strcmp(name, "--memory") == 0)
            run.options.memory_bytes = number(value), run.tells = true;
        else if (strcmp(name, "--budget") == 0)
            run.options.budget = number(value);
        else if (strcmp(name, "--profile") == 0)
            run.profile = value;
        else if (strcmp(name, "--session") == 0)
            run.session = value;
    }
    return run;
}

/* Tells the drivers all that is posted and waits. */
static void take_posts(bb_engine *engine, struct drivers *drivers)
{
    size_t runs;
    const bb_posts *posts = bb_take_posts(engine, &runs);
    for (const bb_posts *run = posts; run < posts + runs; run++)
        for (size_t call = 0; call < run->calls; call++) {
            bb_answer answer = {BB_VOID, 0, {BB_NULL, {0}}};
            bb_ask ask = {BB_CALL, run->driver, run->function, false, true, 0, run->count, run->values + call * run->count};
            drivers_answer(drivers, &ask, &answer);
        }
}

static bb_state by_steps(const struct run *run, bb_engine *engine, struct drivers *drivers, const char *text, size_t bytes)
{
    bb_state state = bb_begin(engine, text, bytes);
    while (state == BB_ASKS) {
        bb_answer answer = {BB_VOID, 0, {BB_NULL, {0}}};
        if (run->at_once && bb_asked(engine)->posted)
            take_posts(engine, drivers);
        else
            drivers_answer(drivers, bb_asked(engine), &answer);
        state = bb_resume(engine, &answer);
    }
    return state;
}

static bool is_bad_line(const char *reply, size_t bytes)
{
    static const char bad[] = "refused BadLine\n";
    return bytes == sizeof bad - 1 && memcmp(reply, bad, bytes) == 0;
}

static size_t count_lfs(const char *text, size_t bytes)
{
    size_t count = 0;
    for (size_t at = 0; at < bytes; at++)
        count += text[at] == '\n';
    return count;
}

/* Does the commands of a session, and prints their replies. The status: 2 where a line ends it, as it does asrun. */
static int converse(const struct run *run, bb_engine *engine, struct drivers *drivers, struct text session)
{
    size_t line = 1, bytes;
    for (size_t at = 0; at < session.count;) {
        const char *text = session.bytes + at;
        size_t count = command_at(text, session.count - at);
        bb_state state = run->by_steps ? by_steps(run, engine, drivers, text, count) : bb_command(engine, text, count);
        const char *reply = bb_reply(engine, &bytes);
        if (state == BB_FORM || (state == BB_DONE && is_bad_line(reply, bytes))) {
            printf("line %zu BadLine\n", line);
            return 2;
        }
        fwrite(reply, 1, bytes, stdout);
        drivers_replied(drivers, reply, bytes);
        if (state != BB_DONE)
            return state == BB_ENDED ? bb_status(engine) : 9;
        line += count_lfs(text, count);
        at += count;
    }
    return bb_end(engine) == BB_ENDED ? bb_status(engine) : 9;
}

int main(int count, char **words)
{
    struct run run = chosen(count, words);
    if (!run.profile || !run.session)
        return 9;
    struct text profile = text_of(run.profile), session = text_of(run.session);
    struct drivers drivers = {0};
    run.options.profile = profile.bytes;
    run.options.profile_bytes = profile.count;
    run.options.host = run.by_steps ? NULL : drivers_answer;
    run.options.data = &drivers;
    bb_engine *engine = bb_new(&run.options);
    if (!engine) {
        perror("bb_new");
        return 9;
    }
    size_t bytes;
    int status;
    if (bb_state_of(engine) == BB_ENDED) {
        const char *reply = bb_reply(engine, &bytes);
        fwrite(reply, 1, bytes, stdout);
        status = bb_status(engine);
    } else
        status = converse(&run, engine, &drivers, session);
    if (run.tells)
        fprintf(stderr, "heap %zu stack %zu\n", bb_memory_used(engine), bb_stack_used(engine));
    if (bb_free(engine) != BB_ENDED)
        status = 9;
    drivers_free(&drivers);
    free(profile.bytes);
    free(session.bytes);
    return status;
}
