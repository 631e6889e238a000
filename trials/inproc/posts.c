/* Functions that are posted, by the callback, by steps, and by steps that take many at once.

       posts

   Says what went wrong, and then the status is 1. */
#include "bustlebrick.h"

#include <stdio.h>
#include <string.h>

enum { POSTS = 5000 };

static const char profile[] =
    "mask 00000001\nposted 0 0 void say(int64)\nfunction 0 1 int64 last()\nposted 0 2 void other(int64, bool)\n"
    "posted 0 3 void all(int64, int, int, int, int, int, int, int, int, int, int, int, int, int, int, int)\n"
    "posted 0 4 void below(int64)\nposted 0 5 void natural(uint64)\n";

static const char script[] =
    "int64 mixed(int64 n) { int64 wrong = 0; for (int64 i = 0; i < n; i++) { say(i); say(i + n); if (last() != i + n) wrong++; } return wrong; }\n"
    "void many(int64 n) { for (int64 i = 0; i < n; i++) say(i); }\n"
    "int64 turns(int64 n) { for (int64 i = 0; i < n; i++) { say(2 * i); other(2 * i + 1, true); } return last(); }\n"
    "int64 between(int64 n) { int64 wrong = 0; for (int64 i = 0; i < n; i++) { say(3 * i); other(3 * i + 1, true); "
    "say(3 * i + 2); if (last() != 3 * i + 2) wrong++; } return wrong; }\n"
    "void down(int64 n) { for (int64 i = 0; i < n; i++) below(i - 9223372036854775807); }\n"
    "void up(int64 n) { for (int64 i = 0; i < n; i++) natural(uint64(i)); }\n"
    "void wide(int64 n) { for (int64 i = 0; i < n; i++) all(i, -1, 0, 0, 0, 0, 0, 0, 0, 0, 0, 0, 0, 0, 0, 0); }\n";

static int64_t last;
static size_t heard, out_of_order;
static int bad;

static void wants(bool holds, const char *what)
{
    if (holds)
        return;
    printf("WRONG: %s\n", what);
    bad = 1;
}

static void host(void *data, const bb_ask *ask, bb_answer *answer)
{
    (void)data;
    if (ask->function != 1) {
        wants(ask->posted, "a posted function is posted");
        out_of_order += ask->values[0].as.i64 != (int64_t)heard + (ask->function == 4 ? -INT64_MAX : 0);
        wants(ask->values[0].kind == (ask->function == 5 ? BB_UINT : BB_INT), "a value is of its kind");
        last = ask->values[0].as.i64;
        heard++;
        *answer = (bb_answer){BB_FAULT, 9, {BB_NULL, {0}}}; /* which is dropped */
        return;
    }
    wants(!ask->posted, "an asked function is asked");
    *answer = (bb_answer){BB_GAVE, 0, {BB_INT, {last}}};
}

/* Where the first ask of all was, posted or not, and where its values were. */
static const bb_ask *first_place(const bb_ask *ask)
{
    static const bb_ask *first;
    return first = first ? first : ask;
}

static const bb_value *first_values(const bb_ask *ask)
{
    static const bb_value *first;
    return first = first ? first : ask->values;
}

static bb_state by_steps(bb_engine *engine, const char *text)
{
    size_t bytes;
    bb_state state = bb_begin(engine, text, strlen(text));
    while (state == BB_ASKS) {
        bb_answer answer = {BB_VOID, 0, {BB_NULL, {0}}};
        const bb_ask *ask = bb_asked(engine);
        wants(ask == first_place(ask) && ask->values == first_values(ask), "asks and their values have one place each");
        bool posted = ask->posted;
        (void)bb_reply(engine, &bytes);
        wants(bytes == 0, "there is no reply where something is posted");
        host(NULL, ask, &answer);
        state = bb_resume(engine, posted ? NULL : &answer);
    }
    return state;
}

/* The host's function for each call of a run, of which all but the first have the same function. */
static void take(const bb_posts *run)
{
    for (size_t call = 0; call < run->calls; call++) {
        bb_ask ask = {BB_CALL, run->driver, run->function, false, true, 0, run->count, run->values + call * run->count};
        bb_answer answer;
        host(NULL, &ask, &answer);
    }
}

static size_t most_runs, most_calls;

static bb_state at_once(bb_engine *engine, const char *text)
{
    size_t runs;
    bb_state state = bb_begin(engine, text, strlen(text));
    while (state == BB_ASKS) {
        bb_answer answer = {BB_VOID, 0, {BB_NULL, {0}}};
        const bb_posts *posts = bb_take_posts(engine, &runs);
        wants(!posts == !runs && !posts == !bb_asked(engine)->posted, "posts are taken where some wait");
        for (size_t at = 0; at < runs; at++) {
            most_calls = posts[at].calls > most_calls ? posts[at].calls : most_calls;
            take(&posts[at]);
        }
        most_runs = runs > most_runs ? runs : most_runs;
        if (!runs)
            host(NULL, bb_asked(engine), &answer);
        state = bb_resume(engine, runs ? NULL : &answer);
    }
    return state;
}

static bool ends_so(const bb_engine *engine, const char *outcome)
{
    size_t bytes;
    const char *text = bb_outcome(engine, &bytes);
    return bytes == strlen(outcome) && memcmp(text, outcome, bytes) == 0;
}

static bb_engine *prepared(bb_host callback, uint64_t budget)
{
    bb_options options = {.profile = profile, .profile_bytes = sizeof profile - 1, .budget = budget, .host = callback};
    bb_engine *engine = bb_new(&options);
    static const char module[] = "module m 00000001\n", build[] = "build m\n";
    wants(engine && bb_command(engine, module, sizeof module - 1) == BB_DONE, "there is a module");
    wants(bb_section(engine, "m", script, sizeof script - 1) == BB_DONE, "it has a section");
    wants(bb_command(engine, build, sizeof build - 1) == BB_DONE && ends_so(engine, "ok"), "it is built");
    return engine;
}

typedef bb_state way(bb_engine *engine, const char *text);

static bb_state by_callback(bb_engine *engine, const char *text)
{
    return bb_command(engine, text, strlen(text));
}

/* A command whose posts count up from 0. */
static void counts_up(bb_engine *engine, way *done, const char *command, const char *outcome, size_t posts)
{
    heard = out_of_order = 0;
    bb_state state = done(engine, command);
    wants(state == BB_DONE && ends_so(engine, outcome), command);
    wants(heard == posts && out_of_order == 0, "all posts are heard, in their order");
}

static void all(const char *name, bb_engine *engine, way *done)
{
    counts_up(engine, done, "call m (5000) void many(int64)\n", "ok", POSTS);
    counts_up(engine, done, "call m (2500) int64 turns(int64)\n", "ok 4999", POSTS);
    counts_up(engine, done, "call m (5000) void wide(int64)\n", "ok", POSTS);
    counts_up(engine, done, "call m (5000) void down(int64)\n", "ok", POSTS);
    counts_up(engine, done, "call m (5000) void up(int64)\n", "ok", POSTS);
    counts_up(engine, done, "call m (5000) void many(int64)\n", "ok", POSTS);
    counts_up(engine, done, "prepare m void many(int64)\n", "ok", 0);
    counts_up(engine, done, "run 0 (5000)\n", "ok", POSTS);
    counts_up(engine, done, "call m (1000) int64 between(int64)\n", "ok 0", 3000);
    heard = 0;
    bb_state state = done(engine, "call m (1000) int64 mixed(int64)\n");
    wants(state == BB_DONE && ends_so(engine, "ok 0"), "posts come before what is asked after them");
    printf("%s: %zu posts\n", name, 7 * POSTS + 3000 + heard);
}

static bb_engine *to_cancel;

static void cancel(void *data, const bb_ask *ask, bb_answer *answer)
{
    host(data, ask, answer);
    if (heard == 10)
        bb_cancel(to_cancel);
}

/* A script that posts on and on ends where its command is cancelled: the posts that the library has by then are heard. */
static void ends_by_a_cancel(void)
{
    static const char more[] = "call m (100000) void many(int64)\n";
    to_cancel = prepared(cancel, 0);
    heard = out_of_order = 0;
    bb_state state = bb_command(to_cancel, more, sizeof more - 1);
    wants(state == BB_DONE && ends_so(to_cancel, "fault Host 4294967280"), "a cancel ends a script that posts");
    wants(10 <= heard && heard < 10000 && out_of_order == 0, "what was posted before is heard");
    counts_up(to_cancel, by_callback, "call m (5) void many(int64)\n", "ok", 5);
    wants(bb_free(to_cancel) == BB_ENDED, "it is freed");
    puts("a cancel ends a script that posts");
}

/* The same where it takes too long: the next post is refused, or the next growth of the heap. */
static void ends_by_a_timeout(void)
{
    static const char more[] = "call m (2000000000) void many(int64)\n";
    bb_engine *engine = prepared(host, 2147483647);
    bb_set_timeout(engine, 50);
    heard = out_of_order = 0;
    bb_state state = bb_command(engine, more, sizeof more - 1);
    wants(state == BB_DONE && (ends_so(engine, "fault Host 4294967280") || ends_so(engine, "fault Memory")),
          "a timeout ends a script that posts");
    wants(heard > 0 && out_of_order == 0, "what was posted before a timeout is heard");
    bb_set_timeout(engine, 0);
    counts_up(engine, by_callback, "call m (5) void many(int64)\n", "ok", 5);
    wants(bb_free(engine) == BB_ENDED, "it is freed");
    puts("a timeout ends a script that posts");
}

int main(void)
{
    bb_engine *one = prepared(host, 0), *two = prepared(NULL, 0);
    size_t runs;
    all("posts by the callback", one, by_callback);
    all("posts by steps", two, by_steps);
    all("posts at once", two, at_once);
    ends_by_a_cancel();
    ends_by_a_timeout();
    wants(most_runs > 100 && most_calls > 800, "many posts are taken at once");
    wants(!bb_take_posts(two, &runs) && !runs, "nothing is taken where nothing waits");
    static const char many[] = "call m (5000) void many(int64)\n";
    wants(bb_begin(two, many, sizeof many - 1) == BB_ASKS && bb_asked(two)->posted, "a post waits");
    wants(bb_end(two) == BB_ENDED, "an engine ends while a post waits");
    wants(ends_so(two, "fault Host 4294967280"), "its script can't post on");
    wants(bb_free(one) == BB_ENDED && bb_free(two) == BB_ENDED, "both are freed");
    return bad;
}
