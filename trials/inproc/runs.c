/* Posts around each size at which the library goes another way with them: how many values and runs of calls it keeps before
   the host is told, how many posts come between two looks at the clock, how long a list of events counts as a long one.

       runs [few]

   With `few` it tries fewer sizes, for runs under valgrind. Prints a line for each part, and what went wrong; then the status
   is 1. */
#include "bustlebrick.h"

#include <stdio.h>
#include <stdlib.h>
#include <string.h>

/* What clients/c/engine.h has under these names: the values that are kept, those of a call, the runs. */
enum { MOST_VALUES = 1024, MOST_ARGUMENTS = 32, MOST_RUNS = 128, UNWATCHED = 64, LAST_ROOM = MOST_VALUES - MOST_ARGUMENTS };

/* The posted functions, by their numbers but for `far` and `other`; `turns` is `one` and `natural` in turn, `rounds` seven of
   them. */
enum kind { NONE, ONE, BELOW, NATURAL, TRUTH, PAIR, THREE, WIDE, FAR, OTHER, TURNS, ROUNDS, KINDS };

static const size_t counts[KINDS] = {0, 1, 1, 1, 1, 2, 3, MOST_ARGUMENTS, 2, 1, 1, 1};

static const enum kind in_turn[] = {ONE, NATURAL}, in_rounds[] = {NONE, ONE, OTHER, FAR, TRUTH, PAIR, THREE};

static const char profile[] =
    "mask 00000001\nposted 0 0 void none()\nposted 0 1 void one(int64)\nposted 0 2 void below(int64)\n"
    "posted 0 3 void natural(uint64)\nposted 0 4 void truth(bool)\nposted 0 5 void pair(int64, uint64)\n"
    "posted 0 6 void three(int64, bool, int64)\n"
    "posted 0 7 void wide(int64, int, int, int, int, int, int, int, int, int, int, int, int, int, int, int, "
    "bool, bool, bool, bool, bool, bool, bool, bool, uint, uint, uint, uint, uint, uint, uint, int64)\n"
    "posted 12 12345 void far(int64, bool)\nposted 1 1 void other(int64)\n";

/* `c` counts the calls of a command, so that each has values of its own. */
static const char script[] =
    "int64 c = 0;\n"
    "void nones(int64 n) { for (int64 i = 0; i < n; i++) { none(); c++; } }\n"
    "void ones(int64 n) { for (int64 i = 0; i < n; i++) { one(c); c++; } }\n"
    "void belows(int64 n) { for (int64 i = 0; i < n; i++) { below(-1 - c); c++; } }\n"
    "void naturals(int64 n) { for (int64 i = 0; i < n; i++) { natural(uint64(c)); c++; } }\n"
    "void truths(int64 n) { for (int64 i = 0; i < n; i++) { truth(c % 3 == 0); c++; } }\n"
    "void pairs(int64 n) { for (int64 i = 0; i < n; i++) { pair(c, uint64(c + 1)); c++; } }\n"
    "void threes(int64 n) { for (int64 i = 0; i < n; i++) { three(c, c % 3 == 0, -1 - c); c++; } }\n"
    "void wides(int64 n) { for (int64 i = 0; i < n; i++) { wide(c, 1, 2, 3, 4, 5, 6, 7, 8, 9, 10, 11, 12, 13, 14, -15, "
    "true, false, true, false, true, false, true, false, 24, 25, 26, 27, 28, 29, 30, -1 - c); c++; } }\n"
    "void fars(int64 n) { for (int64 i = 0; i < n; i++) { far(c, c % 3 == 0); c++; } }\n"
    "void others(int64 n) { for (int64 i = 0; i < n; i++) { other(c); c++; } }\n"
    "void turns(int64 n) { for (int64 i = 0; i < n; i++) { if (c % 2 == 0) one(c); else natural(uint64(c)); c++; } }\n"
    "void rounds(int64 n) { for (int64 i = 0; i < n; i++) { int64 k = c % 7; if (k == 0) none(); if (k == 1) one(c); "
    "if (k == 2) other(c); if (k == 3) far(c, c % 3 == 0); if (k == 4) truth(c % 3 == 0); "
    "if (k == 5) pair(c, uint64(c + 1)); if (k == 6) three(c, c % 3 == 0, -1 - c); c++; } }\n"
    "void some(int64 kind, int64 n) {\n"
    "    if (kind == 0) nones(n);\n    if (kind == 1) ones(n);\n    if (kind == 2) belows(n);\n"
    "    if (kind == 3) naturals(n);\n"
    "    if (kind == 4) truths(n);\n    if (kind == 5) pairs(n);\n    if (kind == 6) threes(n);\n    if (kind == 7) wides(n);\n"
    "    if (kind == 8) fars(n);\n    if (kind == 9) others(n);\n    if (kind == 10) turns(n);\n"
    "    if (kind == 11) rounds(n);\n}\n"
    "void parts(int64 one, int64 n, int64 other, int64 m) { c = 0; some(one, n); some(other, m); some(one, 2); }\n"
    "void late(int64 one, int64 n) { c = 0; some(one, 2); for (int64 i = 0; i < 2000000; i++) {} some(one, n); }\n";

static int bad;

static void wants(bool holds, const char *what, const char *command)
{
    if (holds)
        return;
    if (bad++ < 20)
        printf("WRONG: %s: %s", what, command);
}

/* ---- What is to be posted */

/* The parts of a command: so many calls of one kind, and then of others. */
struct part {
    enum kind kind;
    size_t calls;
};

static struct part parts[3];
static size_t part, in_part, heard;
static const char *doing;

static bool is_value(const bb_value *value, bb_kind kind, int64_t number)
{
    if (value->kind != kind)
        return false;
    return kind == BB_BOOL ? value->as.truth == (number != 0) : value->as.i64 == number;
}

static bool is_wide(const bb_value *values, int64_t c)
{
    bool right = is_value(&values[0], BB_INT, c) && is_value(&values[15], BB_INT, -15) && is_value(&values[31], BB_INT, -1 - c);
    for (int at = 1; at < 15; at++)
        right &= is_value(&values[at], BB_INT, at);
    for (int at = 16; at < 24; at++)
        right &= is_value(&values[at], BB_BOOL, at % 2 == 0);
    for (int at = 24; at < 31; at++)
        right &= is_value(&values[at], BB_UINT, at);
    return right;
}

/* Whether these are the values of the call of this number, from 0, of its command. */
static bool are_values(enum kind kind, const bb_value *values, int64_t c)
{
    switch (kind) {
    case ONE:
    case OTHER:
        return is_value(values, BB_INT, c);
    case FAR:
        return is_value(values, BB_INT, c) && is_value(values + 1, BB_BOOL, c % 3 == 0);
    case BELOW:
        return is_value(values, BB_INT, -1 - c);
    case NATURAL:
        return is_value(values, BB_UINT, c);
    case TRUTH:
        return is_value(values, BB_BOOL, c % 3 == 0);
    case PAIR:
        return is_value(values, BB_INT, c) && is_value(values + 1, BB_UINT, c + 1);
    case THREE:
        return is_value(values, BB_INT, c) && is_value(values + 1, BB_BOOL, c % 3 == 0) && is_value(values + 2, BB_INT, -1 - c);
    case WIDE:
        return is_wide(values, c);
    default:
        return kind == NONE;
    }
}

/* The function that is to be called next. */
static enum kind next_kind(void)
{
    while (part < 2 && in_part == parts[part].calls) {
        part++;
        in_part = 0;
    }
    in_part++;
    enum kind kind = parts[part].kind;
    if (kind == TURNS)
        return in_turn[heard % 2];
    return kind == ROUNDS ? in_rounds[heard % 7] : kind;
}

static void hear(const bb_ask *ask)
{
    enum kind kind = next_kind();
    uint32_t driver = kind == FAR ? 12 : kind == OTHER, function = kind == FAR ? 12345 : kind == OTHER ? 1 : kind;
    wants(ask->posted && ask->kind == BB_CALL && !ask->has_object, "a post is one", doing);
    wants(ask->driver == driver && ask->function == function, "the function is the next", doing);
    wants(ask->count == counts[kind], "there are as many values", doing);
    wants(ask->count == counts[kind] && are_values(kind, ask->values, (int64_t)heard), "the values are its own", doing);
    heard++;
}

/* ---- The ways to hear of posts */

static void host(void *data, const bb_ask *ask, bb_answer *answer)
{
    (void)data;
    (void)answer;
    hear(ask);
}

typedef bb_state way(bb_engine *engine, const char *text);

static bb_state by_callback(bb_engine *engine, const char *text)
{
    return bb_command(engine, text, strlen(text));
}

static bb_state by_steps(bb_engine *engine, const char *text)
{
    bb_state state = bb_begin(engine, text, strlen(text));
    for (; state == BB_ASKS; state = bb_resume(engine, NULL))
        hear(bb_asked(engine));
    return state;
}

/* Hears the calls of a run, and gives how many values these have. */
static size_t hear_run(const bb_posts *run)
{
    for (size_t call = 0; call < run->calls; call++) {
        bb_ask ask = {BB_CALL, run->driver, run->function, false, true, 0, run->count, run->values + call * run->count};
        hear(&ask);
    }
    return run->calls * run->count;
}

static size_t most_values, most_runs;

static bb_state at_once(bb_engine *engine, const char *text)
{
    bb_state state = bb_begin(engine, text, strlen(text));
    for (; state == BB_ASKS; state = bb_resume(engine, NULL)) {
        size_t runs, values = 0, calls = 0;
        const bb_posts *posts = bb_take_posts(engine, &runs);
        wants(posts && runs, "posts are taken where some wait", text);
        for (size_t at = 0; at < runs; calls += posts[at++].calls)
            values += hear_run(&posts[at]);
        most_values = values > most_values ? values : most_values;
        most_runs = runs > most_runs ? runs : most_runs;
        bool few = calls <= MOST_VALUES && values <= MOST_VALUES && runs <= MOST_RUNS;
        wants(few, "no more than is kept is taken at once", text);
    }
    return state;
}

/* By steps, and then all that is left at once. */
static bb_state half_at_once(bb_engine *engine, const char *text)
{
    bb_state state = bb_begin(engine, text, strlen(text));
    for (size_t turn = 0; state == BB_ASKS; state = bb_resume(engine, NULL), turn++) {
        size_t runs = 0;
        const bb_posts *posts = turn % 7 == 6 ? bb_take_posts(engine, &runs) : NULL;
        for (size_t at = 0; at < runs; at++)
            hear_run(&posts[at]);
        if (!posts)
            hear(bb_asked(engine));
    }
    return state;
}

/* ---- Commands */

static bool ends_so(const bb_engine *engine, const char *outcome)
{
    size_t bytes;
    const char *text = bb_outcome(engine, &bytes);
    return bytes == strlen(outcome) && memcmp(text, outcome, bytes) == 0;
}

static bb_engine *prepared(bb_host callback)
{
    bb_options options = {
        .profile = profile, .profile_bytes = sizeof profile - 1, .drivers = 13, .budget = 2147483647, .host = callback};
    bb_engine *engine = bb_new(&options);
    if (!engine || by_callback(engine, "module m 00000001\n") != BB_DONE ||
        bb_section(engine, "m", script, sizeof script - 1) != BB_DONE || by_callback(engine, "build m\n") != BB_DONE ||
        !ends_so(engine, "ok")) {
        printf("WRONG: there is no engine with the script\n");
        exit(1);
    }
    return engine;
}

/* So many calls of one kind, of another, and two of the first. */
static void does(bb_engine *engine, way *done, struct part one, struct part other)
{
    char text[128];
    snprintf(text, sizeof text, "call m (%d,%zu,%d,%zu) void parts(int64, int64, int64, int64)\n", (int)one.kind, one.calls,
             (int)other.kind, other.calls);
    parts[0] = one;
    parts[1] = other;
    parts[2] = (struct part){one.kind, 2};
    part = in_part = heard = 0;
    doing = text;
    bb_state state = done(engine, text);
    wants(state == BB_DONE && ends_so(engine, "ok"), "the command ends well", text);
    wants(heard == one.calls + other.calls + 2, "all posts are heard", text);
}

/* ---- Values and runs that are kept */

static size_t commands;

/* How many values, or runs of one call, stand before a call. */
static const size_t places[] = {0,   1,   62,  63,  64,  65,  126, 127, 128,  129,  254,  256,  257,  958,  959,  960,  961,
                                989, 990, 991, 992, 993, 994, 1022, 1023, 1024, 1025, 1026, 1983, 1984, 1985, 2047, 2048, 2049};

/* Around as many calls of a kind as are kept at once. */
static void around(bb_engine *engine, way *done, struct part before, enum kind kind)
{
    size_t each = counts[kind] ? counts[kind] : 1, full = LAST_ROOM / each, whole = MOST_VALUES / each;
    size_t sizes[] = {1, 2, full - 1, full, full + 1, full + 2, whole - 1, whole, whole + 1, 2 * full + 1};
    for (size_t at = 0; at < sizeof sizes / sizeof *sizes; at++, commands++)
        does(engine, done, before, (struct part){kind, sizes[at]});
}

static void sizes(bb_engine *engine, way *done, bool few)
{
    for (size_t place = 0; place < sizeof places / sizeof *places; place += few ? 5 : 1)
        for (int kind = 0; kind < KINDS; kind++) {
            around(engine, done, (struct part){ONE, places[place]}, (enum kind)kind);
            if (few)
                continue;
            around(engine, done, (struct part){TURNS, places[place]}, (enum kind)kind);
            around(engine, done, (struct part){PAIR, places[place] / 2}, (enum kind)kind);
            around(engine, done, (struct part){WIDE, places[place] / MOST_ARGUMENTS}, (enum kind)kind);
        }
}

static void all_sizes(bool few)
{
    bb_engine *one = prepared(host), *two = prepared(NULL);
    sizes(one, by_callback, few);
    sizes(two, by_steps, few);
    sizes(two, at_once, few);
    sizes(two, half_at_once, few);
    does(two, at_once, (struct part){NONE, LAST_ROOM - 1}, (struct part){ONE, LAST_ROOM});
    does(two, at_once, (struct part){ONE, 1}, (struct part){NONE, 2 * LAST_ROOM});
    wants(most_values > LAST_ROOM || few, "more values are kept than leave room for any call", "sizes\n");
    wants(most_values == MOST_VALUES - 1 || few, "as many values as can be are kept at once", "sizes\n");
    wants(most_runs == MOST_RUNS, "as many runs as there is room for are kept at once", "sizes\n");
    wants(bb_free(one) == BB_ENDED && bb_free(two) == BB_ENDED, "the engines end", "sizes\n");
    printf("sizes: %zu commands, in four ways\n", commands);
}

/* ---- The clock: a script posts, is busy until its timeout is past, and posts on. One of the next 64 posts is refused */

static void late(bb_engine *engine, enum kind kind, size_t calls)
{
    char text[64];
    snprintf(text, sizeof text, "call m (%d,%zu) void late(int64, int64)\n", (int)kind, calls);
    parts[0] = parts[1] = parts[2] = (struct part){kind, calls + 2};
    part = in_part = heard = 0;
    doing = text;
    bb_state state = by_callback(engine, text);
    bool ended = ends_so(engine, "fault Host 4294967280") || ends_so(engine, "fault Memory");
    wants(state == BB_DONE && (ended || ends_so(engine, "ok")), "a late command ends", text);
    wants(ended || calls < UNWATCHED, "a late command ends by one of its next posts", text);
    wants(ended ? heard < 2 + UNWATCHED : heard == 2 + calls, "what was posted before that is heard", text);
}

static void clock_is_watched(bool few)
{
    bb_engine *engine = prepared(host);
    bb_set_timeout(engine, 1);
    for (int kind = 0; kind < (few ? BELOW : KINDS); kind++)
        for (size_t calls = UNWATCHED - 1; calls <= UNWATCHED + 1; calls++)
            late(engine, (enum kind)kind, calls);
    wants(bb_free(engine) == BB_ENDED, "the engine ends", "late\n");
    puts("clock: commands that go on after their timeout");
}

/* ---- Lists of events that grow past the size from which they are kept */

/* Whether a reply begins with as many lines of events as there are calls, each with its number. */
static bool lists_ones(const bb_engine *engine, size_t calls)
{
    size_t bytes;
    const char *at = bb_reply(engine, &bytes);
    for (size_t call = 0; call < calls + 2; call++) {
        char line[64];
        int length = snprintf(line, sizeof line, "host m 1 0 - (%zu) void\n", call);
        if (strncmp(at, line, (size_t)length) != 0)
            return false;
        at += length;
    }
    return strcmp(at, "ok\n") == 0;
}

static void lists(bool few)
{
    bb_engine *engine = prepared(host);
    does(engine, by_callback, (struct part){ONE, 1}, (struct part){ONE, 0});
    size_t used = bb_memory_used(engine);
    for (size_t calls = 0; calls < 700; calls += few ? 40 : 1) {
        does(engine, by_callback, (struct part){ONE, calls}, (struct part){ONE, 0});
        wants(lists_ones(engine, calls), "all events are listed", "lists\n");
        does(engine, by_callback, (struct part){WIDE, calls / 8}, (struct part){ONE, 3});
        wants(bb_memory_used(engine) == used, "as much memory is used as before", "lists\n");
    }
    wants(bb_free(engine) == BB_ENDED, "the engine ends", "lists\n");
    printf("lists: commands of up to 700 posts\n");
}

int main(int count, char **words)
{
    bool few = count > 1 && strcmp(words[1], "few") == 0;
    all_sizes(few);
    clock_is_watched(few);
    lists(few);
    return bad != 0;
}
