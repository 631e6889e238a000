/* What a host call and a command take in C: with the engine in this process (clients/c), and with asremote over pipes.

       inproc ASREMOTE PROFILE [CALLS [ROUNDS]]

   PROFILE is a path, where the profile of both is written. In each round each row is done CALLS times (20,000), and the
   time of one counts. A tenth as many go before, which don't count, so that no row begins cold behind those of the other
   process; prints the median of ROUNDS rounds (25) and the lower tenth, as a table. Then some rows are laid
   beside others, by the median of what their quotient was in each round. bench/remote.py --library runs it. */
#define _GNU_SOURCE
#include "bustlebrick.h"

#include <stdio.h>
#include <stdlib.h>
#include <string.h>
#include <sys/wait.h>
#include <time.h>
#include <unistd.h>

static const char profile[] =
    "mask 00000001\n"
    "function 0 0 void put(int64)\n"
    "function 0 1 int64 sum(int64, int64)\n"
    "posted 0 2 void drop(int64)\n";

static const char script[] =
    "section m 5\n"
    "void run(int64 n) { for (int64 i = 0; i < n; i++) put(i); }\n"
    "int64 sums(int64 n) { int64 s = 0; for (int64 i = 0; i < n; i++) s = sum(s, i); return s; }\n"
    "int64 idle(int64 n) { int64 s = 0; for (int64 i = 0; i < n; i++) s += i; return s; }\n"
    "void nothing() {}\n"
    "void posts(int64 n) { for (int64 i = 0; i < n; i++) drop(i); }\n";

static int64_t total;
static uint64_t asked;

static double now_us(void)
{
    struct timespec now;
    clock_gettime(CLOCK_MONOTONIC, &now);
    return (double)now.tv_sec * 1e6 + (double)now.tv_nsec / 1e3;
}

static void fail(const char *what)
{
    fprintf(stderr, "inproc: %s\n", what);
    exit(1);
}

/* ---- In this process */

static void host(void *data, const bb_ask *ask, bb_answer *answer)
{
    (void)data;
    asked++;
    if (ask->function != 1) {
        total += ask->values[0].as.i64;
        return;
    }
    answer->kind = BB_GAVE;
    answer->value.kind = BB_INT;
    answer->value.as.i64 = ask->values[0].as.i64 + ask->values[1].as.i64;
}

static void here(bb_engine *engine, const char *text)
{
    size_t bytes;
    if (bb_command(engine, text, strlen(text)) != BB_DONE || memcmp(bb_outcome(engine, &bytes), "ok", 2) != 0)
        fail(text);
}

static void by_steps(bb_engine *engine, const char *text)
{
    bb_state state = bb_begin(engine, text, strlen(text));
    while (state == BB_ASKS) {
        bb_answer answer = {BB_VOID, 0, {BB_NULL, {0}}};
        host(NULL, bb_asked(engine), &answer);
        state = bb_resume(engine, &answer);
    }
    if (state != BB_DONE)
        fail(text);
}

/* ---- Over pipes */

static struct {
    int to, from;
    pid_t child;
    char bytes[1 << 16];
    size_t at, end;
} pipes;

static void start(const char *program, const char *path)
{
    int in[2], out[2];
    if (pipe(in) || pipe(out))
        fail("no pipe");
    pipes.child = fork();
    if (!pipes.child) {
        dup2(in[0], 0);
        dup2(out[1], 1);
        close(in[1]);
        close(out[0]);
        execl(program, program, "--profile", path, "--budget", "2147483647", (char *)NULL);
        _exit(9);
    }
    close(in[0]);
    close(out[1]);
    pipes.to = in[1];
    pipes.from = out[0];
}

static void put(const char *text, size_t bytes)
{
    while (bytes) {
        ssize_t some = write(pipes.to, text, bytes);
        if (some <= 0)
            fail("asremote takes nothing");
        text += some;
        bytes -= (size_t)some;
    }
}

/* The next line, with its LF; it holds until the next call. */
static const char *line(void)
{
    char *end;
    while (!(end = memchr(pipes.bytes + pipes.at, '\n', pipes.end - pipes.at))) {
        memmove(pipes.bytes, pipes.bytes + pipes.at, pipes.end - pipes.at);
        pipes.end -= pipes.at;
        pipes.at = 0;
        ssize_t some = read(pipes.from, pipes.bytes + pipes.end, sizeof pipes.bytes - pipes.end);
        if (some <= 0)
            fail("asremote ended");
        pipes.end += (size_t)some;
    }
    const char *begin = pipes.bytes + pipes.at;
    pipes.at = (size_t)(end + 1 - pipes.bytes);
    return begin;
}

/* `ask 0 call F - (V,V)` */
static void answer(const char *ask)
{
    char text[32], *at = strchr(ask, '(') + 1;
    long long one = strtoll(at, &at, 10);
    asked++;
    if (ask[11] == '0') {
        total += one;
        put("void\n", 5);
    } else {
        put(text, (size_t)snprintf(text, sizeof text, "%lld\n", one + strtoll(at + 1, NULL, 10)));
    }
}

/* `post 0 call F - (V)` */
static void take(const char *post)
{
    asked++;
    total += strtoll(strchr(post, '(') + 1, NULL, 10);
}

static void there(const char *text)
{
    put(text, strlen(text));
    for (const char *next = line(); memcmp(next, "done\n", 5) != 0; next = line())
        if (memcmp(next, "ask ", 4) == 0)
            answer(next);
        else if (memcmp(next, "post ", 5) == 0)
            take(next);
        else if (memcmp(next, "refused", 7) == 0 || memcmp(next, "fault", 5) == 0)
            fail(text);
}

/* ---- Rows */

enum { CALLBACK, STEPS, CALLBACK_SUM, POST, COMMAND, TURN, REMOTE, REMOTE_SUM, REMOTE_POST, REMOTE_COMMAND, REMOTE_TURN, ROWS };

static const char *const names[ROWS] = {
    "in process, `void put(int64)` by a callback", "in process, the same by steps",
    "in process, `int64 sum(int64, int64)`",       "in process, `void put(int64)` posted",
    "in process, a command",                       "in process, a turn of an empty loop",
    "asremote, `void put(int64)`",                 "asremote, `int64 sum(int64, int64)`",
    "asremote, `void put(int64)` posted",          "asremote, a command",
    "asremote, a turn of an empty loop",
};

enum { MOST_ROUNDS = 1000 };

static double times[ROWS][MOST_ROUNDS];

static void do_row(int row, bb_engine *engine, long calls)
{
    static const char nothing[] = "call m () void nothing()\n";
    char run[64], sums[64], idle[64], posts[64];
    snprintf(posts, sizeof posts, "call m (%ld) void posts(int64)\n", calls);
    snprintf(run, sizeof run, "call m (%ld) void run(int64)\n", calls);
    snprintf(sums, sizeof sums, "call m (%ld) int64 sums(int64)\n", calls);
    snprintf(idle, sizeof idle, "call m (%ld) int64 idle(int64)\n", calls);
    switch (row) {
    case CALLBACK:
        here(engine, run);
        break;
    case STEPS:
        by_steps(engine, run);
        break;
    case CALLBACK_SUM:
        here(engine, sums);
        break;
    case POST:
        here(engine, posts);
        break;
    case COMMAND:
        for (long at = 0; at < calls; at++)
            here(engine, nothing);
        break;
    case TURN:
        here(engine, idle);
        break;
    case REMOTE:
        there(run);
        break;
    case REMOTE_SUM:
        there(sums);
        break;
    case REMOTE_POST:
        there(posts);
        break;
    case REMOTE_COMMAND:
        for (long at = 0; at < calls; at++)
            there(nothing);
        break;
    case REMOTE_TURN:
        there(idle);
        break;
    }
}

static int compare(const void *one, const void *other)
{
    double a = *(const double *)one, b = *(const double *)other;
    return (a > b) - (a < b);
}

static double median_of(double *figures, long count)
{
    qsort(figures, (size_t)count, sizeof(double), compare);
    return figures[count / 2];
}

/* What one row takes of another. */
static void quotient(const char *name, int row, int other, long rounds)
{
    double each[MOST_ROUNDS];
    for (long round = 0; round < rounds; round++)
        each[round] = times[row][round] / times[other][round];
    printf("| %s | %.2f |\n", name, median_of(each, rounds));
}

static void print_quotients(long rounds)
{
    printf("\n| median of the rounds | |\n|---|---|\n");
    quotient("in process, posted by asked", POST, CALLBACK, rounds);
    quotient("asremote, posted by asked", REMOTE_POST, REMOTE, rounds);
    quotient("`void put(int64)`, in process by asremote", CALLBACK, REMOTE, rounds);
    quotient("`int64 sum(int64, int64)`, in process by asremote", CALLBACK_SUM, REMOTE_SUM, rounds);
    quotient("a command, in process by asremote", COMMAND, REMOTE_COMMAND, rounds);
}

static void print_times(long rounds)
{
    printf("| | median | lower tenth |\n|---|---|---|\n");
    for (int row = 0; row < ROWS; row++) {
        double each[MOST_ROUNDS];
        memcpy(each, times[row], sizeof each);
        double median = median_of(each, rounds);
        printf("| %s | %.3f | %.3f |\n", names[row], median, each[rounds / 10]);
    }
}

static bb_engine *prepared(const char *program, const char *path)
{
    bb_options options = {.profile = profile, .profile_bytes = sizeof profile - 1, .budget = 2147483647, .host = host};
    bb_engine *engine = bb_new(&options);
    FILE *file = fopen(path, "w");
    if (!engine || !file)
        fail("no engine, or no profile");
    fputs(profile, file);
    fclose(file);
    start(program, path);
    line(); /* the first `done` */
    static const char *const commands[] = {"module m 00000001\n", script, "build m\n"};
    for (int at = 0; at < 3; at++) {
        here(engine, commands[at]);
        there(commands[at]);
    }
    return engine;
}

int main(int count, char **words)
{
    long calls = count > 3 ? atol(words[3]) : 20000, rounds = count > 4 ? atol(words[4]) : 25;
    if (count < 3 || calls < 1 || rounds < 1 || rounds > MOST_ROUNDS)
        fail("ASREMOTE PROFILE [CALLS [ROUNDS]]");
    long warm = (calls + 9) / 10;
    bb_engine *engine = prepared(words[1], words[2]);
    for (long round = 0; round < rounds; round++)
        for (int row = 0; row < ROWS; row++) {
            do_row(row, engine, warm);
            double before = now_us();
            do_row(row, engine, calls);
            times[row][round] = (now_us() - before) / (double)calls;
        }
    if (asked != (uint64_t)(7 * (calls + warm) * rounds))
        fail("asks are missing");
    printf("%ld calls in each of %ld rounds, in microseconds, with a host in C (%s)\n\n", calls, rounds, bb_version());
    print_times(rounds);
    print_quotients(rounds);
    bb_free(engine);
    close(pipes.to);
    waitpid(pipes.child, NULL, 0);
    return 0;
}
