/* Trials of forms, threads, waits, many engines, cancels, timeouts, limits of memory and long lists of events.

       engines PART ..

   Prints a line for each part, and what went wrong as it comes. The status is 1 where something did. */
#include "bustlebrick.h"

#include <errno.h>
#include <pthread.h>
#include <stdatomic.h>
#include <stdio.h>
#include <stdlib.h>
#include <string.h>
#include <time.h>
#include <unistd.h>

static int bad;

static bool is_right(bool right, const char *what)
{
    if (!right) {
        bad = 1;
        printf("WRONG: %s\n", what);
    }
    return right;
}

/* ---- What all parts use: an engine with the module `m` */

static const char profile[] = "mask 00000001\nfunction 0 0 void put(int64)\nposted 0 1 void tell(int64)\n";

static const char script[] = "void run(int64 n) { for (int64 i = 0; i < n; i++) put(i); }\n"
                             "void tells(int64 n) { for (int64 i = 0; i < n; i++) tell(i); }\n"
                             "void spin() { while (true) {} }\n"
                             "int two() { return 2; }\n";

static bb_options options(bb_host host, void *data)
{
    return (bb_options){.profile = profile, .profile_bytes = sizeof profile - 1, .host = host, .data = data};
}

static bb_state say(bb_engine *engine, const char *text)
{
    return bb_command(engine, text, strlen(text));
}

static bool outcome_is(const bb_engine *engine, const char *wanted)
{
    size_t bytes;
    const char *outcome = bb_outcome(engine, &bytes);
    return bytes == strlen(wanted) && memcmp(outcome, wanted, bytes) == 0;
}

static bool is_answered(bb_engine *engine, const char *text, const char *wanted)
{
    return say(engine, text) == BB_DONE && outcome_is(engine, wanted);
}

static bool is_well(bb_engine *engine)
{
    return is_answered(engine, "call m () int two()", "ok 2");
}

static void build(bb_engine *engine, const char *text)
{
    say(engine, "module m 00000001");
    bb_section(engine, "m", text, strlen(text));
    is_right(is_answered(engine, "build m", "ok"), "a module is built");
}

static bb_engine *started(const bb_options *options)
{
    bb_engine *engine = bb_new(options);
    if (!is_right(engine && bb_state_of(engine) == BB_DONE, "an engine starts"))
        exit(1);
    build(engine, script);
    return engine;
}

static void add(void *data, const bb_ask *ask, bb_answer *answer)
{
    (void)answer;
    *(int64_t *)data += ask->values[0].as.i64;
}

static const bb_answer nothing = {BB_VOID, 0, {BB_NULL, {0}}};

/* ---- forms: options, texts that are no command, and what is out of turn */

static void refused(bb_options options, int why, const char *what)
{
    errno = 0;
    is_right(!bb_new(&options) && errno == why, what);
}

static void try_options(void)
{
    bb_options right = options(NULL, NULL), it = right;
    it.drivers = 65, refused(it, EINVAL, "65 drivers are too many");
    it = right, it.budget = 2147483648, refused(it, EINVAL, "a budget is too large");
    it = right, it.stack_bytes = BB_LEAST_STACK - 1, refused(it, EINVAL, "a stack is too small");
    it = right, it.stack_bytes = SIZE_MAX, refused(it, EINVAL, "a stack is too large");
    it = right, it.stack_bytes = (size_t)1 << 50, refused(it, ENOMEM, "a stack can't be mapped");
    it = right, it.profile = NULL, refused(it, EINVAL, "a profile is missing");
    it = right, it.stack_bytes = BB_LEAST_STACK, it.drivers = 64, it.budget = 2147483647;
    bb_free(started(&it));
    it = right, it.profile = "mask 00000001\nnonsense\n", it.profile_bytes = strlen(it.profile);
    bb_engine *engine = bb_new(&it);
    is_right(bb_state_of(engine) == BB_ENDED && bb_status(engine) == 2, "a refused profile ends the engine");
    is_right(outcome_is(engine, "profile 2 BadLine"), "a refused profile is told");
    is_right(say(engine, "module m 00000001") == BB_ENDED && bb_free(engine) == BB_ENDED, "what has ended stays so");
}

static const char *const no_commands[] = {
    "section",
    "section m",
    "section m x",
    "section  1\nx",
    "section m 1",
    "section m 1\n",
    "section m 1\nx\ny",
    "section m 2\nx",
    "section m 0\nx",
    "section m 1 1\nx",
    "section m -1\nx",
    "section m 12345678901\nx",
    "SECTION m 1\nx",
    " section m 1\nx",
    "section\tm 1\nx",
    "1section m 1\nx",
    "Sections",
    "call m () int two()\ncall m () int two()",
    "\n\n",
    "build m\n\n",
    "#\nx",
};

static const char *const bad_lines[] = {"nonsense",         "build",      "build m m", "call m", "call m () ",
                                        "modul m 00000001", "sectio m 1", "\r\r",      "a#"};

static void try_forms(bb_engine *engine)
{
    size_t bytes;
    for (size_t at = 0; at < sizeof no_commands / sizeof *no_commands; at++)
        is_right(say(engine, no_commands[at]) == BB_FORM, no_commands[at]);
    for (size_t at = 0; at < sizeof bad_lines / sizeof *bad_lines; at++)
        is_right(is_answered(engine, bad_lines[at], "refused BadLine"), bad_lines[at]);
    static const char *const empty[] = {"", "\n", "\r\n", "# section m 1", "#\r\n"};
    for (size_t at = 0; at < sizeof empty / sizeof *empty; at++)
        is_right(say(engine, empty[at]) == BB_DONE && (bb_reply(engine, &bytes), bytes == 0),
                 "an empty line says nothing");
    is_right(is_answered(engine, "section m 2\nint a;\nint b;", "ok"), "a section without its last LF");
    is_right(is_answered(engine, "section m 1\r\nint c;\r\n", "ok"), "a section with CRs");
    is_right(is_answered(engine, "section m 0", "ok"), "a section without lines");
    is_right(is_answered(engine, "build m", "ok"), "the sections are built");
    is_right(bb_section(engine, "", "", 0) == BB_FORM && bb_section(engine, "a b", "", 0) == BB_FORM &&
                 bb_section(engine, "a\nb", "", 0) == BB_FORM,
             "names that are none");
    is_right(bb_section(engine, "m", NULL, 0) == BB_DONE && outcome_is(engine, "ok"), "an empty section");
}

/* Texts of random pieces: each is refused here, or is one command, which the engine lives through. */
static int try_random(bb_engine *engine)
{
    static const char *const pieces[] = {
        "section", "SECTION", "sEction", "section m ", "section m 1\n", " ", " ", "m",  "0", "1", "2",
        "12",      "\n",      "\n",      "\r",         "\r\n",          "#", "x", "\t", "-", "_", "call m () int two()",
        "build m"};
    enum { TEXTS = 50000, PIECES = sizeof pieces / sizeof *pieces };
    int done = 0;
    srand(1);
    for (int number = 0; number < TEXTS; number++) {
        char text[400] = "";
        size_t bytes;
        for (int count = rand() % 10; count >= 0; count--)
            strcat(text, pieces[rand() % PIECES]);
        bb_state state = say(engine, text);
        const char *reply = bb_reply(engine, &bytes);
        is_right(strlen(reply) == bytes, "a reply ends before a 0");
        done += state == BB_DONE;
        if (state == BB_DONE && bytes && (memchr(reply, '\n', bytes) != reply + bytes - 1) &&
            memcmp(reply, "error", 5) != 0)
            is_right(false, "a text is one command");
        if (!is_right(state == BB_DONE || state == BB_FORM, text))
            break;
    }
    return done;
}

static void try_long(bb_engine *engine)
{
    enum { MOST = 16777216 };
    char *text = malloc(MOST);
    memset(text, 'x', MOST);
    is_right(bb_command(engine, text, MOST) == BB_FORM, "a command that is too long");
    is_right(bb_command(engine, text, MOST - 1) == BB_DONE && outcome_is(engine, "refused BadLine"),
             "the longest line");
    size_t head = strlen("section m 1\n");
    is_right(bb_section(engine, "m", text, MOST - head) == BB_FORM, "a section that is too long");
    is_right(bb_section(engine, "m", text, MOST - head - 1) == BB_DONE && outcome_is(engine, "ok"),
             "the longest section");
    is_right(is_answered(engine, "build m", "refused BuildErrors"),
             "the longest section is refused by the build alone");
    free(text);
}

static void try_turns(bb_engine *engine)
{
    size_t bytes;
    is_right(bb_resume(engine, &nothing) == BB_BUSY && !bb_asked(engine), "an answer where none is wanted");
    is_right(bb_begin(engine, "call m (2) void run(int64)", 26) == BB_ASKS, "a script asks");
    is_right(say(engine, "build m") == BB_BUSY && bb_section(engine, "m", "", 0) == BB_BUSY,
             "a command within a command");
    is_right(bb_asked(engine)->kind == BB_CALL && bb_asked(engine)->count == 1 && !bb_asked(engine)->has_object,
             "what is asked");
    is_right((bb_reply(engine, &bytes), bytes == 0), "no reply while a script waits");
    bb_answer answer = {(bb_answer_kind)77, 0, {BB_NULL, {0}}};
    is_right(bb_resume(engine, &answer) == BB_DONE && outcome_is(engine, "fault Host 4294967283"),
             "an answer of no kind");
    bb_begin(engine, "call m (2) void run(int64)", 26);
    is_right(bb_end(engine) == BB_ENDED && outcome_is(engine, "fault Host 4294967282"), "an end where a script waits");
    is_right(bb_status(engine) == 1 && bb_end(engine) == BB_ENDED && bb_memory_used(engine) == 0,
             "nothing is left of it");
}

static void forms(void)
{
    bb_options it = options(NULL, NULL);
    bb_engine *engine = started(&it);
    try_options();
    try_forms(engine);
    try_long(engine);
    int done = try_random(engine);
    say(engine, "discard m");
    build(engine, script);
    try_turns(engine);
    bb_free(engine);
    is_right(bb_free(NULL) == BB_ENDED, "nothing is freed");
    printf("forms: options, lines, sections and turns were tried; of 50,000 random texts %d were one command\n", done);
}

/* ---- threads */

static void *from_elsewhere(void *data)
{
    bb_engine *engine = data;
    is_right(say(engine, "call m () int two()") == BB_THREAD && bb_begin(engine, "", 0) == BB_THREAD,
             "a command of another thread");
    is_right(bb_section(engine, "m", "", 0) == BB_THREAD && bb_resume(engine, &nothing) == BB_THREAD,
             "a section of another thread");
    is_right(bb_end(engine) == BB_THREAD && bb_free(engine) == BB_THREAD, "an end of another thread");
    return NULL;
}

enum { THREADS = 8, CALLS = 20000 };

static void *with_its_own(void *data)
{
    (void)data;
    int64_t sum = 0;
    bb_options it = options(add, &sum);
    bb_engine *engine = started(&it);
    char text[64];
    snprintf(text, sizeof text, "call m (%d) void run(int64)", CALLS);
    is_right(is_answered(engine, text, "ok"), "a call in a thread");
    is_right(sum == (int64_t)CALLS * (CALLS - 1) / 2, "the asks of a thread");
    bb_free(engine);
    return NULL;
}

static void threads(void)
{
    bb_options it = options(NULL, NULL);
    bb_engine *engine = started(&it);
    pthread_t all[THREADS];
    pthread_create(all, NULL, from_elsewhere, engine);
    pthread_join(all[0], NULL);
    bb_begin(engine, "call m (1) void run(int64)", 26);
    pthread_create(all, NULL, from_elsewhere, engine);
    pthread_join(all[0], NULL);
    is_right(bb_resume(engine, &nothing) == BB_DONE && outcome_is(engine, "ok"), "the script that waited goes on");
    bb_free(engine);
    for (int at = 0; at < THREADS; at++)
        pthread_create(&all[at], NULL, with_its_own, NULL);
    for (int at = 0; at < THREADS; at++)
        pthread_join(all[at], NULL);
    printf("threads: wrong ones were refused; %d threads had an engine each, with %d asks\n", THREADS, CALLS);
}

/* ---- waits: engines in the callbacks of others, and scripts that wait */

enum { DEEP = 100 };

struct inner {
    bb_engine *all[DEEP];
    int at;
};

/* The callback of an engine runs the next one; none may be used again meanwhile. */
static void ask_next(void *data, const bb_ask *ask, bb_answer *answer)
{
    struct inner *inner = data;
    bb_engine *own = inner->all[inner->at];
    is_right(say(own, "build m") == BB_BUSY && bb_resume(own, answer) == BB_BUSY, "a command of its own callback");
    is_right(bb_end(own) == BB_BUSY && bb_free(own) == BB_BUSY && bb_state_of(own) == BB_ASKS,
             "an end by its own callback");
    is_right(bb_asked(own) == ask, "the ask of a callback");
    if (inner->at + 1 == DEEP)
        return;
    inner->at++;
    is_right(is_answered(inner->all[inner->at], "call m (1) void run(int64)", "ok"),
             "an engine in another one's callback");
    inner->at--;
}

static void waits(void)
{
    struct inner inner = {{NULL}, 0};
    bb_options it = options(ask_next, &inner), by_steps = options(NULL, NULL);
    bb_engine *waiting = started(&by_steps);
    bb_begin(waiting, "call m (3) void run(int64)", 26);
    for (int at = 0; at < DEEP; at++)
        inner.all[at] = started(&it);
    is_right(is_answered(inner.all[0], "call m (1) void run(int64)", "ok"), "engines in one another's callbacks");
    for (int at = 0; at < DEEP; at++) {
        is_right(is_well(inner.all[at]), "an engine after it");
        bb_free(inner.all[at]);
    }
    is_right(bb_asked(waiting)->values[0].as.i64 == 0, "a script waits");
    is_right(bb_resume(waiting, &nothing) == BB_ASKS && bb_resume(waiting, &nothing) == BB_ASKS, "it goes on");
    is_right(bb_resume(waiting, &nothing) == BB_DONE && is_well(waiting), "it is done");
    bb_free(waiting);
    printf("waits: %d engines in one another's callbacks, while a script of another one waited\n", DEEP);
}

/* ---- many: an engine for each script that waits */

static double now_us(void)
{
    struct timespec now;
    clock_gettime(CLOCK_MONOTONIC, &now);
    return (double)now.tv_sec * 1e6 + (double)now.tv_nsec / 1e3;
}

static long resident_kib(void)
{
    long all, resident = 0;
    FILE *file = fopen("/proc/self/statm", "r");
    if (file && fscanf(file, "%ld %ld", &all, &resident) != 2)
        resident = 0;
    if (file)
        fclose(file);
    return resident * 4;
}

static void many_of(int count, int rounds)
{
    bb_options it = options(NULL, NULL);
    bb_engine **all = calloc((size_t)count, sizeof *all);
    char text[64];
    int done = 0;
    snprintf(text, sizeof text, "call m (%d) void run(int64)", rounds);
    long before = resident_kib();
    double start = now_us();
    for (int at = 0; at < count; at++) {
        all[at] = started(&it);
        is_right(say(all[at], text) == BB_ASKS, "a script asks");
    }
    double made = now_us() - start;
    long each = (resident_kib() - before) / count;
    start = now_us();
    for (int round = 0; round < rounds; round++)
        for (int at = 0; at < count; at++)
            done += bb_resume(all[at], &nothing) == BB_DONE;
    double asked = now_us() - start;
    is_right(done == count, "each script is done in the last round");
    start = now_us();
    for (int at = 0; at < count; at++)
        bb_free(all[at]);
    double freed = now_us() - start;
    printf("many: %d engines with a script that waits, each %.0f us and %ld KiB with a module; an answer %.2f us; an "
           "end %.0f us\n",
           count, made / count, each, asked / count / rounds, freed / count);
    free(all);
}

/* ---- cancels */

static _Atomic(bb_engine *) target;
static atomic_int wait_us, armed, stopped;

static void *canceller(void *data)
{
    (void)data;
    while (!stopped) {
        if (!armed)
            continue;
        usleep((useconds_t)wait_us);
        bb_cancel(target);
        armed = 0;
    }
    return NULL;
}

static char *large_section(void)
{
    char *text = malloc(1 << 20), *at = text;
    for (int number = 0; number < 1000; number++)
        at += sprintf(at, "int64 f%d(int64 a) { return a + %d; }\n", number, number);
    return text;
}

/* Does a command that is cancelled after a random time, and gives its outcome's kind: 0 done, 1 want of memory, 2 the
   engine ended, 3 anything else. */
static int cancelled(bb_engine *engine, const char *text)
{
    size_t bytes;
    wait_us = rand() % 8000;
    armed = 1;
    bb_state state = say(engine, text);
    while (armed)
        continue;
    if (state != BB_DONE)
        return 2;
    const char *outcome = bb_outcome(engine, &bytes);
    if (bytes >= 2 && memcmp(outcome, "ok", 2) == 0)
        return 0;
    return outcome_is(engine, "fault Memory") || outcome_is(engine, "refused BuildMemory") ||
                   outcome_is(engine, "refused Memory")
               ? 1
               : 3;
}

static void cancels(void)
{
    enum { TRIES = 400 };
    int64_t sum = 0;
    int kinds[4] = {0}, after = 0;
    bb_options it = options(add, &sum);
    bb_engine *engine = started(&it);
    char *text = large_section();
    pthread_t thread;
    say(engine, "module n 00000001");
    target = engine;
    pthread_create(&thread, NULL, canceller, NULL);
    srand(1);
    for (int number = 0; number < TRIES; number++) {
        if (number % 2)
            bb_section(engine, "n", text, strlen(text));
        int kind = cancelled(engine, number % 2 ? "build n" : "call m (100000) void run(int64)");
        kinds[kind]++;
        if (!is_right(kind < 2, "a cancel ends the command alone"))
            break;
        after += is_well(engine);
    }
    stopped = 1;
    pthread_join(thread, NULL);
    is_right(after == TRIES, "the command after a cancel");
    printf("cancels: of %d commands %d were done, %d ended for want of memory, %d ended the engine, %d otherwise; %d "
           "next ones were right\n",
           TRIES, kinds[0], kinds[1], kinds[2], kinds[3], after);
    bb_free(engine);
    free(text);
}

/* ---- timeouts */

static double milliseconds(void)
{
    struct timespec now;
    clock_gettime(CLOCK_MONOTONIC, &now);
    return (double)now.tv_sec * 1e3 + (double)now.tv_nsec / 1e6;
}

static void *set_short_timeout(void *engine)
{
    bb_set_timeout(engine, 1);
    return NULL;
}

enum { TIMEOUT = 50 };

/* A run that would take minutes, and ends at its timeout. Gives the milliseconds that it took. */
static double ended_late(bb_engine *engine, const char *command, const char *outcome)
{
    double begun = milliseconds();
    is_right(is_answered(engine, command, outcome), "a timeout ends a run");
    double taken = milliseconds() - begun;
    is_right(taken >= TIMEOUT - 10, "a timeout comes not too early");
    is_right(is_well(engine), "the command after a timeout");
    return taken;
}

/* Runs that would take minutes end at their timeout, by asks or by posts; what is quick, and what has none, does not. */
static void timeouts(void)
{
    enum { TRIES = 10 };
    int64_t sum = 0;
    bb_options it = options(add, &sum);
    it.budget = 2147483647;
    bb_engine *engine = started(&it);
    double longest = 0;
    bb_set_timeout(engine, TIMEOUT);
    for (int number = 0; number < TRIES; number++) {
        double asked = ended_late(engine, "call m (1000000000) void run(int64)", "fault Memory");
        double posted = ended_late(engine, "call m (1000000000) void tells(int64)", "fault Host 4294967280");
        longest = asked > longest ? asked : longest;
        longest = posted > longest ? posted : longest;
    }
    bb_set_timeout(engine, UINT64_MAX);
    is_right(is_answered(engine, "call m (100000) void run(int64)", "ok"), "a long timeout ends nothing");
    bb_set_timeout(engine, 0);
    is_right(is_answered(engine, "call m (100000) void run(int64)", "ok"), "no timeout ends nothing");
    pthread_t thread;
    pthread_create(&thread, NULL, set_short_timeout, engine);
    pthread_join(thread, NULL);
    is_right(is_answered(engine, "call m (100000) void run(int64)", "ok"), "a timeout of another thread is not set");
    printf("timeouts: %d runs ended after %d milliseconds, the last of them after %.0f\n", 2 * TRIES, TIMEOUT, longest);
    bb_free(engine);
}

/* ---- memory: scripts that use their engine's memory up */

/* A script whose `hold` has a global hold 200 objects that hold 250 ones of so many fields each. */
static char *hoarding(int fields)
{
    char *text = malloc(1 << 16), *at = text + sprintf(text, "class A {");
    for (int number = 0; number < fields; number++)
        at += sprintf(at, " int f%d;", number);
    at += sprintf(at, " }\nclass B {\n");
    for (int number = 0; number < 250; number++)
        at += sprintf(at, "A@ a%d;\n", number);
    at += sprintf(at, "B() {\n");
    for (int number = 0; number < 250; number++)
        at += sprintf(at, "@a%d = A();\n", number);
    at += sprintf(at, "}\n}\nclass C {\n");
    for (int number = 0; number < 200; number++)
        at += sprintf(at, "B@ b%d;\n", number);
    at += sprintf(at, "}\nC@ kept = C();\nvoid hold() {\n");
    for (int number = 0; number < 200; number++)
        at += sprintf(at, "@kept.b%d = B();\n", number);
    sprintf(at, "}\n");
    return text;
}

/* Holds objects and asks the host, in turn, below a limit of memory: how often it was used up. */
static int use_up(bb_engine *engine, size_t limit, bool holds)
{
    int used_up = 0;
    for (int number = 0; number < 8 && bb_state_of(engine) == BB_DONE; number++) {
        bool asks = !holds || number % 2 == 0;
        bb_state state = say(engine, asks ? "call m (1000000000) void run(int64)" : "call h () void hold()");
        bool is_used_up = outcome_is(engine, "fault Memory");
        is_right(state == BB_ENDED || is_used_up || (!asks && outcome_is(engine, "ok")), "memory is used up");
        is_right(bb_memory_used(engine) <= limit + limit / 2, "a limit is held");
        is_right(state == BB_ENDED || say(engine, "call m () int two()") == BB_DONE, "the engine is there");
        used_up += is_used_up;
    }
    return used_up;
}

static void hoard(size_t limit, int fields, int *used_up, int *ends)
{
    int64_t sum = 0;
    bb_options it = options(add, &sum);
    it.memory_bytes = limit;
    it.budget = 2147483647;
    bb_engine *engine = started(&it);
    char *text = hoarding(fields);
    say(engine, "module h 00000001");
    bb_section(engine, "h", text, strlen(text));
    bool builds = is_answered(engine, "build h", "ok");
    is_right(builds || outcome_is(engine, "refused BuildMemory"), "a build within a limit");
    *used_up += use_up(engine, limit, builds);
    *ends += bb_state_of(engine) == BB_ENDED;
    if (bb_state_of(engine) == BB_DONE && builds) {
        say(engine, "discard h");
        is_right(is_well(engine), "the engine after what was hoarded is given up");
    }
    bb_free(engine);
    free(text);
}

static void memory(void)
{
    int used_up = 0, ends = 0, count = 0;
    for (size_t limit = 1 << 19; limit <= 16 << 20; limit += limit / 3) {
        hoard(limit, 1, &used_up, &ends);
        hoard(limit, 200, &used_up, &ends);
        count += 2;
    }
    bb_options it = options(NULL, NULL);
    it.memory_bytes = 1000;
    bb_engine *engine = bb_new(&it);
    is_right(bb_state_of(engine) == BB_ENDED && bb_status(engine) == 3, "there is no memory to start");
    bb_free(engine);
    printf("memory: %d engines with limits of 0.5 to 16 MiB, whose scripts used all of it up %d times; %d of them ended\n",
           count, used_up, ends);
}

/* ---- */

/* ---- Long lists of events, whose blocks are kept from one command to the next */

static void nothing_of(void *data, const bb_ask *ask, bb_answer *answer)
{
    (void)data;
    (void)ask;
    (void)answer;
}

/* Whether the reply has a line for each of so many calls, in their order, and then `ok`. */
static bool lists_calls(const bb_engine *engine, int calls)
{
    size_t bytes;
    const char *at = bb_reply(engine, &bytes), *end = at + bytes;
    char line[64];
    for (int call = 0; call < calls; call++) {
        size_t length = (size_t)snprintf(line, sizeof line, "host m 0 0 - (%d) void\n", call);
        if ((size_t)(end - at) < length || memcmp(at, line, length) != 0)
            return false;
        at += length;
    }
    return end - at == 3 && memcmp(at, "ok\n", 3) == 0;
}

static void lists(void)
{
    static const size_t limits[] = {0, 32 << 20, 500 << 20};
    static const int calls[] = {20000, 20000, 3000, 20000, 90000, 10, 40000, 20000};
    for (size_t limit = 0; limit < sizeof limits / sizeof *limits; limit++) {
        bb_options it = options(nothing_of, NULL);
        it.memory_bytes = limits[limit];
        bb_engine *engine = bb_new(&it);
        build(engine, script);
        is_well(engine);
        size_t used = bb_memory_used(engine);
        for (size_t at = 0; at < sizeof calls / sizeof *calls; at++) {
            char text[64];
            snprintf(text, sizeof text, "call m (%d) void run(int64)", calls[at]);
            is_right(say(engine, text) == BB_DONE && lists_calls(engine, calls[at]), "all calls are listed");
            is_right(bb_memory_used(engine) == used, "as much is used as before");
        }
        bb_free(engine);
    }
    printf("lists: 24 commands listed 10 to 90,000 calls, by engines with and without a limit of memory\n");
}

int main(int count, char **words)
{
    for (int at = 1; at < count; at++) {
        const char *part = words[at];
        if (strcmp(part, "forms") == 0)
            forms();
        else if (strcmp(part, "threads") == 0)
            threads();
        else if (strcmp(part, "waits") == 0)
            waits();
        else if (strcmp(part, "many") == 0)
            many_of(10000, 10);
        else if (strcmp(part, "some") == 0)
            many_of(50, 10);
        else if (strcmp(part, "cancels") == 0)
            cancels();
        else if (strcmp(part, "timeouts") == 0)
            timeouts();
        else if (strcmp(part, "memory") == 0)
            memory();
        else if (strcmp(part, "lists") == 0)
            lists();
        else
            is_right(false, part);
        fflush(stdout);
    }
    return bad;
}
