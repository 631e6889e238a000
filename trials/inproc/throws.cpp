// A callback that throws: the exception comes out of bb_command, the engine waits for the answer, and goes on with it.
#include "bustlebrick.h"

#include <cstdio>
#include <cstring>
#include <stdexcept>

namespace {

int bad = 0;

void is_right(bool right, const char* what) {
    if (right) return;
    bad = 1;
    std::printf("WRONG: %s\n", what);
}

void host(void*, const bb_ask* ask, bb_answer*) {
    if (ask->values[0].as.i64 == 3) throw std::runtime_error("three");
}

bb_state say(bb_engine* engine, const char* text) { return bb_command(engine, text, std::strlen(text)); }

bool throws(bb_engine* engine, const char* command = "call m (5) void run(int64)") {
    try {
        say(engine, command);
    } catch (const std::runtime_error& error) {
        return std::strcmp(error.what(), "three") == 0;
    }
    return false;
}

bool outcome_is(const bb_engine* engine, const char* wanted) {
    std::size_t bytes = 0;
    const char* outcome = bb_outcome(engine, &bytes);
    return bytes == std::strlen(wanted) && std::memcmp(outcome, wanted, bytes) == 0;
}

// What is posted: the script has gone on, and what it posted after the throw is told next.
void throw_at_posts(bb_engine* engine) {
    is_right(throws(engine, "call m (5) void tells(int64)"), "an exception comes out of a post");
    for (int value = 3; value < 5; value++) {
        const bb_ask* post = bb_asked(engine);
        is_right(post && post->posted && post->values[0].as.i64 == value, "the post waits, and then the next one");
        is_right(bb_resume(engine, nullptr) == (value < 4 ? BB_ASKS : BB_DONE), "posts are gone on from");
    }
    is_right(outcome_is(engine, "ok"), "the script was done");
}

}  // namespace

int main() {
    const char profile[] = "mask 00000001\nfunction 0 0 void put(int64)\nposted 0 1 void tell(int64)\n";
    const char script[] =
        "void run(int64 n) { for (int64 i = 0; i < n; i++) put(i); }\n"
        "void tells(int64 n) { for (int64 i = 0; i < n; i++) tell(i); }";
    bb_options options{};
    options.profile = profile;
    options.profile_bytes = sizeof profile - 1;
    options.host = host;
    bb_engine* engine = bb_new(&options);
    say(engine, "module m 00000001");
    bb_section(engine, "m", script, sizeof script - 1);
    is_right(say(engine, "build m") == BB_DONE && outcome_is(engine, "ok"), "a module is built");
    for (int number = 0; number < 100; number++) {
        is_right(throws(engine), "an exception comes out of bb_command");
        is_right(bb_state_of(engine) == BB_ASKS && bb_asked(engine)->values[0].as.i64 == 3, "the script waits");
        is_right(say(engine, "build m") == BB_BUSY, "no command while it waits");
        bb_answer fault{};
        fault.kind = BB_FAULT;
        fault.fault = 5;
        is_right(bb_resume(engine, &fault) == BB_DONE && outcome_is(engine, "fault Host 5"), "the script ends by a fault");
        throw_at_posts(engine);
    }
    throws(engine);
    is_right(bb_free(engine) == BB_ENDED, "an engine is freed whose script waits");
    std::puts("throws: 201 exceptions came out of callbacks, and the engine went on");
    return bad;
}
