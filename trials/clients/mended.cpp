// A host in C++ that does what once went wrong: texts, faults and timeouts that a client has to mind.
//
//     mended ASREMOTE [LIBRARY]
//
// Is run in the repository's own folder, for trials/clients/refusing.py. Prints what stands in mended.expected; and besides,
// for what this client and the one in Python do, a line that says what went wrong, and then the status is 1.
#include "bustlebrick.hpp"

#include <iostream>
#include <thread>

using bustlebrick::Engine;
using bustlebrick::Limits;
using bustlebrick::Module;
using std::chrono::milliseconds;

namespace {

const std::string script = R"(Thing@ kept = Thing();
int two() { return 2; }
void say_two(int64 n) { say(n); say(n + 1); }
void blame(int64 n) { bad(n); }
int flipped() { return flip(uintish::B); }
void sleep() { nap(); }
void spin() { while (true) say(1); }
void meddle(int n) { use(n); }
)";

constexpr int tries = 5;
constexpr std::size_t most_memory = 64 << 20;
constexpr const char* refusing = "trials/clients/refusing.py";
constexpr auto long_time = std::chrono::seconds(60);

struct Thing {};

struct Where {
    std::string program, library;
};

bool is_wrong = false;
Engine* asked_by = nullptr;
pid_t pid_meanwhile = 0;

void wants(bool holds, const char* what) {
    if (holds) return;
    is_wrong = true;
    std::cout << "WRONG: " << what << '\n';
}

// Uses the engine that asks.
void meddle(int which) {
    pid_meanwhile = asked_by->pid();
    if (which == 0) asked_by->restart();
    if (which == 1) asked_by->used();
}

bustlebrick::Profile offered() {
    bustlebrick::Profile profile;
    profile.function("void say(int64)", [](std::int64_t) {});
    profile.function("void bad(int64)", [](std::int64_t n) { throw bustlebrick::Fault(n); });
    profile.function("void nap()", [] { std::this_thread::sleep_for(milliseconds(300)); });
    profile.enumeration("uintish", {{"A", 1}, {"B", -2}});
    profile.function("uintish flip(uintish)", [](int n) { return -n; });
    profile.type("Thing");
    profile.factory("Thing", "Thing@ f()", [] { return std::make_shared<Thing>(); });
    profile.function("void use(int)", meddle);
    return profile;
}

// A class that holds so many of a part, or of fields.
std::string holder(const std::string& name, const std::string& part, int count) {
    std::string fields, made;
    for (int n = 0; n < count; n++) {
        auto field = "f" + std::to_string(n);
        fields += (n ? ", " : " ") + field;
        made += " @" + field + " = " + part + "();";
    }
    if (part == "int64") return "class " + name + " { int64" + fields + "; }\n";
    return "class " + name + " { " + part + "@" + fields + "; " + name + "() {" + made + " } }\n";
}

// Classes of which an object of the last one takes some 100 MB.
std::string hoarding() {
    return holder("A", "int64", 250) + holder("B", "A", 250) + holder("C", "B", 200) +
           "void hoard() { C it; }\nint two() { return 2; }\n";
}

Module made(Engine& engine, const std::string& text) {
    auto module = engine.module("m", 1);
    module.section(text);
    wants(module.build().ok(), "a module is built");
    return module;
}

// Prints what came of something.
template <class F> void tell(const std::string& what, F what_is_done) {
    std::cout << what << ": ";
    try {
        std::cout << what_is_done() << '\n';
    } catch (const bustlebrick::ScriptFault& fault) {
        std::cout << "fault " << fault.what() << '\n';
    } catch (const bustlebrick::Refused& refusal) {
        std::cout << "refused " << refusal.what() << '\n';
    } catch (const std::invalid_argument&) {
        std::cout << "the client refuses it\n";
    } catch (const bustlebrick::CommandTimeout&) {
        std::cout << "too slow\n";
    } catch (const bustlebrick::EngineLost& lost) {
        std::cout << lost.what() << '\n';
    }
}

void tell_two(Module& module) {
    tell("two", [&] { return module.call<int>("int two()"); });
}

void texts(Engine& engine, Module& module) {
    auto broken = engine.module("broken", 1);
    broken.section("\"a b  c\" = 1;");
    for (auto& [kind, at, name] : broken.build().errors)
        std::cout << "error " << kind << ' ' << at.section << ':' << at.line << ':' << at.column << ' ' << name << '\n';
    const std::pair<const char*, const char*> texts[] = {
        {R"("module a 00000001\nmodule b 00000001")", "module a 00000001\nmodule b 00000001"},
        {R"("section m 2\nx")", "section m 2\nx"},
        {R"("section m")", "section m"},
        {R"(" Section m 1\nx")", " Section m 1\nx"},
        {R"("module c 00000001\n")", "module c 00000001\n"},
    };
    for (auto& [shown, text] : texts) {
        tell(shown, [&, text = text] { return engine.command(text).outcome; });
        tell_two(module);
    }
}

void faults(Engine& engine, Module& module) {
    module.call("void say_two(int64)", 7);
    std::cout << "events";
    for (auto& event : engine.events()) std::cout << (&event == &engine.events().front() ? ": " : ", ") << event;
    std::cout << '\n';
    for (std::int64_t number : {std::int64_t{7}, std::int64_t{-1}, std::int64_t{4294967279}, std::int64_t{4294967280}}) {
        tell("blame " + std::to_string(number), [&] {
            module.call("void blame(int64)", number);
            return "done";
        });
    }
    tell("flipped", [&] { return module.call<int>("int flipped()"); });
}

void timeouts(Engine& engine) {
    int late = 0;
    for (int n = 0; n < tries; n++) {
        engine.timeout = long_time;
        engine.restart();
        auto module = made(engine, script);
        engine.timeout = milliseconds(200);
        try {
            module.call("void sleep()");
        } catch (const bustlebrick::CommandTimeout&) {
            late++;
        }
    }
    std::cout << "too slow: " << late << " of " << tries << '\n';
    engine.timeout = long_time;
    engine.restart();
    engine.set_limits(Limits::none());
    engine.budget(2147483647);
    auto module = made(engine, script);
    engine.timeout = milliseconds(300);
    tell("spin", [&] {
        module.call("void spin()");
        return "done";
    });
    std::cout << "objects: " << engine.objects() << '\n';
    engine.timeout = long_time;
    engine.restart();
    module = made(engine, script);
    tell_two(module);
}

void long_timeouts(const Where& where) {
    for (auto timeout : {milliseconds::max(), milliseconds(2147484000), milliseconds(4294967297)}) {
        Engine engine(offered(), where.program, {}, 0, where.library);
        engine.timeout = timeout;
        auto module = made(engine, script);
        tell_two(module);
    }
}

// What an engine has no memory to take is given up.
void refusals() {
    Engine engine(offered(), refusing);
    engine.timeout = long_time;
    auto module = engine.module("m", 1);
    tell("refused", [&] {
        module.call("void any()");
        return "done";
    });
    std::cout << "objects: " << engine.objects() << '\n';
    tell("limits", [&] {
        Limits limits;
        limits.events = 2, limits.objects = 1;
        engine.set_limits(limits);
        return "taken";
    });
}

// An engine that others killed says how it ended, and its objects are given up.
void kills(const std::string& program) {
    Engine engine(offered(), program);
    engine.timeout = long_time;
    for (int n = 0; n < 2; n++) {
        auto module = made(engine, script);
        std::cout << "objects: " << engine.objects() << '\n';
        kill(engine.pid(), SIGKILL);
        std::this_thread::sleep_for(milliseconds(200));  // the process is gone by then, and so nothing can be written to it
        tell("killed", [&] { return module.call<int>("int two()"); });
        std::cout << "objects: " << engine.objects() << '\n';
        tell_two(module);
        engine.restart();
    }
}

void memory(const Where& where) {
    Limits limits;
    limits.slots = std::nullopt;
    Engine engine(offered(), where.program, limits, most_memory, where.library);
    engine.timeout = long_time;
    auto module = made(engine, hoarding());
    tell("hoard", [&] {
        module.call("void hoard()");
        return "done";
    });
    tell_two(module);
}

// A callable may not use the engine that asks it, and sees the number of its process.
void meddling(Engine& engine) {
    auto module = made(engine, script);
    asked_by = &engine;
    for (int which : {0, 1}) {
        auto reply = engine.command("call m (" + std::to_string(which) + ") void meddle(int)");
        wants(reply.outcome == "fault Host 1", "a callable is not refused");
        wants(pid_meanwhile == engine.pid(), "a process has another number while a command is done");
    }
}

}  // namespace

int main(int count, char** words) {
    try {
        Where where{words[1], count > 2 ? words[2] : ""};
        Engine engine(offered(), where.program, {}, 0, where.library);
        engine.timeout = long_time;
        wants((engine.pid() == 0) == !where.library.empty(), "the library is there");
        auto module = made(engine, script);
        texts(engine, module);
        faults(engine, module);
        timeouts(engine);
        long_timeouts(where);
        refusals();
        kills(where.program);
        memory(where);
        engine.restart();
        meddling(engine);
        return is_wrong;
    } catch (const std::exception& error) {
        std::cerr << "mended: " << error.what() << '\n';
        return 1;
    }
}
