// A host in C++ that sets limits, between commands and when its engine is made, and is told what scripts hold.
//
//     limits ASREMOTE [LIBRARY]
//
// Prints what stands in limits.expected.
#include "bustlebrick.hpp"

#include <iostream>

using bustlebrick::Engine;
using bustlebrick::Limit;
using bustlebrick::Limits;
using bustlebrick::Module;

namespace {

// A shelf and a part take four slots each.
const std::string script = R"(class Part { int64 a, b, c; }
class Shelf { Part@ p0, p1, p2; }
Shelf shelf;
Thing@ t0, t1, t2;

void hold(int n) {
  if (n > 0) @shelf.p0 = Part();
  if (n > 1) @shelf.p1 = Part();
  if (n > 2) @shelf.p2 = Part();
}
void drop() { @shelf.p0 = null; @shelf.p1 = null; @shelf.p2 = null; }
void make(int n) {
  if (n > 0) @t0 = Thing();
  if (n > 1) @t1 = Thing();
  if (n > 2) @t2 = Thing();
}
void forget() { @t0 = null; @t1 = null; @t2 = null; }
void say_often(int n) { for (int i = 0; i < n; i++) say(i); }
)";
const std::string other_script = "int answer() { return 42; }";
const Limit any = std::nullopt, too_many = std::uint64_t{1} << 63;

struct Thing {};

bustlebrick::Profile offered() {
    bustlebrick::Profile profile;
    profile.function("void say(int64)", [](std::int64_t) {});
    profile.type("Thing");
    profile.factory("Thing", "Thing@ f()", [] { return std::make_shared<Thing>(); });
    return profile;
}

// Prints what came of something.
void tell(const std::string& what, const std::function<std::string()>& make) {
    std::cout << what << ": ";
    try {
        std::cout << make();
    } catch (const bustlebrick::ScriptFault& fault) {
        std::cout << "fault " << fault.what();
    } catch (const std::exception& refusal) {
        std::cout << refusal.what();
    }
    std::cout << '\n';
}

std::string text(const Limits& limits) {
    std::string text;
    for (auto& [name, most] : limits.named())
        text += (text.empty() ? "" : ", ") + (most ? std::to_string(*most) : "any") + " " + name;
    return text;
}

// An engine, and what it is told in turn.
struct Host {
    Engine engine;

    void used() {
        tell("used", [&] {
            auto used = engine.used();
            return std::to_string(used.slots) + " slots, " + std::to_string(used.objects) + " objects";
        });
    }

    void set(const std::string& what, Limit events, Limit slots, Limit objects) {
        tell(what, [&] {
            engine.set_limits({events, slots, objects});
            return text(engine.limits());
        });
    }

    Module made(const std::string& name, const std::string& script) {
        auto module = engine.module(name, 1);
        module.section(script);
        return module;
    }

    void call(Module& module, const std::string& what, const std::string& name, int n) {
        tell(what + " " + std::to_string(n), [&] {
            module.call("void " + name + "(int)", n);
            return "done";
        });
    }

    void call(Module& module, const std::string& name) {
        tell(name, [&] {
            module.call("void " + name + "()");
            return "done";
        });
    }

    void answer(Module& other) {
        tell("answer", [&] { return std::to_string(other.call<int>("int answer()")); });
    }

    void slots(Module& module) {
        tell("built", [&] { return module.build().outcome; });
        call(module, "say", "say_often", 20000);
        used();
        call(module, "hold", "hold", 3);
        used();
        set("19 slots", 10000, 19, 1000);
        call(module, "hold", "hold", 1);
        set("5 slots", 10000, 5, 1000);  // fewer than there are
        call(module, "drop");
        used();
        call(module, "hold", "hold", 1);
        set("any slots", 10000, any, 1000);
        call(module, "hold", "hold", 3);
    }

    void events_and_objects(Module& module) {
        set("8 events, 3 objects", 8, any, 3);
        call(module, "make", "make", 3);
        call(module, "say", "say_often", 5);
        call(module, "say", "say_often", 6);
        set("3 events", 3, any, 3);
        set("3 events, 1 object", 3, any, 1);  // three are alive
        set("too many objects", 8, any, too_many);
        set("4 events, 1 object", 4, any, 1);
        call(module, "say", "say_often", 1);
        call(module, "say", "say_often", 2);
        call(module, "make", "make", 1);
        call(module, "forget");
        used();
    }
};

void refused_before_its_start() {
    auto start = [](const std::string& what, const Limits& limits) {
        tell(what, [&] {
            Engine engine(offered(), "no such program", limits);
            return "";
        });
    };
    start("no engine with 5 events, 5 objects", {5, 100000, 5});
    start("no engine with any objects", {10000, 100000, any});
    start("no engine with too many slots", {10000, too_many, 1000});
}

void run(const std::string& program, const std::string& library) {
    refused_before_its_start();
    Host host{Engine(offered(), program, {}, 0, library)};
    host.engine.timeout = std::chrono::seconds(100);
    std::cout << "without others: " << text(host.engine.limits()) << '\n';
    auto module = host.made("m", script), other = host.made("other", other_script);
    other.build();
    host.slots(module);
    host.events_and_objects(module);
    host.set("3 slots", 4, 3, 1);
    auto another = host.made("another", script);
    tell("another one, built", [&] { return another.build().outcome; });
    host.answer(other);

    // The next engine begins with the limits of the last one.
    host.engine.restart();
    std::cout << "the next engine: " << text(host.engine.limits()) << '\n';
    module = host.made("m", script);
    tell("built", [&] { return module.build().outcome; });
    Limits first;
    host.set("the first ones", first.events, first.slots, first.objects);
    module.section(script);
    tell("built", [&] { return module.build().outcome; });
    host.set("none", any, any, any);
    host.call(module, "say", "say_often", 20000);
}

}  // namespace

int main(int count, char** words) {
    try {
        run(words[1], count > 2 ? words[2] : "");
        return 0;
    } catch (const std::exception& error) {
        std::cerr << "limits: " << error.what() << '\n';
        return 1;
    }
}
