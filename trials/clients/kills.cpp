// A host in C++ whose engines are killed by others: see kill_at_random.py.
//
//     kills ASREMOTE COUNT
//
// Ends once COUNT engines were lost and the next one has worked.
#include "bustlebrick.hpp"

#include <iostream>

using bustlebrick::Engine;
using bustlebrick::Module;

namespace {

const std::string script = R"(Thing@ kept = Thing();
int64 work(int64 n) {
  for (int i = 0; i < 50; i++) { Thing t; n = next(n); }
  return n;
}
)";

struct Thing {};

bustlebrick::Profile offered() {
    bustlebrick::Profile profile;
    profile.function("int64 next(int64)", [](std::int64_t n) { return n + 1; });
    profile.type("Thing");
    profile.factory("Thing", "Thing@ f()", [] { return std::make_shared<Thing>(); });
    return profile;
}

void check(bool holds, const char* what) {
    if (!holds) throw std::logic_error(what);
}

Module built(Engine& engine) {
    auto module = engine.module("m", 1);
    module.section(script);
    check(module.build().ok(), "it is not built");
    return module;
}

void works(Engine& engine, Module& module, std::int64_t n) {
    check(module.call<std::int64_t>("int64 work(int64)", n) == n + 50, "another result");
    check(engine.objects() == 1, "another number of objects");
}

// Works until the engine is lost, and says in which stage it does: while it starts, is built in, or is called.
void work(std::optional<Engine>& engine, const std::string& program, std::int64_t n, int& stage) {
    if (engine) engine->restart();
    else engine.emplace(offered(), program);
    stage = 1;
    auto module = built(*engine);
    stage = 2;
    for (;;) works(*engine, module, n);
}

}  // namespace

int main(int, char** words) {
    try {
        const std::string program = words[1];
        const int count = std::stoi(words[2]);
        std::optional<Engine> engine;
        int lost[3] = {0, 0, 0};
        for (int n = 0; n < count; n++) {
            int stage = 0;
            try {
                work(engine, program, n, stage);
            } catch (const bustlebrick::EngineLost&) {
                lost[stage]++;
            }
        }
        if (engine) engine->restart();
        else engine.emplace(offered(), program);
        auto module = built(*engine);
        works(*engine, module, 7);
        std::cout << lost[0] << " engines were lost at their start, " << lost[1] << " in a build, " << lost[2]
                  << " in calls; the next one worked\n";
        return 0;
    } catch (const std::exception& error) {
        std::cerr << "kills: " << error.what() << '\n';
        return 1;
    }
}
