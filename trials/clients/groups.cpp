// A host in C++ with a group of entries that it takes away.
//
//     groups ASREMOTE [LIBRARY]
//
// Prints what stands in groups.expected.
#include "bustlebrick.hpp"

#include <iostream>

namespace {

using bustlebrick::Engine;
using bustlebrick::Profile;

struct Kite {};

std::vector<int> said;

Profile offered() {
    Profile profile;
    {
        auto weather = profile.group("weather");
        profile.function("int wind()", [] { return 7; });
    }
    {
        auto toys = profile.group("toys");
        profile.type("Kite");
        profile.factory("Kite", "Kite@ f()", [] { return std::make_shared<Kite>(); });
    }
    profile.function("void fly(Kite@+)", [](std::shared_ptr<Kite>) {}, "Kite");
    profile.function("void say(int)", [](int number) { said.push_back(number); });
    return profile;
}

Engine::Module built(Engine& engine, const std::string& name) {
    auto module = engine.module(name, 1);
    module.section("int blows() { return wind(); }");
    return module;
}

std::string errors(Engine::Module& module) {
    auto reply = module.build();
    std::string errors;
    for (auto& it : reply.errors) errors += it.kind + " " + it.name + ", ";
    return errors + std::to_string(reply.denials.size()) + " denials";
}

std::string wind(Engine::Module& module) {
    if (!module.build().ok()) return "not built";
    return "wind is " + std::to_string(module.call<int>("int blows()"));
}

std::string removed(Engine& engine, const std::string& name) {
    try {
        engine.remove_group(name);
        return "removed";
    } catch (const bustlebrick::Refused& refusal) {
        return refusal.what();
    }
}

}  // namespace

int main(int count, char** words) {
    std::string program = words[1], library = count > 2 ? words[2] : "";
    {
        Engine engine(offered(), program, {}, 0, library);
        auto module = built(engine, "m");
        std::cout << "built: " << wind(module) << '\n';
        std::cout << "while a module uses it: " << removed(engine, "weather") << '\n';
        module.discard();
        std::cout << "once none does: " << removed(engine, "weather") << '\n';
        std::cout << "again: " << removed(engine, "weather") << '\n';
        auto next = built(engine, "m");
        std::cout << "a build after it: " << errors(next) << '\n';
        auto other = engine.module("other", 1);
        other.section("void three() { say(3); }");
        other.build();
        other.call("void three()");
        std::cout << "numbers of the others: said " << said.at(0) << '\n';
        engine.restart();
        auto last = built(engine, "m");
        std::cout << "after a restart: " << errors(last) << '\n';
    }
    {
        Engine engine(offered(), program, {}, 0, library);
        auto module = built(engine, "m");
        std::cout << "another engine of the profile: " << wind(module) << '\n';
        std::cout << "a type of it that is named outside: " << removed(engine, "toys") << '\n';
    }
    auto profile = offered();
    {
        auto outer = profile.group("outer");
        auto inner = profile.group("inner");
    }
    try {
        Engine engine(std::move(profile), program, {}, 0, library);
    } catch (const bustlebrick::Refused& refusal) {
        std::string why = refusal.what();
        std::cout << "a group in a group: " << why.substr(why.rfind(' ') + 1) << '\n';
    }
}
