// A small game server: scripts of its admin and of players, one that runs away, one that is replaced, and an engine
// that hangs.
//
//     g++ -std=c++17 game.cpp -o game && ./game [ASREMOTE [LIBRARY]]
//
// The engine is in this process, where LIBRARY is the path of a libbustlebrick.so that is there, and else a process.
// Prints what stands in ../game.expected.
#include "bustlebrick.hpp"

#include <iostream>
#include <map>
#include <thread>

using bustlebrick::Engine;
using bustlebrick::Module;
using bustlebrick::Prepared;
using bustlebrick::Profile;
using bustlebrick::Reply;

namespace {

constexpr std::uint32_t players = 1, staff = 2;

const std::string admin_script = R"(Monster@ troll = Monster(30);

int wound(int n) {
  troll.hit(n);
  return troll.health();
}
int armored(int n) {
  troll.armor += n;
  return troll.armor;
}
bool wins(int health) {
  Monster other(health);
  return stronger(troll, other) is troll;
}
int64 reward(int64 player, int64 gold) {
  grant(player, gold);
  price += gold;
  return price;
}
void retire() { @troll = null; }
)";

// The player's script; the second time with another strength.
std::string player_script(const std::string& strength) {
    return R"(import int wound(int) from "admin";

int attack(int n) {
  say(n);
  return wound()" + strength + R"();
}
int64 gold() { return purse(1); }
uint8 luck(uint8 sides) { return roll(sides); }
bool may_enter() { return open; }
void spin() { while (true) {} }
)";
}

const std::string cheat = "void cheat() { grant(1, 1000); }";

// What scripts hold handles of.
struct Monster {
    explicit Monster(int health) : left(health) {}

    int health() const { return left; }

    void hit(int n) {
        if (n < 0) throw bustlebrick::Fault(7);
        left -= std::max(n - armor, 0);
    }

    int left;
    int armor = 0;
};

using Handle = std::shared_ptr<Monster>;

Handle stronger(Handle one, Handle other) { return one->left >= other->left ? one : other; }

// What the host keeps for the scripts.
struct World {
    std::map<std::int64_t, std::int64_t> purses{{1, 100}};
    std::int64_t price = 5;
    std::chrono::milliseconds delay{0};  // that a look into a purse takes

    std::int64_t purse(std::int64_t player) const {
        std::this_thread::sleep_for(delay);
        return purses.at(player);
    }
};

// What scripts may use: both sorts of them, and the staff's alone.
Profile offered(World& world) {
    Profile profile;
    profile.mask = players | staff;
    profile.type("Monster");
    profile.method("Monster", "int health() const", &Monster::health);
    profile.function("void say(int64)", [](std::int64_t n) { std::cout << "say " << n << '\n'; });
    profile.function("int64 purse(int64)", [&](std::int64_t player) { return world.purse(player); });
    profile.function("uint8 roll(uint8)", [](std::uint8_t sides) -> std::uint8_t { return sides - 1; });
    profile.constant("const bool open", [] { return true; });
    profile.mask = staff;
    profile.factory("Monster", "Monster@ f(int)", [](int health) { return std::make_shared<Monster>(health); });
    profile.method("Monster", "void hit(int)", &Monster::hit);
    profile.property("Monster", "int armor", &Monster::armor);
    profile.function("Monster@+ stronger(Monster@+, Monster@+)", stronger, "Monster");
    profile.function("void grant(int64, int64)",
                     [&](std::int64_t player, std::int64_t gold) { world.purses.at(player) += gold; });
    profile.global("int64 price", [&] { return world.price; }, [&](std::int64_t price) { world.price = price; });
    return profile;
}

std::ostream& operator<<(std::ostream& out, const bustlebrick::Place& place) {
    return out << place.section << ':' << place.line << ':' << place.column;
}

void tell_build(const std::string& name, const Reply& reply) {
    std::cout << name << ": " << reply.outcome << '\n';
    for (auto& event : reply.events) std::cout << "  " << event << '\n';
    for (auto& error : reply.errors)
        std::cout << "  error " << error.kind << ' ' << error.place << ' ' << error.name << '\n';
    for (auto& denial : reply.denials) std::cout << "  denied " << denial.place << ' ' << denial.declaration << '\n';
}

// A type that is printed as a number, or as a truth value.
template <class R> using Shown = std::conditional_t<std::is_same_v<R, bool>, bool, std::int64_t>;

// Prints what a call gave, or how it ended, and where.
template <class R, class F> void tell_call(const std::string& what, F call) {
    try {
        if constexpr (std::is_void_v<R>) {
            call();
            std::cout << what << ": done\n";
        } else {
            const Shown<R> result = call();
            std::cout << what << ": " << std::boolalpha << result << '\n';
        }
    } catch (const bustlebrick::ScriptFault& fault) {
        std::cout << what << ": fault " << fault.what() << '\n';
        for (auto& line : fault.stack()) std::cout << "  in " << line << '\n';
    } catch (const bustlebrick::Refused& refusal) {
        std::cout << what << ": refused " << refusal.what() << '\n';
    }
}

template <class R, class... A>
void tell(const std::string& what, Module& module, const std::string& declaration, A... values) {
    tell_call<R>(what, [&] { return module.call<R>(declaration, values...); });
}

// The same of what was looked up.
template <class R, class... A> void tell(const std::string& what, Prepared& prepared, A... values) {
    tell_call<R>(what, [&] { return prepared.call<R>(values...); });
}

Module built(Engine& engine, const std::string& name, std::uint32_t mask, const std::string& script) {
    auto module = engine.module(name, mask);
    module.section(script);
    tell_build(name, module.build());
    return module;
}

// Has the engine hang: its process is stopped, or, where it is in this one, a callable takes too long.
void hang(const Engine& engine, World& world) {
    if (engine.pid() == 0) world.delay = std::chrono::seconds(1);
    else kill(engine.pid(), SIGSTOP);
}

void play(Engine& engine, World& world) {
    engine.budget(10000);
    auto admin = built(engine, "admin", players | staff, admin_script);
    auto player = built(engine, "player", players, player_script("n"));

    // Calls, with values of all kinds. A player's script reaches the staff's by an import that the host binds. What is
    // called often is looked up once.
    tell<bool>("may enter", player, "bool may_enter()");
    tell<std::uint8_t>("luck of 6", player, "uint8 luck(uint8)", std::uint8_t{6});
    tell<int>("attack with 4, unbound", player, "int attack(int)", 4);
    player.bind("int wound(int)", admin);
    auto attack = player.prepare("int attack(int)");
    tell<int>("attack with 4", attack, 4);
    tell<int>("attack with -1", attack, -1);
    tell<std::int64_t>("gold", player, "int64 gold()");
    tell<std::int64_t>("reward", admin, "int64 reward(int64, int64)", 1, 50);
    tell<std::int64_t>("gold", player, "int64 gold()");
    tell<void>("heal", player, "void heal()");

    // A script that asks for what its mask hides, and one that doesn't end.
    built(engine, "cheater", players, cheat).discard();
    tell<void>("spin", player, "void spin()");

    // A new script for the player, while the admin's goes on with its troll. The import is to be bound anew, and what was
    // looked up is to be prepared anew.
    player.section(player_script("n * 2"));
    tell_build("player", player.build());
    player.bind("int wound(int)", admin);
    attack = player.prepare("int attack(int)");
    tell<int>("attack with 4", attack, 4);
    tell<int>("armor", admin, "int armored(int)", 3);
    tell<int>("attack with 4", attack, 4);

    // The host keeps an object as long as scripts hold it.
    tell<bool>("wins over 10", admin, "bool wins(int)", 10);
    tell<bool>("wins over 20", admin, "bool wins(int)", 20);
    std::cout << "monsters: " << engine.objects() << '\n';
    for (auto& event : engine.command("call admin () void retire()").events)
        std::cout << "retire: " << event << '\n';
    std::cout << "monsters: " << engine.objects() << '\n';

    // An engine that hangs. The next one has no modules.
    engine.timeout = std::chrono::milliseconds(500);
    hang(engine, world);
    try {
        player.call<std::int64_t>("int64 gold()");
    } catch (const bustlebrick::CommandTimeout&) {
        std::cout << "the engine hung\n";
    }
    engine.timeout = std::chrono::seconds(10);
    world.delay = std::chrono::milliseconds(0);
    engine.restart();
    tell<int>("wound with 1", admin, "int wound(int)", 1);
    admin = built(engine, "admin", players | staff, admin_script);
    tell<int>("wound with 1", admin, "int wound(int)", 1);
    std::cout << "monsters: " << engine.objects() << '\n';

    // A line that no command spells.
    std::cout << "nonsense: " << engine.command("nonsense").outcome << '\n';
    tell<int>("wound with 1", admin, "int wound(int)", 1);
}

}  // namespace

int main(int count, char** words) {
    try {
        World world;
        Engine engine(offered(world), count > 1 ? words[1] : "asremote", {}, 0, count > 2 ? words[2] : "");
        play(engine, world);
        return 0;
    } catch (const std::exception& error) {
        std::cerr << "game: " << error.what() << '\n';
        return 1;
    }
}
