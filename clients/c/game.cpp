// The small game server of game.c in C++, by steps: what answers a script is a lambda that may throw, since no frame of C
// or of the engine stands between it and who gave the command.
//
//     make check
//
// Prints what stands in ../game.expected.
#include "bustlebrick.h"

#include <algorithm>
#include <cstdio>
#include <exception>
#include <functional>
#include <iostream>
#include <map>
#include <memory>
#include <new>
#include <sstream>
#include <stdexcept>
#include <string>
#include <vector>

namespace {

constexpr unsigned players = 1, staff = 2;

const std::string admin_script = R"(Monster@ troll = Monster(30);

int wound(int n) {
  troll.hit(n);
  return troll.health();
}
int armored(int n) {
  troll.armor += n;
  return troll.armor;
}
bool wins(int health) {
  Monster other(health);
  return stronger(troll, other) is troll;
}
int64 reward(int64 player, int64 gold) {
  grant(player, gold);
  price += gold;
  return price;
}
void retire() { @troll = null; }
)";

// The player's script; the second time with another strength.
std::string player_script(const std::string& strength) {
    return R"(import int wound(int) from "admin";

int attack(int n) {
  say(n);
  return wound()" + strength + R"();
}
int64 gold() { return purse(1); }
uint8 luck(uint8 sides) { return roll(sides); }
bool may_enter() { return open; }
void spin() { while (true) {} }
)";
}

const std::string cheat = "void cheat() { grant(1, 1000); }";

// A fault of the host's own, which ends the script that asked.
struct Fault : std::runtime_error {
    explicit Fault(std::uint32_t number) : std::runtime_error("fault"), number(number) {}
    std::uint32_t number;
};

// What a callable answers.
bb_answer nothing() { return {}; }

bb_answer gives(std::int64_t number) {
    bb_answer answer{};
    answer.kind = BB_GAVE;
    answer.value.as.i64 = number;
    return answer;
}

bb_answer gives(const bb_value& value) {
    bb_answer answer{};
    answer.kind = BB_GAVE;
    answer.value = value;
    return answer;
}

// The entries that a host registers, each with what answers it. Its place in the list is its `F`.
class Profile {
public:
    using Callable = std::function<bb_answer(const bb_ask&)>;

    unsigned mask = 1;

    void add(const std::string& line, const std::string& declaration, Callable callable) {
        text_ << "mask " << hexadecimal(mask) << '\n' << line;
        if (!declaration.empty()) text_ << ' ' << declarations_.size() << ' ' << declaration;
        text_ << '\n';
        declarations_.push_back(declaration);
        callables_.push_back(std::move(callable));
    }

    std::string text() const { return text_.str(); }
    const std::string& declaration(std::size_t entry) const { return declarations_.at(entry); }
    bb_answer answer(const bb_ask& ask) const { return callables_.at(ask.function)(ask); }

    static std::string hexadecimal(unsigned mask) {
        char text[9];
        std::snprintf(text, sizeof text, "%08x", mask);
        return text;
    }

private:
    std::ostringstream text_;
    std::vector<std::string> declarations_;
    std::vector<Callable> callables_;
};

// The lines of a text, without their LFs.
std::vector<std::string> lines_of(const std::string& text) {
    std::istringstream in(text);
    std::vector<std::string> lines;
    for (std::string line; std::getline(in, line);) lines.push_back(line);
    return lines;
}

class Engine {
public:
    explicit Engine(const Profile& profile) : profile_(profile) { restart(); }

    // Another engine, without modules.
    void restart() {
        const std::string text = profile_.text();
        bb_options options{};
        options.profile = text.data();
        options.profile_bytes = text.size();
        options.drivers = 2;
        options.budget = 10000;
        it_.reset(bb_new(&options));
        if (!it_) throw std::bad_alloc();
        if (bb_state_of(it_.get()) != BB_DONE) throw std::runtime_error(reply());
    }

    // Does a command. What a callable throws is a fault of the script, and thrown from here where it is no Fault.
    void command(const std::string& text) {
        std::exception_ptr thrown;
        bb_state state = bb_begin(it_.get(), text.data(), text.size());
        while (state == BB_ASKS) {
            const bb_answer answer = answered(*bb_asked(it_.get()), thrown);
            state = bb_resume(it_.get(), &answer);
        }
        if (thrown) std::rethrow_exception(thrown);
        if (state != BB_DONE) throw std::runtime_error("not done: " + text);
    }

    void section(const std::string& module, const std::string& text) {
        if (bb_section(it_.get(), module.c_str(), text.data(), text.size()) != BB_DONE)
            throw std::runtime_error("not done: section " + module);
    }

    // Begins a command, and whether a script asks.
    bool asks(const std::string& text) { return bb_begin(it_.get(), text.data(), text.size()) == BB_ASKS; }

    std::string reply() const { return text_of(bb_reply); }
    std::string outcome() const { return text_of(bb_outcome); }

private:
    struct Free {
        void operator()(bb_engine* it) const { bb_free(it); }
    };

    bb_answer answered(const bb_ask& ask, std::exception_ptr& thrown) const {
        bb_answer fault{};
        fault.kind = BB_FAULT;
        fault.fault = 1;
        try {
            return profile_.answer(ask);
        } catch (const Fault& of_host) {
            fault.fault = of_host.number;
        } catch (...) {
            thrown = std::current_exception();
        }
        return fault;
    }

    std::string text_of(const char* (*get)(const bb_engine*, std::size_t*)) const {
        std::size_t bytes = 0;
        const char* text = get(it_.get(), &bytes);
        return {text, bytes};
    }

    const Profile& profile_;
    std::unique_ptr<bb_engine, Free> it_;
};

// What scripts hold handles of.
struct Monster {
    int left;
    int armor = 0;

    void hit(int n) {
        if (n < 0) throw Fault(7);
        left -= std::max(n - armor, 0);
    }
};

// What the host keeps for the scripts.
struct World {
    std::map<std::int64_t, std::int64_t> purses{{1, 100}};
    std::int64_t price = 5;
    std::map<std::uint64_t, Monster> monsters;
    std::uint64_t made = 0;

    Monster& of(const bb_ask& ask) { return monsters.at(ask.object); }
};

bb_answer make_monster(World& world, int health) {
    world.monsters[++world.made] = Monster{health};
    bb_answer answer{};
    answer.kind = BB_MADE;
    answer.value.as.key = world.made;
    return answer;
}

// The value of a property is asked for, or changed.
template <class T> bb_answer property(const bb_ask& ask, T& value) {
    if (ask.kind == BB_READ) return gives(value);
    value = static_cast<T>(ask.values[0].as.i64);
    return nothing();
}

bb_answer stronger(const World& world, const bb_value& one, const bb_value& other) {
    return gives(world.monsters.at(one.as.key).left >= world.monsters.at(other.as.key).left ? one : other);
}

// What scripts may use: both sorts of them, and the staff's alone.
void offer(Profile& profile, World& world) {
    profile.mask = players | staff;
    profile.add("type Monster 1", "", nullptr);
    profile.add("method Monster", "int health() const", [&](auto& ask) { return gives(world.of(ask).left); });
    profile.add("function 0", "void say(int64)", [](auto& ask) {
        std::cout << "say " << ask.values[0].as.i64 << '\n';
        return nothing();
    });
    profile.add("function 0", "int64 purse(int64)",
                [&](auto& ask) { return gives(world.purses.at(ask.values[0].as.i64)); });
    profile.add("function 0", "uint8 roll(uint8)", [](auto& ask) {
        bb_value value = ask.values[0];
        value.as.u64--;
        return gives(value);
    });
    profile.add("global 0", "const bool open", [](auto&) { return gives(bb_value{BB_BOOL, {1}}); });
    profile.mask = staff;
    profile.add("factory Monster", "Monster@ f(int)",
                [&](auto& ask) { return make_monster(world, static_cast<int>(ask.values[0].as.i64)); });
    profile.add("method Monster", "void hit(int)", [&](auto& ask) {
        world.of(ask).hit(static_cast<int>(ask.values[0].as.i64));
        return nothing();
    });
    profile.add("property Monster", "int armor", [&](auto& ask) { return property(ask, world.of(ask).armor); });
    profile.add("function 1", "Monster@+ stronger(Monster@+, Monster@+)",
                [&](auto& ask) { return stronger(world, ask.values[0], ask.values[1]); });
    profile.add("function 0", "void grant(int64, int64)", [&](auto& ask) {
        world.purses.at(ask.values[0].as.i64) += ask.values[1].as.i64;
        return nothing();
    });
    profile.add("global 0", "int64 price", [&](auto& ask) { return property(ask, world.price); });
}

// The game: an engine, and what is printed of its replies.
class Game {
public:
    Game(const Profile& profile, World& world) : profile_(profile), world_(world), engine_(profile) {}

    void play();

private:
    // Does a command, and lets go of the monsters whose end its reply tells.
    void command(const std::string& text) {
        engine_.command(text);
        for (auto& line : lines_of(engine_.reply()))
            if (line.rfind("end 1 #", 0) == 0) world_.monsters.erase(std::stoull(line.substr(7)));
    }

    void tell(const std::string& what) const {
        const std::string outcome = engine_.outcome();
        std::cout << what << ": " << (outcome.rfind("ok ", 0) == 0 ? outcome.substr(3) : outcome) << '\n';
    }

    // The functions in which a command ended with a fault: lines `at MODULE NAME PLACE AT`, with the place of the name
    // and that of the statement, or `-`. The host has the texts of its modules, the engine none.
    void tell_trace() {
        command("trace");
        for (auto& line : lines_of(engine_.reply())) {
            std::istringstream in(line);
            std::string word, module, name, declared, at;
            if (!(in >> word >> module >> name >> declared >> at)) continue;
            const std::string place = at == "-" ? declared : at;
            const std::size_t number = std::stoul(place.substr(place.find(':') + 1));
            const std::string source = lines_of(scripts_.at(module)).at(number - 1);
            std::cout << "  in " << module << ' ' << name << ' ' << place << ": ";
            std::cout << source.substr(source.find_first_not_of(' ')) << '\n';
        }
    }

    // Does a call, and prints what it gave, or how it ended.
    void tell_call(const std::string& what, const std::string& text) {
        command(text);
        tell(what);
        if (engine_.outcome().rfind("fault ", 0) == 0) tell_trace();
    }

    void call(const std::string& what, const std::string& module_and_values, const std::string& declaration) {
        tell_call(what, "call " + module_and_values + ' ' + declaration);
    }

    // The number of a function that is looked up, to be called again and again without its text.
    std::string prepare(const std::string& module_and_declaration) {
        command("prepare " + module_and_declaration);
        return lines_of(engine_.reply()).at(0).substr(9);
    }

    void run(const std::string& what, const std::string& number, const std::string& values) {
        tell_call(what, "run " + number + ' ' + values);
    }

    // `denied PLACE ENTRY EMASK MMASK` is printed with the declaration of its entry.
    std::string shown(const std::string& line) const {
        std::istringstream in(line);
        std::string word, place;
        std::size_t entry = 0;
        in >> word >> place >> entry;
        return word == "denied" ? word + ' ' + place + ' ' + profile_.declaration(entry) : line;
    }

    void build(const std::string& module, const std::string& script) {
        engine_.section(module, script);
        scripts_[module] = script;
        command("build " + module);
        tell(module);
        auto lines = lines_of(engine_.reply());
        lines.pop_back();
        for (auto& line : lines) std::cout << "  " << shown(line) << '\n';
    }

    void make_module(const std::string& name, unsigned mask, const std::string& script) {
        command("module " + name + ' ' + Profile::hexadecimal(mask));
        build(name, script);
    }

    void hang();
    void play_player();

    const Profile& profile_;
    World& world_;
    Engine engine_;
    std::map<std::string, std::string> scripts_;  // of the modules, by their names
};

// An ask that is not answered: the script waits, and the engine is given up. The next one has no modules, and no script
// holds what this one asked for.
void Game::hang() {
    engine_.section("admin", admin_script);
    command("build admin");
    if (engine_.asks("call admin (1) int wound(int)")) std::cout << "the engine hung\n";
    engine_.restart();
    world_.monsters.clear();
    world_.made = 0;
}

void Game::play_player() {
    call("may enter", "player ()", "bool may_enter()");
    call("luck of 6", "player (6u)", "uint8 luck(uint8)");
    call("attack with 4, unbound", "player (4)", "int attack(int)");
    command("bind player 0 admin int wound(int)");
    auto attack = prepare("player int attack(int)");
    run("attack with 4", attack, "(4)");
    run("attack with -1", attack, "(-1)");
    call("gold", "player ()", "int64 gold()");
    call("reward", "admin (1,50)", "int64 reward(int64, int64)");
    call("gold", "player ()", "int64 gold()");
    call("heal", "player ()", "void heal()");

    // A script that asks for what its mask hides, and one that doesn't end.
    make_module("cheater", players, cheat);
    command("discard cheater");
    call("spin", "player ()", "void spin()");

    // A new script for the player, while the admin's goes on with its troll. The import is to be bound anew, and what was
    // looked up is to be prepared anew.
    build("player", player_script("n * 2"));
    command("bind player 0 admin int wound(int)");
    attack = prepare("player int attack(int)");
    run("attack with 4", attack, "(4)");
    call("armor", "admin (3)", "int armored(int)");
    run("attack with 4", attack, "(4)");
}

void Game::play() {
    make_module("admin", players | staff, admin_script);
    make_module("player", players, player_script("n"));
    play_player();

    // The host keeps an object as long as scripts hold it.
    call("wins over 10", "admin (10)", "bool wins(int)");
    call("wins over 20", "admin (20)", "bool wins(int)");
    std::cout << "monsters: " << world_.monsters.size() << '\n';
    command("call admin () void retire()");
    for (auto& line : lines_of(engine_.reply()))
        if (line.rfind("end ", 0) == 0) std::cout << "retire: " << line << '\n';
    std::cout << "monsters: " << world_.monsters.size() << '\n';

    hang();
    call("wound with 1", "admin (1)", "int wound(int)");
    make_module("admin", players | staff, admin_script);
    call("wound with 1", "admin (1)", "int wound(int)");
    std::cout << "monsters: " << world_.monsters.size() << '\n';

    // A line that no command spells.
    command("nonsense");
    tell("nonsense");
    call("wound with 1", "admin (1)", "int wound(int)");
}

}  // namespace

int main() {
    try {
        World world;
        Profile profile;
        offer(profile, world);
        Game(profile, world).play();
        return 0;
    } catch (const std::exception& error) {
        std::cerr << "game: " << error.what() << '\n';
        return 1;
    }
}
