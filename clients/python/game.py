"""A small game server: scripts of its admin and of players, one that runs away, one that is replaced, and an engine
that hangs.

    python3 game.py [ASREMOTE [LIBRARY]]

The engine is in this process, where LIBRARY is the path of a libbustlebrick.so that is there, and else a process.
Prints what stands in ../game.expected.
"""

import os
import signal
import sys
import time
from typing import Any, Callable, Dict

from bustlebrick import CommandTimeout, Engine, Fault, Profile, Refused, Reply, ScriptFault

PLAYERS, STAFF = 1, 2

ADMIN = """\
Monster@ troll = Monster(30);

int wound(int n) {
  troll.hit(n);
  return troll.health();
}
int armored(int n) {
  troll.armor += n;
  return troll.armor;
}
bool wins(int health) {
  Monster other(health);
  return stronger(troll, other) is troll;
}
int64 reward(int64 player, int64 gold) {
  grant(player, gold);
  price += gold;
  return price;
}
void retire() { @troll = null; }
"""

PLAYER = """\
import int wound(int) from "admin";

int attack(int n) {
  say(n);
  return wound(n);
}
int64 gold() { return purse(1); }
uint8 luck(uint8 sides) { return roll(sides); }
bool may_enter() { return open; }
void spin() { while (true) {} }
"""

STRONGER_PLAYER = PLAYER.replace("wound(n)", "wound(n * 2)")

CHEAT = "void cheat() { grant(1, 1000); }"


class Monster:
    """What scripts hold handles of."""

    def __init__(self, health: int) -> None:
        self.left = health
        self.armor = 0

    def health(self) -> int:
        return self.left

    def hit(self, n: int) -> None:
        if n < 0:
            raise Fault(7)
        self.left -= max(n - self.armor, 0)


def stronger(one: Monster, other: Monster) -> Monster:
    return one if one.left >= other.left else other


class World:
    """What the host keeps for the scripts."""

    def __init__(self) -> None:
        self.purses: Dict[int, int] = {1: 100}
        self.price = 5
        self.seconds = 0.0  # that a look into a purse takes

    def purse(self, player: int) -> int:
        time.sleep(self.seconds)
        return self.purses[player]

    def grant(self, player: int, gold: int) -> None:
        self.purses[player] += gold

    def set_price(self, price: int) -> None:
        self.price = price


def offered(world: World) -> Profile:
    """What scripts may use: both sorts of them, and the staff's alone."""
    profile = Profile()
    profile.mask = PLAYERS | STAFF
    monster = profile.type("Monster")
    monster.method("int health() const", Monster.health)
    profile.function("void say(int64)", lambda n: print(f"say {n}"))
    profile.function("int64 purse(int64)", world.purse)
    profile.function("uint8 roll(uint8)", lambda sides: sides - 1)
    profile.global_property("const bool open", lambda: True)
    profile.mask = STAFF
    monster.factory("Monster@ f(int)", Monster)
    monster.method("void hit(int)", Monster.hit)
    monster.property("int armor")
    monster.function("Monster@+ stronger(Monster@+, Monster@+)", stronger)
    profile.function("void grant(int64, int64)", world.grant)
    profile.global_property("int64 price", lambda: world.price, world.set_price)
    return profile


def tell_build(name: str, reply: Reply) -> None:
    print(f"{name}: {reply.outcome}")
    for event in reply.events:
        print(f"  {event}")
    for error in reply.errors:
        print("  error {} {}:{}:{} {}".format(error.kind, *error.place, error.name))
    for denial in reply.denials:
        print("  denied {}:{}:{}".format(*denial.place), denial.entry.declaration)


def tell(what: str, call: Callable[[], Any]) -> None:
    """Prints what a call gave, or how it ended, and where."""
    try:
        value = call()
        print(f"{what}: {str(value).lower() if isinstance(value, bool) else value}")
    except ScriptFault as fault:
        print(f"{what}: fault {fault}")
        for line in fault.stack():
            print(f"  in {line}")
    except Refused as refusal:
        print(f"{what}: refused {refusal}")


def hang(engine: Engine, world: World) -> None:
    """Has the engine hang: its process is stopped, or, where it is in this one, a callable takes too long."""
    if engine.pid is None:
        world.seconds = 1.0
    else:
        os.kill(engine.pid, signal.SIGSTOP)


def main() -> None:
    world, library = World(), sys.argv[2] if len(sys.argv) > 2 else None
    with Engine(offered(world), *sys.argv[1:2], library=library) as engine:
        engine.budget(10000)
        admin = engine.module("admin", PLAYERS | STAFF)
        admin.section(ADMIN)
        tell_build("admin", admin.build())
        player = engine.module("player", PLAYERS)
        player.section(PLAYER)
        tell_build("player", player.build())

        # Calls, with values of all kinds. A player's script reaches the staff's by an import that the host binds. What is
        # called often is looked up once.
        tell("may enter", lambda: player.call("bool may_enter()"))
        tell("luck of 6", lambda: player.call("uint8 luck(uint8)", 6))
        tell("attack with 4, unbound", lambda: player.call("int attack(int)", 4))
        player.bind("int wound(int)", admin)
        attack = player.prepare("int attack(int)")
        tell("attack with 4", lambda: attack(4))
        tell("attack with -1", lambda: attack(-1))
        tell("gold", lambda: player.call("int64 gold()"))
        tell("reward", lambda: admin.call("int64 reward(int64, int64)", 1, 50))
        tell("gold", lambda: player.call("int64 gold()"))
        tell("heal", lambda: player.call("void heal()"))

        # A script that asks for what its mask hides, and one that doesn't end.
        cheater = engine.module("cheater", PLAYERS)
        cheater.section(CHEAT)
        tell_build("cheater", cheater.build())
        cheater.discard()
        tell("spin", lambda: player.call("void spin()"))

        # A new script for the player, while the admin's goes on with its troll. The import is to be bound anew, and what
        # was looked up is to be prepared anew.
        player.section(STRONGER_PLAYER)
        tell_build("player", player.build())
        player.bind("int wound(int)", admin)
        stronger_attack = player.prepare("int attack(int)")
        tell("attack with 4", lambda: stronger_attack(4))
        tell("armor", lambda: admin.call("int armored(int)", 3))
        tell("attack with 4", lambda: stronger_attack(4))

        # The host keeps an object as long as scripts hold it.
        tell("wins over 10", lambda: admin.call("bool wins(int)", 10))
        tell("wins over 20", lambda: admin.call("bool wins(int)", 20))
        print(f"monsters: {len(engine.objects)}")
        for event in engine.command("call admin () void retire()").events:
            print(f"retire: {event}")
        print(f"monsters: {len(engine.objects)}")

        # An engine that hangs. The next one has no modules.
        engine.timeout = 0.5
        hang(engine, world)
        try:
            player.call("int64 gold()")
        except CommandTimeout:
            print("the engine hung")
        engine.timeout, world.seconds = 10.0, 0.0
        engine.restart()
        tell("wound with 1", lambda: admin.call("int wound(int)", 1))
        admin = engine.module("admin", PLAYERS | STAFF)
        admin.section(ADMIN)
        tell_build("admin", admin.build())
        tell("wound with 1", lambda: admin.call("int wound(int)", 1))
        print(f"monsters: {len(engine.objects)}")

        # A line that no command spells.
        print(f"nonsense: {engine.command('nonsense').outcome}")
        tell("wound with 1", lambda: admin.call("int wound(int)", 1))


if __name__ == "__main__":
    main()
