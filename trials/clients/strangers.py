#!/usr/bin/env python3
"""Scripts that take all the memory they can, in an engine with the limits of a client: what they take, and how long.

    trials/clients/strangers.py ASREMOTE

Each script has at most 64 KiB. It is built, and called three times, with the limits, the budget and the timeout that
clients/python sets where nothing is said; the timeout is longer where more programs run than there are processors.
Another module answers after each call, and the most memory that the process had (VmHWM) stays below 64 MB. Each is then
built in two other engines with a budget of two ticks, and called in one. In the other nothing can be made and nobody
asked, so the builds differ by what initializers take. Milliseconds are processor time of the engine's process alone, the
least of several calls; of a tick, and of initializers that take none, 50 are wanted at most.

A function that returns takes no tick, so what 200 of them have left is run after the last tick of a call. Each script of
the second table has them as long as they may be, and is called with a tick less than its functions take, and with all of
them: the last tick takes 50 milliseconds at most, and 100 where it asks the host 10,000 times.

Then limits are met in an initializer, in the midst of a constructor and in a chain of imports: afterwards scripts hold
what they held before, and each host object that was made and is no longer there has its end in the events.

Prints a table, and what did not go well. The status is 0 where all did.
"""

import os
import re
import sys
from typing import Dict, List, NamedTuple

sys.path.insert(0, os.path.join(os.path.dirname(os.path.abspath(__file__)), "..", "..", "clients", "python"))
from bustlebrick import Engine, EngineLost, Limits, Module, Profile, Reply  # noqa: E402

MOST = 65536  # bytes of a section
MEMORY = 64_000_000  # bytes, of the process
TICK = 50.0  # milliseconds
BUSY = max(1.0, os.getloadavg()[0] / (os.cpu_count() or 1))  # programs that wait for a processor
TIMEOUT = 10.0 * BUSY  # seconds
SECONDS = 100.0 * BUSY  # that a command may take where its processor time is measured
DEPTH = 200  # functions, one inside the other
WAITING = 2230  # bytes of each, of which each is an instruction at most: all may wait at once (docs/LANGUAGE.md, "Depth")
ROUNDS = 3  # of which the quickest counts
OTHER = "class Note{int64 n;Note(int64 m){n=m;}}Note note(42);int64 answer(){return note.n;}"


# What a build and a call of a script may end in.
OUTCOMES = {"ok", "fault Memory", "refused InitFailed Memory", "refused NotBuilt"}


class Thing:
    """What a host makes for scripts."""


def offered() -> Profile:
    profile = Profile()
    kept = [0]
    profile.function("void say(int64)", lambda n: None)
    profile.function(f"void many({','.join(['int64'] * 32)})", lambda *them: None)
    profile.posted(f"void lots({','.join(['int64'] * 32)})", lambda *them: None)
    profile.global_property("int64 reg", lambda: kept[0], lambda n: kept.__setitem__(0, n % 1000))
    profile.type("Thing").factory("Thing@ f()", Thing)
    return profile


# ---- the scripts


def names(count: int, first: int = 0) -> List[str]:
    """The shortest names of capitals and digits, from a number on."""
    letters, more = "ABCDEFGHIJKLMNOPQRSTUVWXYZ", "ABCDEFGHIJKLMNOPQRSTUVWXYZ0123456789"
    found = [*letters, *(a + b for a in letters for b in more)]
    found += [a + b + c for a in letters for b in more for c in more]
    return found[first : first + count]


def wide(count: int) -> str:
    """Classes in a chain, of which the last one, `z`, has so many fields."""
    pieces = [names(min(256, count - at), at) for at in range(0, count, 256)]
    ids = [*(f"w{n}" for n in range(len(pieces) - 1)), "z"]
    above = ["", *(f":{it}" for it in ids)]
    return "".join(f"class {it}{up}{{bool {','.join(piece)};}}" for it, up, piece in zip(ids, above, pieces))


def tree(leaf: str, fan: int, levels: int) -> str:
    """Classes of which an object of the last one, `t`, holds so many of the one before, and so on down to `leaf`."""
    text, below = leaf, "l"
    for level in range(levels):
        it = "t" if level == levels - 1 else f"t{level}"
        fields = names(fan)
        made = "".join(f"@{name}={below}();" for name in fields)
        text, below = f"{text}class {it}{{{below}@ {','.join(fields)};{it}(){{{made}}}}}", it
    return text


def filled(head: str, unit: str, tail: str = "}", most: int = MOST) -> str:
    """The unit as often as there is room, and at most `most` bytes of it."""
    return head + unit * ((min(most, MOST) - 1 - len(head) - len(tail)) // len(unit)) + tail


def locals_of(type_name: str, count: int = 1024) -> str:
    """So many variables, locals or globals."""
    return f"{type_name} {','.join(names(count))};"


def chain(count: int = 255) -> str:
    """Objects of so many classes, each inside the next, of which each holds a wide one too."""
    classes = [f"class k{n}{{z@ w;k{n + 1}@ n;}}" for n in range(count - 1)] + [f"class k{count - 1}{{z@ w;}}"]
    made = [f"k{n}@ c{n}=k{n}();@c{n}.w=z();" for n in range(count)]
    joined = [f"@c{n}.n=c{n + 1};" for n in range(count - 1)]
    return f"{wide(256)}{''.join(classes)}k0@ g;void f(){{{''.join(made + joined)}@g=c0;}}"


def chains(count: int = 255) -> str:
    """Objects of so many classes, each inside the next, let go with the first one, as often as there is room."""
    classes = [f"class k{n}{{k{n + 1}@ n;}}" for n in range(count - 1)] + [f"class k{count - 1}{{}}"]
    made = [f"k{n}@ c{n}=k{n}();" for n in range(count)]
    joined = [f"@c{n}.n=c{n + 1};" for n in range(count - 1)]
    return filled("".join(classes) + "void f(){", f"{{{''.join(made + joined)}}}")


def initialized(type_name: str, value: str, count: int) -> str:
    """So many globals that begin with this value."""
    return "".join(f"{type_name} {name}={value};" for name in names(count)) + "void f(){}"


def things(fan: int) -> str:
    """A class whose objects hold so many of the host's."""
    made = "".join(f"@{it}=Thing();" for it in names(fan))
    return f"class l{{Thing@ {','.join(names(fan))};l(){{{made}}}}}"


def heirs(classes: int = 49, below: int = 200) -> str:
    """Classes of 256 fields in a chain, and below the last of them some without members: what takes most in a build."""
    return wide(256 * classes) + "".join(f"class h{n}:z{{}}" for n in range(below))


EMPTY, FULL = "class l{}", f"class l{{int64 {','.join(names(250))};}}"
MANY = f"many({','.join(['9223372036854775807'] * 32)})"
PARAMETERS = ",".join(f"int64 a{n}" for n in range(32))
BEGUN = "p(" + "1," * 31  # a call that waits for its last argument
SIGNS = "~" * 250 + "x;"
NEXT = "if(g is null)@g=t();else if(h is null)@h=t();else @i=t();"


def stack(first: str, last: str) -> str:
    """200 functions one inside the other, each with 1,024 locals and 61 calls begun. The last one does something else."""
    deeper = f"return {BEGUN * 61}1{')' * 61};"
    return f"int64 x,d;int64 p({PARAMETERS}){{{first}if(++d<199){deeper}{last}return 1;}}void f(){{d=0;{BEGUN}1);}}"


# Of each script its text, in which `void f()` is called.
SCRIPTS: Dict[str, str] = {
    "a million objects without fields": tree(EMPTY, 100, 3) + "t@ g;void f(){@g=t();}",
    "160,000 objects of 250 fields": tree(FULL, 20, 4) + "t@ g;void f(){@g=t();}",
    "36,000 slots a call, in globals": tree(FULL, 12, 2) + f"t@ g,h,i;void f(){{{NEXT}}}",
    "1,024 objects in each of 200 functions": EMPTY + "void f(){" + locals_of("l") + "f();}",
    "900 objects of 10,000 fields": wide(10000) + "void f(){" + locals_of("z", 900) + "}",
    "objects of 7,000 fields, one after the other": filled(wide(7000) + "void f(){", "z();"),
    "the same, each in a block": filled(wide(7000) + "void f(){", "{z a;}"),
    "objects of 5 fields, one after the other": filled(f"class l{{bool {','.join(names(5))};}}void f(){{", "l();"),
    "objects without fields, one after the other": filled("class l{}void f(){", "l();"),
    "the same in a global": filled("class l{}l@ g;void f(){", "@g=l();"),
    "objects of 7,000 fields in initializers, let go at once": wide(7000) + initialized("bool", "z().A", 2400),
    "objects without fields in initializers, let go at once": "class l{int A;}" + initialized("int", "l().A", 4000),
    "two globals that change places": filled("class l{}l@ g,h;void f(){@g=l();", "@g=h;@h=g;"),
    "chains of 255 objects, let go at once": chains(),
    "globals of 7,000 fields": wide(7000) + locals_of("z", 4000) + "void f(){}",
    "globals of trees": tree(FULL, 20, 3) + "".join(f"t@ g{n}=t();" for n in range(1000)) + "void f(){}",
    "255 objects, each inside the next": chain(),
    "`while(true){say(1);}`": "void f(){while(true){say(1);}}",
    "`for(;;)reg+=reg+=reg;`": "void f(){for(;;)reg+=reg+=reg;}",
    "`reg+=reg+=..`, without a loop": filled("void f(){", "reg+=" * 250 + "reg;"),
    "32 arguments, in a loop": f"void f(){{for(;;){MANY};}}",
    "32 arguments, without a loop": filled("void f(){", f"many({','.join('1' * 32)});"),
    "initializers that ask": "".join(f"int64 g{n}=reg+=reg;" for n in range(2800)) + "void f(){}",
    "the host's objects, one after the other": "void f(){for(;;)Thing();}",
    "1,024 of them in each of 200 functions": "void f(){" + locals_of("Thing") + "f();}",
    "4,000 of them in globals": locals_of("Thing", 4000) + "void f(){}",
    "100,000 of them in a tree": tree(things(250), 20, 2) + "t@ g;void f(){@g=t();}",
    "200 functions of 1,024 locals and 61 calls begun": stack(locals_of("int64"), ""),
    "statements alone": filled("int64 x;void f(){", "x=x+1;"),
    "signs alone": filled("int64 x;void f(){", SIGNS),
    "fields of 249 classes": heirs() + "void f(){h0 a;}",
    "objects, calls, arguments and signs": filled(
        EMPTY + stack(f"{locals_of('l', 490)}int64 {','.join(names(534, 490))};", f"for(;;){MANY};") + "void s(){", SIGNS
    ),
}

def returning(head: str, unit: str) -> str:
    """200 functions one inside the other, each of which does the unit as often as there may be once the inner one has returned."""
    return filled(f"{head}int d;void f(){{d=0;g();}}void g(){{if(++d<{DEPTH - 1})g();", unit, "}", len(head) + WAITING)


def each(type_name: str, value: str, count: int) -> str:
    return "".join(f"{type_name} {name}={value};" for name in names(count))


# Of each script its text. The call of `void f()` takes a tick for each of its 200 functions.
RETURNING: Dict[str, str] = {
    "statements": returning("int x;", "x;"),
    "signs": returning("int x;", SIGNS),
    "divisions": returning("int64 x=3;", f"x{'/x' * 125};"),
    "changes of small types": returning("int8 x;uint64 y;", f"x{'+y+x' * 60};"),
    "handles to a script's object": returning("class l{}l@ o=l();", "o;"),
    "handles to 26 objects of the host": returning(each("Thing@", "Thing()", 26), "".join(f"{it};" for it in names(26))),
    "such a handle, stored": returning(each("Thing@", "Thing()", 26), "".join(f"@A={it};" for it in names(26))),
    "casts": returning(f"class k0{{}}{''.join(f'class k{n + 1}:k{n}{{}}' for n in range(254))}k254 o;", "cast<k0>(o);"),
    "objects": returning("class l{}", "l();"),
    "10,000 host calls": returning("", "reg+=" * 250 + "reg;"),
    "10,000 host calls of 32 arguments": returning("int64 x=-9223372036854775807;", f"many({','.join('x' * 32)});"),
    "10,000 posts of 32 arguments": returning("int64 x=-9223372036854775807;", f"lots({','.join('x' * 32)});"),
}

# What limits are met in. A part takes four slots, and a pair twelve and an object of the host.
PARTS = """\
class Part { int64 a, b, c; }
class Pair { Part@ a, b; Thing@ t; Pair() { @t = Thing(); @a = Part(); @b = Part(); } }
"""
OWN = "void part() { Part it; } void pair() { Pair it; } "
FIRST = PARTS + OWN + 'import void far() from "second"; void near() { Part it; far(); }'
SECOND = PARTS + 'import void farther() from "third"; void far() { Pair it; farther(); }'
THIRD = PARTS + "void farther() { Pair a, b; }"
GLOBALS = PARTS + "Part@ g = Part(); Pair@ h = Pair();"
HOLDER = PARTS + "Part@ g = Part();"


class Met(NamedTuple):
    """Which limits are set, what is called, how that ends, and how many objects of the host are made until then."""

    limits: Limits
    function: str
    outcome: str
    made: int


MET = [
    Met(Limits(), "near", "ok", 3),
    Met(Limits(slots=40), "near", "ok", 3),
    Met(Limits(slots=39), "near", "fault Memory", 3),
    Met(Limits(slots=32), "near", "fault Memory", 3),  # in the last constructor
    Met(Limits(slots=31), "near", "fault Memory", 2),
    Met(Limits(slots=11), "pair", "fault Memory", 1),
    Met(Limits(slots=4), "part", "ok", 0),
    Met(Limits(slots=3), "part", "fault Memory", 0),
    Met(Limits(objects=2), "near", "fault Memory", 2),
    Met(Limits(objects=0), "near", "fault Memory", 0),
    Met(Limits(events=6, objects=3), "near", "ok", 3),
    Met(Limits(events=5, objects=3), "near", "fault Memory", 2),
    Met(Limits(events=1, objects=0), "near", "fault Memory", 0),
]


# ---- what they take


def milliseconds(engine: Engine) -> float:
    """The processor time that the engine's process has taken."""
    with open(f"/proc/{engine.pid}/schedstat") as file:
        return int(file.read().split()[0]) / 1e6


def most_memory(engine: Engine) -> int:
    """The most bytes of memory that the engine's process had."""
    with open(f"/proc/{engine.pid}/status") as file:
        return 1024 * int(re.search(r"VmHWM:\s+(\d+) kB", file.read())[1])  # type: ignore[index]


def made(engine: Engine, name: str, text: str) -> Module:
    module = engine.module(name, 1)
    module.section(text)
    return module


def built_in(engine: Engine, text: str) -> float:
    """The milliseconds of a build whose initializers have two ticks, as all that is called after it."""
    stranger = made(engine, "stranger", text)
    engine.budget(2)
    before = milliseconds(engine)
    stranger.build()
    return milliseconds(engine) - before


def called(engine: Engine, ticks: int) -> float:
    """The milliseconds of a call that has so many ticks."""
    engine.budget(ticks)
    took = []
    for _ in range(ROUNDS):
        before = milliseconds(engine)
        engine.command("call stranger () void f()")
        took.append(milliseconds(engine) - before)
    return min(took)


class Trial:
    """What did not go well."""

    def __init__(self, program: str) -> None:
        self.program, self.bad = program, 0

    def wants(self, holds: bool, what: str) -> None:
        if not holds:
            self.bad += 1
            print(f"{what}", flush=True)

    def told(self, name: str, text: str) -> List[str]:
        """Builds a script and calls it three times, with what a client sets by itself, and gives what came of it."""
        with Engine(offered(), self.program, TIMEOUT) as engine:
            other = made(engine, "other", OTHER)
            other.build()
            stranger, pid = made(engine, "stranger", text), engine.pid
            replies = [stranger.build()]
            for _ in range(3):
                replies.append(engine.command("call stranger () void f()"))
                self.wants(other.call("int64 answer()") == 42, f"{name}: the other module answers something else")
                self.wants(engine.used().objects == len(engine.objects), f"{name}: other objects than the host's")
            self.wants(engine.pid == pid, f"{name}: the process is another one")
            self.wants(max(len(it.events) for it in replies) <= Limits().events, f"{name}: more events than the limit")
            build, *calls = (it.outcome for it in replies)
            self.wants({build, *calls} <= OUTCOMES, f"{name}: {build} {replies[0].errors}, {calls}")
            memory = most_memory(engine)
            self.wants(memory < MEMORY, f"{name}: {memory} bytes of memory")
        return [build, calls[0], f"{memory / 1e6:.1f}"]

    def timed(self, name: str, text: str) -> List[str]:
        """The milliseconds of a build, of its initializers and of a call, where each run has two ticks."""
        with Engine(offered(), self.program, SECONDS) as engine:
            build = built_in(engine, text)
            ticks = called(engine, 2)
        with Engine(offered(), self.program, SECONDS) as engine:
            engine.limits(events=1, slots=0, objects=0)
            begun = build - built_in(engine, text)
        for what, took in (("of a call", ticks), ("of initializers", begun)):
            self.wants(took <= 2 * TICK, f"{name}: two ticks {what} take {took:.0f} milliseconds")
        return [f"{build:.0f}", f"{begun:.1f}", f"{ticks:.1f}"]

    def strangers(self) -> None:
        print("| Script | bytes | its build | its call | MB | ms of the build | of its initializers | of two ticks |")
        print("|---|---|---|---|---|---|---|---|")
        for name, text in SCRIPTS.items():
            assert len(text) < MOST, name
            try:
                told = [*self.told(name, text), *self.timed(name, text)]
            except EngineLost as lost:
                self.wants(False, f"{name}: {lost}")
                continue
            print(f"| {name} | {len(text):,} | {' | '.join(told)} |", flush=True)

    def returned(self) -> None:
        print("\n| What 200 functions do as they return | bytes | MB | ms of 199 ticks | of 200 | of the last one |")
        print("|---|---|---|---|---|---|")
        for name, text in RETURNING.items():
            assert len(text) < MOST, name
            with Engine(offered(), self.program, SECONDS) as engine:
                self.wants(made(engine, "stranger", text).build().ok, f"{name}: not built")
                fewer, all_ticks = called(engine, DEPTH - 1), called(engine, DEPTH)
                memory = most_memory(engine)
            last = all_ticks - fewer
            most = 2 * TICK if name.startswith("10,000") else TICK
            self.wants(last <= most, f"{name}: the last tick takes {last:.0f} milliseconds")
            self.wants(memory < MEMORY, f"{name}: {memory} bytes of memory")
            print(f"| {name} | {len(text):,} | {memory / 1e6:.1f} | {fewer:.1f} | {all_ticks:.1f} | {last:.1f} |", flush=True)
        print()

    def balanced(self, what: str, engine: Engine, reply: Reply, outcome: str, objects: int) -> None:
        """After a reply nothing is held, and each object that was made has ended."""
        self.wants(reply.outcome == outcome, f"{what}: {reply.outcome}, where {outcome} is wanted")
        ends = sum(event.startswith("end ") for event in reply.events)
        self.wants(ends == objects == len(reply.events) - ends, f"{what}: {ends} ends in {reply.events}")
        self.wants(engine.used()[:2] == (0, 0) and not engine.objects, f"{what}: {engine.used()} is held")

    def met(self) -> None:
        """Limits that are met in calls, through imports too, and in initializers."""
        with Engine(offered(), self.program) as engine:
            texts = {"first": FIRST, "second": SECOND, "third": THIRD}
            modules = [made(engine, name, text) for name, text in texts.items()]
            for module in modules:
                self.wants(module.build().ok, f"{module.name} is not built")
            modules[0].bind(0, modules[1], "void far()")
            modules[1].bind(0, modules[2], "void farther()")
            for met in MET:
                engine.limits(*met.limits)
                reply = engine.command(f"call first () void {met.function}()")
                self.balanced(str(met), engine, reply, met.outcome, met.made)
            late = engine.module("late", 1)
            for slots, objects in ((15, 1), (7, 0), (3, 0)):
                engine.limits(*Limits(slots=slots))
                late.section(GLOBALS)
                self.balanced(f"globals, {slots} slots", engine, late.build(), "refused InitFailed Memory", objects)
            self.shared(engine, late)
            for module in modules:
                module.discard()
            self.wants(engine.used()[:2] == (0, 0), f"{engine.used()} is held by no module")

    def shared(self, engine: Engine, holder: Module) -> None:
        """What one module's globals hold no other one can have, until it is given up."""
        engine.limits(*Limits(slots=7))
        holder.section(HOLDER)
        self.wants(holder.build().ok, "the holder is not built")
        call = "call first () void part()"
        self.wants(engine.command(call).outcome == "fault Memory", "there is more than the limit")
        engine.limits(slots=8)
        self.wants(engine.command(call).ok, "there is less than the limit")
        engine.limits(slots=7)
        holder.discard()
        self.wants(engine.command(call).ok, "what was held is not given up")


def main() -> None:
    trial = Trial(sys.argv[1])
    trial.strangers()
    trial.returned()
    trial.met()
    print(f"{len(SCRIPTS) + len(RETURNING)} scripts, limits met {len(MET) + 4} times, {trial.bad} things that did not go well")
    sys.exit(trial.bad > 0)


main()
