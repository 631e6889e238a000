"""A host in Python that sets limits, between commands and when its engine is made, and is told what scripts hold.

    limits.py ASREMOTE [LIBRARY]

Prints what stands in limits.expected.
"""

import os
import sys
from typing import Any, Callable

sys.path.insert(0, os.path.join(os.path.dirname(os.path.abspath(__file__)), "..", "..", "clients", "python"))
from bustlebrick import Engine, Limits, Module, Profile, Refused, ScriptFault, Used  # noqa: E402

# A shelf and a part take four slots each.
SCRIPT = """\
class Part { int64 a, b, c; }
class Shelf { Part@ p0, p1, p2; }
Shelf shelf;
Thing@ t0, t1, t2;

void hold(int n) {
  if (n > 0) @shelf.p0 = Part();
  if (n > 1) @shelf.p1 = Part();
  if (n > 2) @shelf.p2 = Part();
}
void drop() { @shelf.p0 = null; @shelf.p1 = null; @shelf.p2 = null; }
void make(int n) {
  if (n > 0) @t0 = Thing();
  if (n > 1) @t1 = Thing();
  if (n > 2) @t2 = Thing();
}
void forget() { @t0 = null; @t1 = null; @t2 = null; }
void say_often(int n) { for (int i = 0; i < n; i++) say(i); }
"""
OTHER = "int answer() { return 42; }"
TOO_MANY = 2**63
SECONDS = 100.0  # that a command may take


class Thing:
    pass


def offered() -> Profile:
    profile = Profile()
    profile.function("void say(int64)", lambda n: None)
    profile.type("Thing").factory("Thing@ f()", Thing)
    return profile


def text(value: Any) -> str:
    if isinstance(value, Limits):
        return ", ".join(f"{'any' if most is None else most} {name}" for name, most in value._asdict().items())
    if isinstance(value, Used):
        return f"{value.slots} slots, {value.objects} objects"
    return "done" if value is None else str(value)


def tell(what: str, do: Callable[[], Any]) -> None:
    """Prints what came of something."""
    try:
        print(f"{what}: {text(do())}")
    except ScriptFault as fault:
        print(f"{what}: fault {fault}")
    except (Refused, ValueError) as refusal:
        print(f"{what}: {refusal}")


def made(engine: Engine, name: str, script: str) -> Module:
    module = engine.module(name, 1)
    module.section(script)
    return module


def refused_before_its_start() -> None:
    start = lambda **limits: Engine(offered(), "no such program", **limits)  # noqa: E731
    tell("no engine with 5 events, 5 objects", lambda: start(events=5, objects=5))
    tell("no engine with any objects", lambda: start(objects=None))
    tell("no engine with too many slots", lambda: start(slots=TOO_MANY))


def slots(engine: Engine, module: Module) -> None:
    hold = lambda n: tell(f"hold {n}", lambda: module.call("void hold(int)", n))  # noqa: E731
    tell("built", lambda: module.build().outcome)
    tell("say 20000", lambda: module.call("void say_often(int)", 20000))
    tell("used", engine.used)
    hold(3)
    tell("used", engine.used)
    tell("19 slots", lambda: engine.limits(slots=19))
    hold(1)
    tell("5 slots", lambda: engine.limits(slots=5))  # fewer than there are
    tell("drop", lambda: module.call("void drop()"))
    tell("used", engine.used)
    hold(1)
    tell("any slots", lambda: engine.limits(slots=None))
    hold(3)


def events_and_objects(engine: Engine, module: Module) -> None:
    say = lambda n: tell(f"say {n}", lambda: module.call("void say_often(int)", n))  # noqa: E731
    make = lambda n: tell(f"make {n}", lambda: module.call("void make(int)", n))  # noqa: E731
    tell("8 events, 3 objects", lambda: engine.limits(events=8, objects=3))
    make(3)
    say(5)
    say(6)
    tell("3 events", lambda: engine.limits(events=3))
    tell("3 events, 1 object", lambda: engine.limits(events=3, objects=1))  # three are alive
    tell("too many objects", lambda: engine.limits(objects=TOO_MANY))
    tell("4 events, 1 object", lambda: engine.limits(events=4, objects=1))
    say(1)
    say(2)
    make(1)
    tell("forget", lambda: module.call("void forget()"))
    tell("used", engine.used)


def main() -> None:
    refused_before_its_start()
    library = sys.argv[2] if len(sys.argv) > 2 else None
    with Engine(offered(), sys.argv[1], SECONDS, library=library) as engine:
        tell("without others", engine.limits)
        module, other = made(engine, "m", SCRIPT), made(engine, "other", OTHER)
        other.build()
        slots(engine, module)
        events_and_objects(engine, module)
        tell("3 slots", lambda: engine.limits(slots=3))
        another = made(engine, "another", SCRIPT)
        tell("another one, built", lambda: another.build().outcome)
        tell("answer", lambda: other.call("int answer()"))

        # The next engine begins with the limits of the last one.
        engine.restart()
        tell("the next engine", engine.limits)
        module = made(engine, "m", SCRIPT)
        tell("built", lambda: module.build().outcome)
        tell("the first ones", lambda: engine.limits(*Limits()))
        module.section(SCRIPT)
        tell("built", lambda: module.build().outcome)
        tell("none", lambda: engine.limits(None, None, None))
        tell("say 20000", lambda: module.call("void say_often(int)", 20000))


main()
