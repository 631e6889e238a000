"""A host in Python that does what once went wrong: texts, faults and timeouts that a client has to mind.

    mended.py ASREMOTE [LIBRARY]

Prints what stands in mended.expected; and besides, for what this client alone does, a line that says what went wrong, and
then the status is 1.
"""

import math
import os
import signal
import sys
import time
from typing import Any, Callable, Dict, List

sys.path.insert(0, os.path.join(os.path.dirname(os.path.abspath(__file__)), "..", "..", "clients", "python"))
import bustlebrick  # noqa: E402
from bustlebrick import CommandTimeout, Engine, EngineLost, Fault, Module, Profile, Refused, ScriptFault  # noqa: E402

SCRIPT = """\
Thing@ kept = Thing();
int two() { return 2; }
void say_two(int64 n) { say(n); say(n + 1); }
void blame(int64 n) { bad(n); }
int flipped() { return flip(uintish::B); }
void sleep() { nap(); }
void spin() { while (true) say(1); }
"""
TEXTS = "module a 00000001\nmodule b 00000001", "section m 2\nx", "section m", " Section m 1\nx", "module c 00000001\n"
TRIES, MEMORY = 5, 64 << 20
REFUSING = os.path.join(os.path.dirname(os.path.abspath(__file__)), "refusing.py")
found_wrong: List[str] = []


class Thing:
    pass


def wants(holds: bool, what: str) -> None:
    if not holds:
        found_wrong.append(what)
        print(f"WRONG: {what}")


def bad(n: int) -> None:
    raise Fault(n)


def offered() -> Profile:
    profile = Profile()
    profile.function("void say(int64)", lambda n: None)
    profile.function("void bad(int64)", bad)
    profile.function("void nap()", lambda: time.sleep(0.3))
    profile.enum("uintish", A=1, B=-2)
    profile.function("uintish flip(uintish)", lambda n: -n)
    profile.type("Thing").factory("Thing@ f()", Thing)
    return profile


def hoarding() -> str:
    """Classes of which an object of the last one takes some 100 MB."""
    fields = ", ".join(f"f{n}" for n in range(250))
    text = f"class A {{ int64 {fields}; }}\n"
    for name, part, count in (("B", "A", 250), ("C", "B", 200)):
        made = " ".join(f"@f{n} = {part}();" for n in range(count))
        text += f"class {name} {{ {part}@ {', '.join(f'f{n}' for n in range(count))}; {name}() {{ {made} }} }}\n"
    return text + "void hoard() { C it; }\nint two() { return 2; }\n"


def made(engine: Engine, script: str) -> Module:
    module = engine.module("m", 1)
    module.section(script)
    wants(module.build().ok, "a module is built")
    return module


def tell(what: str, do: Callable[[], Any]) -> None:
    """Prints what came of something."""
    try:
        print(f"{what}: {do()}")
    except ScriptFault as fault:
        print(f"{what}: fault {fault}")
    except Refused as refusal:
        print(f"{what}: refused {refusal}")
    except ValueError:
        print(f"{what}: the client refuses it")
    except CommandTimeout:
        print(f"{what}: too slow")
    except EngineLost as lost:
        print(f"{what}: {lost}")


def texts(engine: Engine, module: Module) -> None:
    broken = engine.module("broken", 1)
    broken.section('"a b  c" = 1;')
    for error in broken.build().errors:
        print("error {} {}:{}:{} {}".format(error.kind, *error.place, error.name))
    two = lambda: module.call("int two()")  # noqa: E731
    for text in TEXTS:
        tell(repr(text).replace("'", '"'), lambda: engine.command(text).outcome)
        tell("two", two)


def faults(engine: Engine, module: Module) -> None:
    module.call("void say_two(int64)", 7)
    print(f"events: {', '.join(engine.events)}")
    for number in (7, -1, 4294967279, 4294967280):
        tell(f"blame {number}", lambda: module.call("void blame(int64)", number))
    tell("flipped", lambda: module.call("int flipped()"))


def timeouts(engine: Engine) -> None:
    late = 0
    for _ in range(TRIES):
        engine.timeout = 60.0
        engine.restart()
        module = made(engine, SCRIPT)
        engine.timeout = 0.2
        try:
            module.call("void sleep()")
        except CommandTimeout:
            late += 1
    print(f"too slow: {late} of {TRIES}")
    engine.timeout = 60.0
    engine.restart()
    engine.limits(None, None, None)
    engine.budget(2147483647)
    module = made(engine, SCRIPT)
    engine.timeout = 0.3
    tell("spin", lambda: module.call("void spin()"))
    print(f"objects: {len(engine.objects)}")
    engine.timeout = 60.0
    engine.restart()
    tell("two", lambda: made(engine, SCRIPT).call("int two()"))


def long_timeouts(where: Dict[str, Any]) -> None:
    for timeout in (math.inf, 2147484.0, 4294967.297):
        with Engine(offered(), timeout=timeout, **where) as engine:
            tell("two", lambda: made(engine, SCRIPT).call("int two()"))


def refusals() -> None:
    """What an engine has no memory to take is given up."""
    with Engine(offered(), REFUSING, timeout=60.0) as engine:
        module = engine.module("m", 1)
        tell("refused", lambda: module.call("void any()"))
        print(f"objects: {len(engine.objects)}")
        tell("limits", lambda: engine.limits(events=2, objects=1) and "taken")


def kills(program: str) -> None:
    """An engine that others killed says how it ended, and its objects are given up."""
    with Engine(offered(), program, timeout=60.0) as engine:
        for _ in range(2):
            module = made(engine, SCRIPT)
            print(f"objects: {len(engine.objects)}")
            os.kill(engine.pid or 0, signal.SIGKILL)
            time.sleep(0.2)  # the process is gone by then, and so nothing can be written to it
            tell("killed", lambda: module.call("int two()"))
            print(f"objects: {len(engine.objects)}")
            tell("two", lambda: module.call("int two()"))
            engine.restart()


def memory(where: Dict[str, Any]) -> None:
    with Engine(offered(), timeout=60.0, slots=None, memory=MEMORY, **where) as engine:
        module = made(engine, hoarding())
        tell("hoard", lambda: module.call("void hoard()"))
        tell("two", lambda: module.call("int two()"))


# ---- of this client alone


class Meddler:
    """Callables that use the engine that asks them, and what these raise."""

    def __init__(self) -> None:
        self.engine: Any = None
        self.pid: Any = None

    def use(self, which: int) -> None:
        self.pid = self.engine.pid
        (self.engine.restart, self.engine.close, self.engine.used)[which]()


def meddling(where: Dict[str, Any]) -> None:
    profile, meddler = Profile(), Meddler()
    profile.function("void use(int)", meddler.use)
    profile.function("uint8 most()", lambda: 255)
    profile.function("uint8 more()", lambda: 256)
    profile.function("int yes()", lambda: True)
    with Engine(profile, **where) as engine:
        meddler.engine = engine
        script = "void f(int n) { use(n); } uint8 g() { return most(); } uint8 h() { return more(); }"
        module = made(engine, script + "int i(int n) { return n + yes(); }")
        for which in range(3):
            reply = engine.command(f"call m ({which}) void f(int)")
            wants(isinstance(reply.cause, RuntimeError), f"a callable is not refused: {reply.cause!r}")
            wants(meddler.pid == engine.pid, "a process has another number while a command is done")
        wants(module.call("uint8 g()") == 255, "a uint8 of 255")
        reply = engine.command("call m () uint8 h()")
        wants(isinstance(reply.cause, OverflowError), f"a uint8 of 256 is told as {reply.outcome}, {reply.cause!r}")
        wants(module.call("int i(int)", True) == 2, "True is the int 1")


def closing(where: Dict[str, Any]) -> None:
    """The objects of an engine that is closed are given up."""
    with Engine(offered(), timeout=60.0, **where) as engine:
        made(engine, SCRIPT)
        wants(len(engine.objects) == 1, "a script has an object")
    wants(not engine.objects, "an engine that is closed has objects")


class SlowEntries(List[Any]):
    """Entries of which each takes 0.2 seconds to find, as denials do."""

    def __getitem__(self, at: Any) -> Any:
        time.sleep(0.2)
        return super().__getitem__(at)


def slow_denials(where: Dict[str, Any]) -> None:
    """The time for a reply's reading counts."""
    profile = Profile()
    profile.mask = 2
    profile.function("void hidden()", lambda: None)
    with Engine(profile, timeout=0.7, **where) as engine:
        module = engine.module("m", 1)
        module.section("".join(f"void f{n}() {{ hidden(); }}\n" for n in range(10)))
        profile.entries = SlowEntries(profile.entries)
        begun = time.monotonic()
        try:
            module.build()
            wants(False, f"a reply took {time.monotonic() - begun} seconds to read, with a timeout of 0.7")
        except CommandTimeout:
            pass


def late_answers(where: Dict[str, Any]) -> None:
    """An answer that comes too late is too late, also where the engine has gone on at once."""
    write = os.write

    def write_slowly(file: int, data: bytes) -> int:
        written = write(file, data)
        time.sleep(0.05)
        return written

    with Engine(offered(), timeout=60.0, **where) as engine:
        module = made(engine, SCRIPT)
        engine.timeout, os.write = 0.2, write_slowly
        try:
            module.call("void sleep()")
            wants(False, "a late answer is none")
        except CommandTimeout:
            pass
        finally:
            os.write = write


def many_objects(where: Dict[str, Any]) -> None:
    """An object that is given takes no longer to find where there are many."""
    profile, last = Profile(), []
    thing = profile.type("Thing")
    thing.factory("Thing@ f()", lambda: last.append(Thing()) or last[-1])
    thing.function("Thing@+ newest()", lambda: last[-1])
    script = "class Row { Thing@ " + ", ".join(f"f{n}" for n in range(250)) + "; Row() { "
    script += " ".join(f"@f{n} = Thing();" for n in range(250)) + " } }\nRow r0"
    script += "".join(f", r{n}" for n in range(1, 40)) + ";\n"
    script += "void find(int n) { for (int i = 0; i < n; i++) newest(); }\n"
    with Engine(profile, timeout=300.0, events=None, objects=None, **where) as engine:
        few = made(engine, "Thing one; void find(int n) { for (int i = 0; i < n; i++) newest(); }")
        seconds = []
        for module in (few, None):
            if module is None:
                few.discard()
                module = made(engine, script)
            begun = time.monotonic()
            module.call("void find(int)", 2000)
            seconds.append(time.monotonic() - begun)
        wants(len(engine.objects) == 10000, f"{len(engine.objects)} objects are held")
        wants(seconds[1] < 4 * seconds[0], f"one of 10,000 objects takes {seconds[1] / seconds[0]:.1f} times one of one")


def main() -> None:
    where = {"program": sys.argv[1], "library": sys.argv[2] if len(sys.argv) > 2 else None}
    with Engine(offered(), timeout=60.0, **where) as engine:
        module = made(engine, SCRIPT)
        texts(engine, module)
        faults(engine, module)
        timeouts(engine)
    long_timeouts(where)
    refusals()
    kills(sys.argv[1])
    memory(where)
    meddling(where)
    closing(where)
    slow_denials(where)
    late_answers(where)
    many_objects(where)
    wants(not where["library"] or bustlebrick._loaded(where["library"]) is not None, "the library is there")
    sys.exit(1 if found_wrong else 0)


main()
