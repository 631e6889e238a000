"""A host in Python whose calls end with faults: it prints the frames of their traces, and their stacks.

    traces.py ASREMOTE [LIBRARY]

Prints what stands in traces.expected.
"""

import os
import sys
from typing import Callable, Iterable, List, Optional

sys.path.insert(0, os.path.join(os.path.dirname(os.path.abspath(__file__)), "..", "..", "clients", "python"))
from bustlebrick import Engine, Fault, Frame, Module, Place, Profile, Refused, ScriptFault  # noqa: E402

SHARES = """\
class Pair {
  int all;
  Pair(int n) { all = n; check(n); }
  int split(int between) { return all / between; }
}
void check(int n) {
  if (n < 0)
    fail(n);
}
int share(int all, int between) {
  Pair pair(all);
  int part = pair.split(between);
  return part;
}
"""
SHOP = """\
import int share(int, int) from "shares";
int price(int n) {
  for (int i = 0; i < 3; i++) {
    if (i == 2)
      return share(100, n);
  }
  return 0;
}
"""
INITIALIZED = """\
int half(int n) { return 1 / n; }
int good = half(1);
int bad =
  half(0);
"""
WINDOWS = "int tabs(int n) {\r\n\tint m = n;\r\n\treturn\t10 /\tm;\r\n}\r\n"
OUTER = "int outer(int n) {\n  return inner(n);\n}"  # without an LF at its end
INNER = "\nint inner(int n) {\n  return 7 / n;\n}\n"
ANOTHER_OUTER = "int outer(int n) { return 8 / n; }\n"
DEEP = "int deep(int n) {\n  return deep(n + 1);\n}\nvoid chatter() {\n  while (true)\n    say(1);\n}\n"
ODD = "int odd(int n) { return 9 / n; }"


def long_line() -> str:
    """A line of 10,000 bytes: a function at its beginning, one behind 5,000, and one at its end."""
    first, second, third = (f"int at_{it}(int n) {{ return {it} / n; }}" for it in (1, 2, 3))
    middle = f"{first}/*{'-' * (5000 - len(first) - 4)}*/{second}/*"
    return f"{middle}{'-' * (9998 - len(middle) - len(third))}*/{third}"


def letters(count: int) -> str:
    """A comment of letters that have two bytes each; in C++ they have one, and are no UTF-8."""
    return f"int letters(int n) {{ return 1 / n; }}//{'é' * count}"


def yes(truth: bool) -> str:
    return "yes" if truth else "no"


def place(at: Optional[Place]) -> str:
    return "{}:{}:{}".format(*at) if at else "-"


def plain(text: str) -> str:
    return "".join(it if it.isascii() else "?" for it in text)


def shown(source: Optional[str]) -> str:
    return "no source" if source is None else "[" + plain(source).replace("\t", "\\t").replace("\r", "\\r") + "]"


def tell_frames(frames: Iterable[Frame]) -> None:
    for it in frames:
        print(f"  {it.module}, {it.name}, {place(it.declared)}, {place(it.place)}, {shown(it.source)}")


def tell_stack(lines: List[str]) -> None:
    for line in lines:
        print(f"  in {plain(line)}")


def tell(what: str, call: Callable[[], object]) -> Optional[ScriptFault]:
    """Prints how a call ended, and gives its fault."""
    try:
        print(f"{what}: {call()}")
    except ScriptFault as fault:
        print(f"{what}: fault {fault}")
        tell_frames(fault.trace)
        tell_stack(fault.stack())
        return fault
    except Refused as refusal:
        print(f"{what}: refused {refusal}")
    return None


def made(engine: Engine, name: str, *sections: str) -> Module:
    module = engine.module(name, 1)
    build(module, *sections)
    return module


def build(module: Module, *sections: str) -> None:
    for text in sections:
        module.section(text)
    print(f"{module.name}: {module.build().outcome}")


def offered() -> Profile:
    def fail(n: int) -> None:
        raise Fault(7)

    profile = Profile()
    profile.function("void fail(int)", fail)
    profile.function("void say(int)", lambda n: None)
    return profile


def methods_and_imports(engine: Engine) -> None:
    shares, shop = made(engine, "shares", SHARES), made(engine, "shop", SHOP)
    tell("in a method", lambda: shares.call("int share(int, int)", 10, 0))
    tell("below a constructor", lambda: shares.call("int share(int, int)", -1, 1))
    tell("not bound", lambda: shop.call("int price(int)", 0))
    shop.bind("int share(int, int)", shares)
    price = shop.prepare("int price(int)")
    tell("through an import", lambda: price(0))


def initializers(engine: Engine) -> None:
    module = made(engine, "initialized", INITIALIZED)
    frames = engine.trace()
    tell_frames(frames)
    tell_stack([str(it) for it in frames])
    tell("not built", lambda: module.call("int half(int)", 0))
    print(f"frames then: {len(engine.trace())}")


def lines(engine: Engine) -> None:
    windows, long = made(engine, "windows", WINDOWS), made(engine, "long", long_line())
    print(f"bytes of the long line: {len(long_line())}")
    tell("CRLF and tabs", lambda: windows.call("int tabs(int)", 0))
    tell("at the beginning", lambda: long.call("int at_1(int)", 0))
    tell("in the middle", lambda: long.call("int at_2(int)", 0))
    tell("at the end", lambda: long.call("int at_3(int)", 0))
    few, many = made(engine, "few", letters(10)), made(engine, "many", letters(1000))
    tell("letters", lambda: few.call("int letters(int)", 0))
    fault = tell("more letters", lambda: many.call("int letters(int)", 0))
    print(f"at most 800 bytes: {yes(len(fault.trace[0].source.encode()) <= 800)}")


def sections(engine: Engine) -> None:
    two = made(engine, "two", OUTER, INNER)
    old = tell("two sections", lambda: two.call("int outer(int)", 0))
    build(two, ANOTHER_OUTER)
    tell("built again", lambda: two.call("int outer(int)", 0))
    print("before that")
    tell_stack(old.stack())

    # What is refused in between makes no difference.
    two.section("int outer( {")
    print(f"check: {two.check().outcome}")
    build(two, "int outer( {")
    engine.budget(0)
    build(two, OUTER)
    engine.budget(10000)
    build(two, INNER)
    tell("refused in between", lambda: two.call("int outer(int)", 0))
    two.discard()
    two = made(engine, "two", ANOTHER_OUTER)
    tell("another module", lambda: two.call("int outer(int)", 0))


def raw_lines(engine: Engine) -> None:
    odd = engine.module("odd", 1)
    for line in (f"section odd 1\n{ODD}", "build odd\r\n"):
        engine.command(line)
    tell("a raw section", lambda: odd.call("int odd(int)", 0))
    engine.command("section odd 4\n" + INNER)
    odd.section(OUTER)
    engine.command("build odd")
    tell("a raw one and another", lambda: odd.call("int outer(int)", 0))
    engine.restart()
    odd = engine.module("odd", 1)
    engine.command(f"section odd 1\n{ODD}")
    build(odd)
    tell("the next engine", lambda: odd.call("int odd(int)", 0))


def many(engine: Engine) -> None:
    deep = made(engine, "deep", DEEP)
    try:
        deep.call("int deep(int)", 0)
    except ScriptFault as fault:
        print(f"fault {fault}: {len(fault.trace)} frames, all alike: {yes(len(set(fault.stack())) == 1)}")
        tell_stack(fault.stack()[:1])
    engine.limits(events=5, objects=4)
    tell("a limit", lambda: deep.call("void chatter()"))
    tell("a budget", lambda: (engine.budget(3), deep.call("int deep(int)", 0)))


def main() -> None:
    library = sys.argv[2] if len(sys.argv) > 2 else None
    with Engine(offered(), sys.argv[1], library=library) as engine:
        engine.budget(10000)
        for part in (methods_and_imports, initializers, lines, sections, raw_lines, many):
            part(engine)


main()
