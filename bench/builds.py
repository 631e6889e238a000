#!/usr/bin/env python3
"""Builds large modules in the program, and prints the processor seconds and the memory of each build.

    python3 bench/builds.py ASRUN [--rounds N]

ASRUN is the executable of crates/asrun. The first table is of classes: 256 in a chain, each the base class of the next, with 256
members each, so that 65,280 members are inherited by the last. The second is of denials: builds with errors, each a call of a
function that is hidden or not there, over a number of hidden functions. The third is of denials too: each error is a call of a name that
many hidden functions have, of which most would take the call, the same call in each or one with arguments of other types in each. The
fourth is of a full section of calls with overloads over a host of which nothing is hidden, with one error beside them or none. A row is run
N times (3, if left out), one after the other, and the quickest counts. Seconds are those of the whole process: it reads the session, builds,
prints and ends. Its memory is the most that it had.

Ends with status 1 where a build answered otherwise than it should.
"""

import argparse
import os
import string
import sys
import tempfile

from processes import resources, write

MOST = 65000  # bytes of a section
CLASSES = MEMBERS = 256
USES = 4096
LETTERS = string.ascii_letters
ERRORS = (100, 1000, 10000)
HIDDEN = (0, 64, 256, 1022)
OVERLOADS = (0, 64, 1000)
FLOODS = (1000, 10000)
INTEGERS = ("int8", "int16", "int", "int64", "uint8", "uint16", "uint", "uint64")
FIELDS = "abcdefgk"  # of those types
PRIMITIVES = ("int8", "int16", "int", "int64", "uint8", "uint16", "uint", "uint64", "bool")


def name(number):
    """A name of letters that no other number has, and that is no word of the language."""
    text = ""
    while True:
        text = LETTERS[number % len(LETTERS)] + text
        number //= len(LETTERS)
        if not number:
            return "q" + text


def sections(declarations):
    """The declarations in as few sections as they fit in."""
    found, here = [], ""
    for declaration in declarations:
        if len(here) + len(declaration) > MOST:
            found.append(here)
            here = ""
        here += declaration
    return [*found, here]


def session(declarations):
    lines = [f"section m {text.count(chr(10))}\n{text}" for text in sections(declarations)]
    return "module m 00000001\n" + "".join(lines) + "build m\n"


def chain(members, count=CLASSES, ends=()):
    """A chain of classes, and what stands above the last one besides."""
    found = []
    for number in range(count):
        bases = [f"C{number - 1}"] * (number > 0) + [*ends] * (number == count - 1)
        found.append(f"class C{number}{':' * bool(bases)}{','.join(bases)}{{{members(number)}}}\n")
    return found


def fields(number):
    return "int " + ",".join(name(number * MEMBERS + i) for i in range(MEMBERS)) + ";"


def methods(number):
    return "".join(f"void {name(number * MEMBERS + i)}(){{}}" for i in range(MEMBERS))


def overrides(number):
    return "".join(f"void {name(i)}(){{}}" for i in range(MEMBERS))


def with_interface():
    """An interface and a class less, the last of which has to have 256 methods that the first one has."""
    wanted = "".join(f"void {name(i)}();" for i in range(MEMBERS))
    return [f"interface I{{{wanted}}}\n", *chain(methods, CLASSES - 1, ["I"])]


def with_uses():
    call = "void f{}(){{C255 o;o.{}();}}\n"
    return chain(methods) + [call.format(i, name(i * 37 % (CLASSES * MEMBERS))) for i in range(USES)]


def with_bodies(bodies, base=""):
    """Classes with a method for each of the bodies."""
    found = []
    for first in range(0, len(bodies), MEMBERS):
        methods = (f"void m{i}(){{{body}}}" for i, body in enumerate(bodies[first : first + MEMBERS], first))
        found.append(f"class C{first}{base}{{{''.join(methods)}}}\n")
    return found


def refused(errors):
    """Methods with an error each."""
    return with_bodies([f"h{i % HIDDEN[-1]}(1);" for i in range(errors)])


def profile(hidden):
    lines = ["mask 00000002", *(f"function 0 {i % 256} void h{i}(int)" for i in range(hidden))]
    return "\n".join(lines) + "\n"


def parameters(number):
    """Four parameters that no other number has."""
    return ", ".join(PRIMITIVES[number // len(PRIMITIVES) ** place % len(PRIMITIVES)] for place in range(4))


def overloads(hidden):
    """A profile with that number of hidden functions of one name."""
    lines = ["mask 00000002", *(f"function 0 {i % 256} void h({parameters(i)})" for i in range(hidden))]
    return "\n".join(lines) + "\n"


def refused_alike(errors):
    """Methods with an error each, a call of the name of those overloads."""
    return with_bodies(["h(1,2,3,4);"] * errors)


def refused_apart(errors):
    """The same, with arguments of other types in each, up to 4,096."""
    arguments = (",".join(FIELDS[i // len(FIELDS) ** place % len(FIELDS)] for place in range(4)) for i in range(errors))
    fields = "".join(f"{kind} {name};" for kind, name in zip(INTEGERS, FIELDS))
    return [f"class G{{{fields}}}\n", *with_bodies([f"h({them});" for them in arguments], ":G")]


def full(last):
    """A full section of calls of a name with 400 overloads, and a declaration after them."""
    found = "".join(f"void f({parameters(i)}){{}}\n" for i in range(400)) + "void s(int a,uint b,int64 c){"
    call = "f(a,b,c,a);"
    return [found + call * ((MOST - len(found) - len(last) - 2) // len(call)) + "}\n" + last]


def told(path):
    """The last line of a file, and how many denials there are."""
    last, denials = "", 0
    with open(path) as lines:
        for last in lines:
            denials += last.startswith("denied ")
    return last.rstrip("\n"), denials


def built(program, room, declarations, registered, rounds):
    """The last line, the number of denials, the seconds and the memory of a build over a profile."""
    write(room, {"profile": registered, "session": session(declarations)})
    words = [program, "--profile", f"{room}/profile", "--session", f"{room}/session"]
    runs = [resources(words, f"{room}/printed") for _ in range(rounds)]
    return *told(f"{room}/printed"), min(seconds for seconds, _ in runs), max(memory for _, memory in runs)


def main():
    words = argparse.ArgumentParser()
    words.add_argument("program")
    words.add_argument("--rounds", type=int, default=3)
    given = words.parse_args()
    program, wrong = os.path.abspath(given.program), 0
    chains = {
        "fields": chain(fields),
        "methods of different names": chain(methods),
        "the same methods in each class": chain(overrides),
        "an interface above the last class": with_interface(),
        f"methods, and {USES:,} calls of them": with_uses(),
    }
    with tempfile.TemporaryDirectory() as room:
        print("| 256 classes of 256 members | Seconds |\n|---|---|")
        for what, declarations in chains.items():
            last, _, seconds, _ = built(program, room, declarations, profile(0), given.rounds)
            wrong += last != "ok"
            print(f"| {what} | {seconds:.2f} |", flush=True)
        print("\n| Errors | Hidden functions | Denials | Seconds |\n|---|---|---|---|")
        for errors in ERRORS:
            for hidden in HIDDEN:
                last, denials, seconds, _ = built(program, room, refused(errors), profile(hidden), given.rounds)
                wrong += last != "refused BuildErrors"
                print(f"| {errors:,} | {hidden:,} | {denials:,} | {seconds:.2f} |", flush=True)
        print("\n| Errors | Calls | Hidden overloads of their name | Denials | Seconds | MB |\n|---|---|---|---|---|---|")
        for errors in FLOODS:
            for calls, declarations in ("alike", refused_alike(errors)), ("of other types", refused_apart(errors)):
                for hidden in OVERLOADS:
                    last, denials, seconds, memory = built(program, room, declarations, overloads(hidden), given.rounds)
                    wrong += last != "refused BuildErrors"
                    print(f"| {errors:,} | {calls} | {hidden:,} | {denials:,} | {seconds:.2f} | {memory:.0f} |", flush=True)
        print("\n| A full section of calls with overloads, nothing hidden | Seconds |\n|---|---|")
        for what, last, wanted in ("no error", "", "ok"), ("one error", "void w(){u();}\n", "refused BuildErrors"):
            answer, _, seconds, _ = built(program, room, full(last), "mask 00000001\n", given.rounds)
            wrong += answer != wanted
            print(f"| {what} | {seconds:.3f} |", flush=True)
    return wrong > 0


if __name__ == "__main__":
    sys.exit(main())
