#!/usr/bin/env python3
"""Builds modules of doubled sizes in the program, and in the original engine where its program is given, and prints how long each took.

    python3 bench/doublings.py ASRUN [--original BUILD] [--rounds N] [--only WORD[,WORD..]] [--seconds N]

ASRUN is the executable of crates/asrun, and BUILD that of bench/original/build.cpp, which bench/doublings.sh compiles. A row is a
family of scripts in one of the two, and its columns are sizes, each twice the one before; the last is where a limit of the language
stands. A cell has the milliseconds of one build and, after `x`, how many times the one before that is; `!` marks more than 2.4
times. The last lines count these marks in the families that the bound is of, which are the first ones.

The time of a build is the same in both: the processor time, the system's part included, of a fresh process that reads the sections
and builds them once, less that of one that reads them too, and builds an empty section in their place. The least of N processes of
either kind counts (`--rounds`, 5, if left out, and not less); a round has one of each for each size of a family. A build below 20
milliseconds has more of them in a round, 40 at most, and one of more than 5 seconds is measured once. A family ends where a build
takes more than `--seconds` (20).

`--only` picks families whose names have one of the words. Ends with status 1 where a build was answered otherwise than it should be;
no status tells of a mark.
"""

import argparse
import itertools
import math
import os
import string
import sys
import tempfile
from collections import namedtuple

from ordinary import TURN, UNIT
from processes import lines_of, processor_seconds, run_session, write

MOST = 65536  # bytes of a section
BOUND = 2.4  # times that a doubling may cost
FEWEST = 5  # processes of which the least time counts
SHORT, MOST_TIMES = 0.02, 40  # seconds of a build that is measured more often in a round, and how often at most
LONG = 5  # seconds of a build that is measured once
SCRIPT, EMPTY = "m", "e"  # modules: the one of the script, and the one of an empty section
PAIRS = 17  # of letters, in each of as many names as 64 sections have
CLASSES_OF_SECTION = 3  # of ordinary ones, so that 64 sections have no more than there may be
CALLED, CALLS = (256, 512, 1024, 2048, 4096), 20000  # functions of a module that is called from outside, and calls
TYPES = ["int", "int8", "int16", "int64", "uint8", "uint16", "uint", "uint64"]
OK, REFUSED = "ok", "refused BuildErrors"

# A family: what it is, what its last size is, its sizes, what makes the scripts of a size, and what is answered, by the original
# too where nothing else is said.
Family = namedtuple("Family", "what last sizes made answer theirs", defaults=[None])

# What is built: the profile's declarations of functions, and sections.
Made = namedtuple("Made", "profile sections")


def sections(declarations):
    """The declarations in as few sections as they fit in."""
    found, here, size = [], [], 0
    for text in declarations:
        if size + len(text) > MOST and here:
            found.append("".join(here))
            here, size = [], 0
        here.append(text)
        size += len(text)
    return [*found, "".join(here)]


def script(declarations, profile=()):
    return Made(list(profile), sections(declarations))


def each(count, piece):
    """A text for each number below the count, which stands in the place of each `#`."""
    return [piece.replace("#", str(i)) for i in range(count)]


def body(statements, head="void m(){"):
    return [head + "".join(statements) + "}\n"]


# ---- families


def functions(n):
    return script(each(n, "int f#(int a){return a+#;}\n"))


def list_of_globals(n):
    return script(["int a" + ",a".join(map(str, range(n))) + ";\n"])


def unknown_types(n):
    return script(each(n, "T# a#;\n"))


def errors(n):
    return script(each(n, "void f#(){y#=1;}\n"))


def call_one(n):
    return script(["int g(int a){return a;}\n", *each(n - 1, "int f#(){return g(#);}\n")])


def call_the_last(n):
    return script(["int f0(){return 0;}\n", *(f"int f{i}(){{return f{i - 1}();}}\n" for i in range(1, n))])


def few_calls(n):
    calls = (f"f{i * 3}(1);" for i in range(n * 5 // 16))
    return script(each(n, "void f#(int a){}\n") + body(calls))


def parameters(number, count):
    """Types of parameters that no other number has."""
    found = []
    for _ in range(count):
        found.append(TYPES[number % len(TYPES)])
        number //= len(TYPES)
    return ",".join(found)


def arguments(count):
    return ",".join(["a"] * count)


def overloads_of_host(n):
    profile = (f"void o({parameters(i, 32)})" for i in range(n))
    return script(body([f"o({arguments(32)});"] * 16, "void m(){int a;"), profile)


def globals_and_locals(n):
    return script(["int g;\n", *body(each(n, "int v#;") + ["g=1;"] * (n * 8))])


def overloads(n):
    declared = (f"void o({parameters(i, 32)}){{}}\n" for i in range(n))
    return script([*declared, *body([f"o({arguments(32)});"] * 16, "void m(){int a;")])


def called_overloads(n):
    return script([*(f"void o({parameters(i, 5)}){{}}\n" for i in range(n)), *each(n, "void f#(){o(1,2,3,4,5);}\n")])


def names(n):
    found = []
    for i in range(n):
        pieces, size = [], 6
        while size < MOST - 8:
            pieces.append(f"{len(pieces):x}q{i:x}")
            size += len(pieces[-1]) + 2
        found.append("int q" + ",q".join(pieces) + ";\n")
    return Made([], found)


def names_of_one_hash(n):
    """Sections of names that a polynomial in 31 tells not apart: `Aa` and `BB` have the same sum."""
    found = []
    for i in range(n):
        pieces, size = [], 4
        while size + 2 * PAIRS + 2 < MOST:
            number = i * (MOST // (2 * PAIRS + 1)) + len(pieces)
            pieces.append("".join("BB" if number >> k & 1 else "Aa" for k in range(PAIRS)))
            size += 2 * PAIRS + 1
        found.append("int " + ",".join(pieces) + ";\n")
    return Made([], found)


def ordinary(n):
    """Sections with classes, functions and variables as a game's script has them."""
    found = []
    for i in range(n):
        text = THING if i == 0 else ""
        for count in range(MOST):
            piece = ORDINARY_CLASS * (count < CLASSES_OF_SECTION) + ORDINARY
            piece = piece.replace("%d", f"{i}_{count}").replace("%c", f"{i}_{count % CLASSES_OF_SECTION}")
            if len(text + piece) > MOST:
                break
            text += piece
        found.append(text)
    return Made([], found)


def members(n):
    """Classes of 128 fields and 127 methods that use one each, of the same names."""
    return script(class_text(i, "") for i in range(n))


def different_members(n):
    return script(class_text(i, f"_{i}") for i in range(n))


def class_text(i, end):
    fields = ",".join(f"a{k}{end}" for k in range(128))
    methods = "".join(f"void m{k}{end}(){{a{k}{end}={k};}}" for k in range(127))
    return f"class C{i}{{int {fields};{methods}}}\n"


def methods_of_one_hash(n):
    """Classes of 255 methods whose names a polynomial in 31 gives the same last byte."""
    found = names_of_one_byte()
    return script(f"class C{i}{{{''.join(f'void {next(found)}(){{}}' for _ in range(255))}}}\n" for i in range(n))


def names_of_one_byte():
    for letters in itertools.product(string.ascii_letters, repeat=4):
        total = 0
        for letter in letters:
            total = total * 31 + ord(letter)
        if total % 256 == 0:
            yield "".join(letters)


def members_used(n):
    """A class of `n` fields, each used from outside."""
    return script([f"class C{{int {','.join(each(n, 'a#'))};}}\n", *body(each(n, "c.a#=#;") * 8, "void m(C@ c){")])


def chained(n):
    return script(chain(n) + [f"void m(C{n - 1}@ c){{c.a{n // 2}_7=1;}}\n"])


def chained_uses(n):
    uses = (f"void f{i}(C{n - 1}@ c){{{''.join(f'c.a{i}_{k}=1;' for k in range(16))}}}\n" for i in range(n))
    return script([*chain(n), *uses])


def chained_globals(n):
    """A chain of classes, and as many uses of a global in a method of the last one."""
    return script(["int g;\n", *chain(n - 1), f"class D:C{n - 2}{{void m(){{{'g=1;' * (n * 16)}}}}}\n"])


def chain(n):
    """Classes each of which is the base of the next, with 64 fields each."""
    found = []
    for i in range(n):
        base = f":C{i - 1}" if i else ""
        found.append(f"class C{i}{base}{{int {','.join(f'a{i}_{k}' for k in range(64))};}}\n")
    return found


def chained_methods(n):
    """The same 64 methods in each class of a chain, and 64 calls of each class's own."""
    found = []
    for i in range(n):
        base = f":C{i - 1}" if i else ""
        methods = "".join(f"void m{k}(){{}}" for k in range(64))
        found.append(f"class C{i}{base}{{{methods}}}\n")
        found.append(f"void f{i}(C{i}@ c){{{''.join(f'c.m{k}();' for k in range(64))}}}\n")
    return script(found)


def interface(n):
    wanted = "".join(each(n, "void m#();"))
    return script([f"interface I{{{wanted}}}\n", f"class C:I{{{''.join(each(n, 'void m#(){}'))}}}\n"])


def under_interfaces(n):
    """Classes that each stand under an interface of their own, in a chain."""
    declared = [f"interface I{i}{{void m{i}();}}\n" for i in range(n)]
    first = "".join(each(n, "void m#(){}"))
    classes = [f"class C0:I0{{{first}}}\n", *(f"class C{i}:C{i - 1},I{i}{{}}\n" for i in range(1, n))]
    return script(declared + classes)


def methods_of_a_name(n):
    declared = "".join(f"void o({parameters(i, 4)}){{}}" for i in range(n))
    return script([f"class C{{{declared}}}\n", *body(["c.o(a,a,a,a);"] * 64, "void m(C@ c){int a;")])


def methods_called(n):
    declared = "".join(f"void o({parameters(i, 4)}){{}}" for i in range(n))
    return script([f"class C{{{declared}}}\n", *body(["c.o(a,a,a,a);"] * n, "void m(C@ c){int a;")])


def interfaces(n):
    """A class under `n - 1` interfaces of one method each."""
    declared = [f"interface I{i}{{void m{i}();}}\n" for i in range(n - 1)]
    bases = ",".join(f"I{i}" for i in range(n - 1))
    return script([*declared, f"class C:{bases}{{{''.join(each(n - 1, 'void m#(){}'))}}}\n"])


def local_uses(at):
    def made(n):
        locals_ = each(n, "int v#;")
        locals_[at] = "int z;"
        return script(body(locals_ + ["z=1;"] * (n * 8)))

    return made


def statements(n):
    return script(body(["a=a+1;"] * n, "void m(){int a;"))


def operators(n):
    return script(body(["a=1" + "+a" * 250 + ";"] * n, "void m(){int a;"))


def blocks(n):
    return script(body(["{int a;a=1;}"] * n))


def nested_loops(n):
    return script(body(["for(;;)"] * n + [";"]))


def loops_with_locals(n):
    return script(body([f"for(int a{i};;)" for i in range(n)] + [";"]))


def else_ifs(n):
    return script(body(["if(b){}else "] * n + ["{}"], "void m(bool b){"))


def returns(n):
    return script(body(["if(b){return 1;}else "] * n + ["return 0;"], "int m(bool b){"))


def imports(n):
    return script([*each(n, 'import void f#() from "x";\n'), *body(each(n, "f#();") * 8)])


def entries(n):
    profile = each(n, "void h#(int)")
    return script(each(n, "void f#(){h#(1);}\n"), profile)


def initializers(n):
    return script(["int a0=1;\n", *(f"int a{i}=a{i - 1}+1;\n" for i in range(1, n))])


def read_globals(n):
    return script([*each(n, "int a#;\n"), *each(n, "int f#(){return a#;}\n")])


def duplicates(n):
    return script(["void f(){}\n"] * n)


def same_globals(n):
    return script(["int " + ",".join(["a"] * n) + ";\n"])


def made_objects(n):
    return script([*each(n, "class C#{C#(int a){}}\n"), *each(n, "void f#(){C# c(1);C#@ d=C#(2);}\n")])


def casts(n):
    classes = ["class C0{}\n", *(f"class C{i}:C{i - 1}{{}}\n" for i in range(1, n))]
    return script(classes + each(n, f"C#@ f#(C{n - 1}@ c){{C#@ d=c;return cast<C#>(c);}}\n"))


def handles(n):
    """Classes each of which holds the next."""
    return script([*(f"class C{i}{{C{i + 1}@ n;}}\n" for i in range(n - 1)), f"class C{n - 1}{{}}\n"])


def held_bases(n):
    """A chain of classes, and as many that each hold a handle to its first."""
    half = n // 2
    classes = ["class B0{}\n", *(f"class B{i}:B{i - 1}{{}}\n" for i in range(1, half))]
    return script(classes + each(half, "class H#{B0@ b;}\n"))


THING = """\
class Thing {
    int seen;
    Thing(int start) { seen = start; }
    bool alive(int i) const { return i != seen; }
    int by_rank(int i, uint mask) const { return i * int(mask) + seen; }
}
"""

ORDINARY_CLASS = f"""\
{UNIT}    void turn(int &out left, uint mask) {{
        left = 0;
{TURN}Unit%d@ find%d(int sum) {{ if (sum > 0) return Unit%d(sum, true); return null; }}
"""

ORDINARY = """\
int64 total%d = 12345;
// One turn of a fight between two units; whether the other one is left.
bool step%d(int a, int64 b, Unit%c@ other) {
    int sum = 0, most = a > 100 ? 100 : a;
    uint mask = 0xFF;
    while (a < b) { sum += a * a % 7; ++a; /* until they meet */ }
    for (int i = 0; i < most; i++) {
        if (i % 3 == 0 && sum > 10) { sum -= i; continue; }
        if (sum > 1000 || i == most - 1) break;
        sum = sum + i * 2 - (most >> 1);
        mask = mask ^ uint(i) & 0xF0;
    }
    Unit%c@ unit = find%c(sum);
    total%d += sum;
    if (unit !is null) {
        int left = 0;
        unit.turn(left, mask);
        int points = unit.hit(left, other);
        do { points = points / 2 - left; left++; } while (points > 0);
        // What the other one gives back, if it is there.
        if (other !is null && other.alive(points)) { total%d -= other.hit(sum, unit); return other.by_rank(left, mask) >= b; }
        else if (left > 5) { @other = unit; total%d = total%d * 2 + left; }
        return unit.hit(a, null) >= b;
    }
    return cast<Unit%c>(other) is null;
}
"""

# Those of which no doubling is to cost more than the bound.
BOUNDED = [
    Family("functions", "4,096 functions", (256, 512, 1024, 2048, 4096), functions, OK),
    Family("one list of globals", "4,096 globals", (256, 512, 1024, 2048, 4096), list_of_globals, OK),
    Family("unknown types", "4,096 globals", (256, 512, 1024, 2048, 4096), unknown_types, REFUSED),
    Family("functions with one error each", "4,096 functions", (256, 512, 1024, 2048, 4096), errors, REFUSED),
    Family("functions that call one", "4,096 functions", (256, 512, 1024, 2048, 4096), call_one, OK),
    Family("1,600 functions and 500 calls", "3,200 and 1,000", (200, 400, 800, 1600, 3200), few_calls, OK),
    Family("overloads in a profile, 32 parameters, 16 calls", "1,024 entries", (64, 128, 256, 512, 1024), overloads_of_host, OK),
    Family("64 sections of 64 KiB of names", "64 sections", (4, 8, 16, 32, 64), names, REFUSED, OK),
    Family("members of classes", "256 classes of 255", (16, 32, 64, 128, 256), members, OK),
    Family("uses of the last local", "1,024 locals, 8,192 uses", (64, 128, 256, 512, 1024), local_uses(-1), OK),
]

FAMILIES = [
    *BOUNDED,
    Family("functions that call the one before", "4,096 functions", (256, 512, 1024, 2048, 4096), call_the_last, OK),
    Family("overloads in a script, 32 parameters, 16 calls", "4,095 functions", (255, 511, 1023, 2047, 4095), overloads, OK),
    Family("64 sections of names of one hash", "64 sections", (4, 8, 16, 32, 64), names_of_one_hash, REFUSED, OK),
    Family("members of classes, of different names", "256 classes of 255", (16, 32, 64, 128, 256), different_members, OK),
    Family("methods of classes, of one hash", "64 classes of 255", (4, 8, 16, 32, 64), methods_of_one_hash, OK),
    Family("members of a class, 8 uses of each", "256 members", (16, 32, 64, 128, 256), members_used, OK),
    Family("uses of the first local", "1,024 locals, 8,192 uses", (64, 128, 256, 512, 1024), local_uses(0), OK),
    Family("uses of a global below locals", "1,024 locals, 8,192 uses", (64, 128, 256, 512, 1024), globals_and_locals, OK),
    Family("ordinary sections", "64 sections", (4, 8, 16, 32, 64), ordinary, OK),
    Family("overloads, a call of each", "2,048 overloads", (128, 256, 512, 1024, 2048), called_overloads, OK),
    Family("methods of one name, 64 calls", "256 members", (16, 32, 64, 128, 256), methods_of_a_name, OK),
    Family("methods of one name, as many calls", "256 members", (16, 32, 64, 128, 256), methods_called, OK),
    Family("a class under interfaces", "256 of both", (16, 32, 64, 128, 256), interfaces, OK),
    Family("a chain of classes of 64 fields", "256 classes", (16, 32, 64, 128, 256), chained, OK),
    Family("a chain of classes, 16 uses of each class's fields", "256 classes", (16, 32, 64, 128, 256), chained_uses, OK),
    Family("a chain of classes, 16 uses of a global for each below it", "256 classes", (16, 32, 64, 128, 256), chained_globals, OK),
    Family("a chain of classes of the same methods, a call of each", "256 classes", (16, 32, 64, 128, 256), chained_methods, OK),
    Family("an interface's methods", "256 members", (16, 32, 64, 128, 256), interface, OK),
    Family("a chain of classes under an interface each", "128 of both", (8, 16, 32, 64, 128), under_interfaces, OK),
    Family("statements of a function", "9,000 statements", (562, 1125, 2250, 4500, 9000), statements, OK),
    Family("statements of 250 operators", "128 statements", (8, 16, 32, 64, 128), operators, OK),
    Family("blocks one after the other", "4,096 blocks", (256, 512, 1024, 2048, 4096), blocks, OK),
    Family("loops in one another", "8,192 loops", (512, 1024, 2048, 4096, 8192), nested_loops, OK),
    Family("loops in one another with a local each", "1,024 locals", (64, 128, 256, 512, 1024), loops_with_locals, OK),
    Family("a string of `else if`", "4,096 of them", (256, 512, 1024, 2048, 4096), else_ifs, OK),
    Family("a string of `else if` that return", "2,800 of them", (175, 350, 700, 1400, 2800), returns, OK),
    Family("imports and 8 calls of each", "256 imports", (16, 32, 64, 128, 256), imports, OK),
    Family("entries of a profile and a use of each", "1,024 entries", (64, 128, 256, 512, 1024), entries, OK),
    Family("globals, each of the one before", "4,096 globals", (256, 512, 1024, 2048, 4096), initializers, OK),
    Family("globals and a use of each", "4,096 of both", (256, 512, 1024, 2048, 4096), read_globals, OK),
    Family("functions of one name that are refused", "4,096 functions", (256, 512, 1024, 2048, 4096), duplicates, REFUSED),
    Family("globals of one name that are refused", "4,096 globals", (256, 512, 1024, 2048, 4096), same_globals, REFUSED),
    Family("classes and objects of each", "256 classes", (16, 32, 64, 128, 256), made_objects, OK),
    Family("a chain of classes and casts to each", "256 classes", (16, 32, 64, 128, 256), casts, OK),
    Family("classes that each hold the next", "256 classes", (16, 32, 64, 128, 256), handles, OK),
    Family("a chain of classes and as many that hold the first", "256 classes", (16, 32, 64, 128, 256), held_bases, OK),
]


WHOLE = [
    ("an ordinary section", ordinary(1), OK, OK),
    ("64 ordinary sections", ordinary(64), OK, OK),
    ("64 sections of names, more than there may be", names(64), REFUSED, OK),
]


# ---- measuring


class Refused(Exception):
    """What a build answered that it should not."""


def profile_of(made):
    return "mask 00000001\n" + "".join(f"function 0 0 {declaration}\n" for declaration in made.profile)


def session_of(made, module):
    """Both modules with their sections, of which one is built."""
    texts = "".join(f"section {SCRIPT} {text.count(chr(10))}\n{text}" for text in made.sections)
    return f"module {SCRIPT} 00000001\n{texts}module {EMPTY} 00000001\nsection {EMPTY} 0\nbuild {module}\n"


class Program:
    """The program of this project, on sessions in a folder."""

    name, answer_to_empty = "ours", OK

    def __init__(self, path):
        self.path = os.path.abspath(path)

    def prepare(self, made, folder):
        sessions = {module: session_of(made, module) for module in (SCRIPT, EMPTY)}
        write(folder, {"profile": profile_of(made), **sessions})

    def answer_to(self, family):
        return family.answer

    def seconds(self, folder, session, answer):
        """The processor time of a session, in which nothing but this answer is to be refused."""
        spent, lines = run_session(self.path, folder, session)
        refusals = [line for line in lines if line.startswith(("refused", "profile", "line", "fault"))]
        if refusals != [answer] * (answer != OK) or not lines:
            raise Refused(next((line for line in lines if line != "ok"), "nothing"))
        return spent


class Original:
    """The original engine, by the program of bench/original/build.cpp."""

    name, answer_to_empty = "original", REFUSED  # since nothing was built

    def __init__(self, path):
        self.path = os.path.abspath(path)

    def prepare(self, made, folder):
        write(folder, {"profile": profile_of(made), **{f"{i}.as": text for i, text in enumerate(made.sections)}})

    def answer_to(self, family):
        return family.theirs or family.answer

    def seconds(self, folder, module, answer):
        spent = processor_seconds([self.path, folder, module], f"{folder}/printed")
        lines = lines_of(f"{folder}/printed")
        if lines != [answer]:
            raise Refused(" ".join(lines) or "nothing")
        return spent


class Case:
    """What is measured: the times of processes with a build, or what else it is, and of those without it, which two functions give."""

    def __init__(self, with_it, without):
        self.with_it, self.without, self.pairs, self.why = with_it, without, [], None
        self.run(1)  # which is the first round

    def run(self, count):
        try:
            self.pairs += [(self.with_it(), self.without()) for _ in range(0 if self.why else count)]
        except Refused as why:
            self.why = f"`{str(why)[:60]}`"

    def seconds(self):
        """The least time with it less the least without it, if there was no refusal."""
        if self.why:
            return None
        return min(spent for spent, _ in self.pairs) - min(spent for _, spent in self.pairs)

    def times(self):
        """How often it is run in a round."""
        seconds = self.seconds() or 0
        return 0 if seconds > LONG else min(MOST_TIMES, math.ceil(SHORT / max(seconds, 1e-6)))


def run_rounds(cases, rounds):
    """Runs each of the cases in each round but the first, so that all of them feel what slows the machine for a while."""
    for _ in range(rounds - 1):
        for case in cases:
            case.run(case.times())


def case_of(engine, family, made, folder):
    engine.prepare(made, folder)
    answer, empty = engine.answer_to(family), engine.answer_to_empty
    return Case(lambda: engine.seconds(folder, SCRIPT, answer), lambda: engine.seconds(folder, EMPTY, empty))


def cases_of(engine, family, given):
    """A case for each size of a family, but for those after one that takes longer than there is time for."""
    cases = []
    with tempfile.TemporaryDirectory() as folder:
        for size in family.sizes:
            if not cases or (cases[-1].seconds() or 0) <= given.seconds:
                cases.append(case_of(engine, family, family.made(size), f"{folder}/{size}"))
        run_rounds(cases, given.rounds)
    return cases


def growths_of(cases):
    """How many times the one before each of the figures is, but for the first one's."""
    figures = [case.seconds() or 0 for case in cases]
    return [after / before if before > 0 and after > 0 else None for before, after in zip(figures, figures[1:])]


def grown(growth):
    return f" x{growth:.2f}{'!' * (growth > BOUND)}" if growth else ""


def cells_of(cases, sizes, unit):
    """What a row has of its cases, in units of that many seconds."""
    growths = [None, *growths_of(cases)]
    found = [case.why or f"{case.seconds() / unit:.2f}{grown(growth)}" for case, growth in zip(cases, growths)]
    return " | ".join(found + ["-"] * (len(sizes) - len(found)))


def row(engine, family, given):
    """Prints the row of a family in one engine; its cases."""
    cases = cases_of(engine, family, given)
    most = max(filter(None, growths_of(cases)), default=None)
    cells = cells_of(cases, family.sizes, 1e-3)
    print(f"| {family.what} | {family.last} | {engine.name} | {cells} |{grown(most) or ' -'} |", flush=True)
    return cases


def table(engines, families, given):
    """Prints a row for each family and engine, and how many doublings are above the bound. How many of our rows are wrong."""
    wrong, growths = 0, {engine.name: [] for engine in engines}
    print("| Milliseconds of a build | the last size | engine | 1/16 | 1/8 | 1/4 | 1/2 | 1 | most at a doubling |")
    print("|---|---|---|---|---|---|---|---|---|")
    for family, engine in itertools.product(families, engines):
        cases = row(engine, family, given)
        wrong += engine.name == "ours" and any(case.why for case in cases)
        growths[engine.name] += filter(None, growths_of(cases) if family in BOUNDED else [])
    print("\nDoublings of the families that the bound is of:")
    for name, found in growths.items():
        print(f"- {name}: {sum(growth > BOUND for growth in found)} of the {len(found)} measured are above {BOUND} times")
    return wrong


def throughput(engines, rounds):
    """Whole texts: how long they take, and how many bytes a second that is. How many of ours are answered wrong."""
    wrong = 0
    print("\n| Text | bytes | engine | seconds | MB/s |\n|---|---|---|---|---|")
    for (what, made, answer, theirs), engine in itertools.product(WHOLE, engines):
        size = sum(map(len, made.sections))
        with tempfile.TemporaryDirectory() as folder:
            case = case_of(engine, Family(what, "", (), None, answer, theirs), made, folder)
            run_rounds([case], rounds)
        wrong += engine.name == "ours" and case.why is not None
        figures = f"{case.why} | -" if case.why else f"{case.seconds():.4f} | {size / case.seconds() / 1e6:.2f}"
        print(f"| {what} | {size:,} | {engine.name} | {figures} |", flush=True)
    return wrong


def case_of_calls(program, size, folder):
    """Calls from outside, all of the last function."""
    made = functions(size)
    program.prepare(made, folder)
    called = session_of(made, SCRIPT) + f"call {SCRIPT} (1) int f{size - 1}(int)\n" * CALLS
    write(folder, {"called": called})
    return Case(lambda: program.seconds(folder, "called", OK), lambda: program.seconds(folder, SCRIPT, OK))


def call_row(program, rounds):
    """Prints what one call from outside takes, of the last of a number of functions. How many sizes are answered wrong."""
    with tempfile.TemporaryDirectory() as folder:
        cases = [case_of_calls(program, size, f"{folder}/{size}") for size in CALLED]
        run_rounds(cases, rounds)
    print(f"\n| Microseconds of a call, of the last of | {' | '.join(f'{size:,} functions' for size in CALLED)} |")
    print(f"|{'---|' * (len(CALLED) + 1)}\n| ours | {cells_of(cases, CALLED, 1e-6 * CALLS)} |")
    return sum(case.why is not None for case in cases)


def options():
    words = argparse.ArgumentParser(description=__doc__, formatter_class=argparse.RawDescriptionHelpFormatter)
    words.add_argument("asrun")
    words.add_argument("--original")
    words.add_argument("--rounds", type=int, default=FEWEST)
    words.add_argument("--seconds", type=float, default=20)
    words.add_argument("--only", default="")
    given = words.parse_args()
    if given.rounds < FEWEST:
        words.error(f"{FEWEST} rounds at least")
    return given


def main():
    given = options()
    words = given.only.split(",")
    chosen = [it for it in FAMILIES if any(word in it.what for word in words)]
    program, wrong = Program(given.asrun), 0
    engines = [program] + [Original(given.original)] * bool(given.original)
    if chosen:
        wrong += table(engines, chosen, given)
    if any(word in "whole texts" for word in words):
        wrong += throughput(engines, given.rounds)
    if any(word in "calls from outside" for word in words):
        wrong += call_row(program, given.rounds)
    return wrong > 0


if __name__ == "__main__":
    sys.exit(main())
