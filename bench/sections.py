#!/usr/bin/env python3
"""Writes the sections that the programs of bench/ are run on into a folder, each as near to 65,536 bytes as whole lines go.

    python3 bench/sections.py FOLDER

ordinary    functions, classes and variables as a game's script has them
parens      62 parentheses in each expression
operators   256 operators in each statement, the most that there may be
names       one list of names as long as the section
groups      what may be parameters or arguments up to its last parenthesis
nested      statements in one another, 30 deep
functions   4,096 functions, the most of a module, of which the first ones call a host function each
"""

import sys

from ordinary import TURN, UNIT
from processes import write

MOST = 65536

ORDINARY = f"""\
{UNIT}    void turn(int &out left, uint mask) override {{
{TURN}int64 total%d = 12345, bound%d(9000000000);
bool step%d(int a, int64 b) {{
    int sum = 0;
    while (a < b) {{ sum += a * a % 7; ++a; /* until they meet */ }}
    Unit%d@ unit = find(sum);
    if (unit !is null) return unit.hit(a, null) >= b; else return cast<Unit%d>(unit) is null;
}}
"""


def filled(head, piece, tail):
    """The piece as often as it fits, counted from 0, between a head and a tail."""
    lines, size, n = [head], len(head) + len(tail), 0
    while True:
        line = piece(n)
        if size + len(line) > MOST:
            return "".join(lines) + tail
        lines.append(line)
        size += len(line)
        n += 1


def nested(n):
    """Blocks and loops in one another: 32 braces and parentheses are open at the deepest."""
    deep = 30
    return "void f%d()" % n + "{ if (b) { while (c) " * (deep // 2) + "{ x = (1); }" + " } }" * (deep // 2) + "\n"


def functions():
    """4,096 functions with names of three letters: `void NAME(){}`, and as many calls `put(1);` as there is room for."""
    signs = "ABCDEFGHIJKLMNOP"
    names = [a + b + c for a in signs for b in signs for c in signs]
    calls = (MOST - len(names) * len("void abc(){}\n")) // len("put(1);")
    return "".join("void %s(){%s}\n" % (name, "put(1);" if n < calls else "") for n, name in enumerate(names))


SECTIONS = {
    "ordinary": filled("", lambda n: ORDINARY.replace("%d", str(n)), ""),
    "parens": filled("void f() {\n", lambda n: "x = " + "(" * 62 + "1" + ")" * 62 + ";\n", "}\n"),
    "operators": filled("void f() {\n", lambda n: "x = 1" + "+1" * 255 + ";\n", "}\n"),
    "names": filled("int a", lambda n: ", a%d" % n, ";\n"),
    "groups": filled("", lambda n: "T f%d(A%s);\n" % (n, ", B & C" * 60), ""),
    "nested": filled("", nested, ""),
    "functions": functions(),
}


def main():
    write(sys.argv[1], {f"{name}.as": text for name, text in SECTIONS.items()})
    for name, text in SECTIONS.items():
        print("%-10s %6d bytes" % (name, len(text)))


main()
