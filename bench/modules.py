#!/usr/bin/env python3
"""Several modules in the program: what one module costs beside others, calls through a binding, and discards.

    python3 bench/modules.py ASRUN [--rounds N]

ASRUN is the executable of crates/asrun. The first table builds one module, and 64, over 1,001 registered functions of which each module sees a half. The second
calls a function 2,000,000 times: one of the module's own, and one of another module through a bound import. The third builds a module with globals and discards it, again
and again. A row is run N times (3, if left out), one after the other, and the quickest counts. Seconds are processor seconds of the whole process, less those of a
session without the builds, the calls or the globals.

Ends with status 1 where the program answered otherwise than it should.
"""

import argparse
import os
import sys
import tempfile

from processes import run_session, write

FUNCTIONS = 1001
MODULES = 64
DECLARED = 400  # functions of a module
CALLS = 2_000_000
DISCARDS = 20
GLOBALS = (512, 1024, 2048, 4096)


def profile():
    lines = ["mask 00000001"]
    for number in range(FUNCTIONS):
        if number == FUNCTIONS // 2:
            lines.append("mask 00000002")
        lines.append(f"function 0 0 void h{number}(int)")
    return "\n".join(lines) + "\n"


def section(module, text):
    return f"section {module} {text.count(chr(10))}\n{text}"


def script():
    """Functions that each call a host's and one another."""
    first = "int f0(int n) { return n; }\n"
    return first + "".join(f"int f{i}(int n) {{ if (n < 0) h{i}(n); return f{i - 1}(n) + {i}; }}\n" for i in range(1, DECLARED))


def modules(count, are_built):
    lines = [f"module m{i} 00000001\n" for i in range(count)]
    for i in range(count):
        lines += [section(f"m{i}", script()), f"build m{i}\n" if are_built else ""]
    return "".join(lines)


def calls(count, is_bound):
    loop = f"int sum() {{ int n = 0; for (int i = 0; i < {count}; ++i) n = one(n); return n; }}\n"
    one = "int one(int n) { return n + 1; }\n"
    lines = ["budget 2147483647\nmodule a 00000001\nmodule b 00000001\n", section("b", one), "build b\n"]
    lines += [section("a", ('import int one(int) from "b";\n' if is_bound else one) + loop), "build a\n"]
    lines += ["bind a 0 b int one(int)\n"] * is_bound
    return "".join(lines) + "call a () int sum()\n"


def discards(globals_of_each):
    text = "".join(f"int g{i}={i};\n" for i in range(globals_of_each))
    turn = "module m 00000001\n" + section("m", text) + "build m\ndiscard m\n"
    return turn * DISCARDS


class Bench:
    def __init__(self, program, rounds, room):
        self.program, self.rounds, self.room, self.wrong = program, rounds, room, 0
        write(room, {"profile": profile()})

    def seconds(self, session, last):
        """The least seconds of a run, whose last line is to be this one."""
        write(self.room, {"session": session})
        runs = [run_session(self.program, self.room) for _ in range(self.rounds)]
        answer = (runs[-1][1] or [""])[-1]
        if answer != last:
            self.wrong += 1
            print(f"wrong: {answer!r}, not {last!r}", file=sys.stderr)
        return min(seconds for seconds, _ in runs)


def main():
    words = argparse.ArgumentParser()
    words.add_argument("program")
    words.add_argument("--rounds", type=int, default=3)
    given = words.parse_args()
    with tempfile.TemporaryDirectory() as room:
        bench = Bench(os.path.abspath(given.program), given.rounds, room)
        print(f"| Modules of {DECLARED} functions over {FUNCTIONS:,} | Seconds of builds | Of each |\n|---|---|---|")
        for count in (1, 8, MODULES):
            spent = bench.seconds(modules(count, True), "ok") - bench.seconds(modules(count, False), "ok")
            print(f"| {count} | {spent:.3f} | {spent / count:.4f} |", flush=True)
        print(f"\n| {CALLS:,} calls | Seconds |\n|---|---|")
        for what, is_bound in (("of a function of the module", False), ("through a bound import", True)):
            spent = bench.seconds(calls(CALLS, is_bound), f"ok {CALLS}") - bench.seconds(calls(0, is_bound), "ok 0")
            print(f"| {what} | {spent:.3f} |", flush=True)
        print(f"\n| {DISCARDS} builds and discards of globals | Seconds |\n|---|---|")
        for count in GLOBALS:
            print(f"| {count:,} | {bench.seconds(discards(count), 'ok'):.2f} |", flush=True)
    return bench.wrong > 0


if __name__ == "__main__":
    sys.exit(main())
