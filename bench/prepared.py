#!/usr/bin/env python3
"""Counts the processor's instructions of a call by declaration, and of the same one of a function that was prepared.

    python3 bench/prepared.py ASREMOTE [--calls N] [--from N]

ASREMOTE is the executable of crates/asremote. It reads conversations that `valgrind --tool=callgrind` counts: a module is built, and then
as many lines follow as `--from` says, and N more (1,000 and 10,000, if left out). The difference of the two counts, divided by N, is what
one line takes, with its reply. Lines are `call` and `run` of the same function and values; and, for what lines alone take, an empty one, and
comments as long as these two, which are read and answered by `done`. Prints a row for each function: the instructions of the five lines;
how many times those of the `call` the `run` takes; and the same of what each of them takes above its comment. Wants valgrind.
"""

import argparse
import os
import re
import subprocess
import sys
import tempfile

sys.dont_write_bytecode = True

COUNTED = re.compile(rb"Collected : (\d+)")
MANY = "\n".join(f"int f{number}(int a) {{ return a; }}" for number in range(256))
TYPES = "int8 int16 int int64 uint8 uint16 uint uint64 bool".split()
NINE = f"int64 nine({', '.join(f'{word} v{number}' for number, word in enumerate(TYPES))}) {{ return v3; }}"
# What a row is named, the script, the declaration and the values.
ROWS = [
    ("`void f()`, which does nothing", "void f() {}", "void f()", ""),
    ("`int64 sum(int64, int64)`", "int64 sum(int64 a, int64 b) { return a + b; }", "int64 sum(int64, int64)", "40,2"),
    ("nine values, of all types", NINE, f"int64 nine({', '.join(TYPES)})", "1,2,3,4,5u,6u,7u,8u,true"),
    ("the last of 256 functions", MANY, "int f255(int)", "7"),
]


def instructions(asremote, folder, script, lines):
    """The instructions of a conversation that builds a script and then has these lines."""
    commands = f"module m 00000001\nsection m {script.count(chr(10)) + 1}\n{script}\nbuild m\n"
    with open(f"{folder}/profile", "w") as file:
        file.write("function 0 0 void unused()\n")
    with open(f"{folder}/said", "w") as file:
        file.write(commands + "".join(f"{line}\n" for line in lines))
    words = ["valgrind", "--tool=callgrind", "--callgrind-out-file=/dev/null", asremote, "--profile", f"{folder}/profile"]
    with open(f"{folder}/said") as said:
        done = subprocess.run(words, stdin=said, capture_output=True)
    refused = [line for line in done.stdout.split(b"\n") if line.split(b" ")[0] in (b"refused", b"fault", b"line", b"profile")]
    if refused or done.returncode or done.stdout.count(b"done\n") != 4 + len(lines):
        sys.exit(f"asremote ended with {done.returncode}: {refused[:1]} {done.stderr[-200:]!r}")
    return int(COUNTED.search(done.stderr)[1])


def of_a_line(asremote, folder, script, begun, line, counts):
    """The instructions of a line, by the difference of two conversations, after those lines that come first."""
    short, long = (instructions(asremote, folder, script, begun + [line] * count) for count in counts)
    return (long - short) / (counts[1] - counts[0])


def row(asremote, folder, counts, name, script, declaration, values):
    begun = [f"prepare m {declaration}"]
    call, run = f"call m ({values}) {declaration}", f"run 0 ({values})"
    lines = ["", "#" * len(call), call, "#" * len(run), run]
    taken = [of_a_line(asremote, folder, script, begun, line, counts) for line in lines]
    _, call_read, called, run_read, ran = taken
    quotients = f"{ran / called:.2f} | {(ran - run_read) / (called - call_read):.2f}"
    print(f"| {name} | {' | '.join(f'{count:,.0f}' for count in taken)} | {quotients} |", flush=True)


def main():
    reader = argparse.ArgumentParser(description=__doc__, formatter_class=argparse.RawDescriptionHelpFormatter)
    reader.add_argument("asremote", type=os.path.abspath)
    reader.add_argument("--calls", type=int, default=10000)
    reader.add_argument("--from", dest="first", type=int, default=1000)
    chosen = reader.parse_args()
    print("| Function | an empty line | a comment as long | `call` | a comment as long | `run` | run by call | above the comments |")
    print("|---|---|---|---|---|---|---|---|")
    with tempfile.TemporaryDirectory() as folder:
        for each in ROWS:
            row(chosen.asremote, folder, (chosen.first, chosen.first + chosen.calls), *each)


if __name__ == "__main__":
    main()
