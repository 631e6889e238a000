#!/usr/bin/env python3
"""Stands in for asremote, as an engine to which memory is refused behind an answer `made #KEY`.

    refusing.py --profile FILE --drivers N

Speaks the conversation of docs/FORMATS.md with one module, m, and runs no script. Each call asks the profile's first factory,
of the driver 1, three times. Of what was made it lists the first one and its end, `memory` in the place of the second one,
and the third one, which stays.
"""

import re
import sys

held = 0


def say(*lines: str) -> None:
    print(*lines, sep="\n", flush=True)


def call(entry: int, number: str) -> None:
    global held
    made = []
    for _ in range(3):
        say(f"ask 1 make {number} - ()")
        made.append(sys.stdin.readline().rstrip())
    held += 1
    for answer in (made[0], "memory", made[2]):
        say(f"host m {entry} 1 - () {answer}")
    say(f"end 1 {made[0].split()[1]}", "fault Memory")


def main() -> None:
    with open(sys.argv[2]) as file:
        lines = [it for it in file.read().split("\n") if not re.match("mask|limit", it)]
    entry, factory = next((at, it) for at, it in enumerate(lines) if it.startswith("factory"))
    say("done")
    while command := sys.stdin.readline():
        words = command.split()
        if words[0] == "section":
            for _ in range(int(words[2])):
                sys.stdin.readline()
        if words[0] == "call":
            call(entry, factory.split()[2])
        else:
            say(*(["ticks 0", "slots 0", f"objects {held}"] if words[0] == "used" else []), "ok")
        say("done")


main()
