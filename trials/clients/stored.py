#!/usr/bin/env python3
"""Holds a stored conversation with asremote once more, and prints what asremote says.

    trials/clients/stored.py CONVERSATION ASREMOTE --profile PROFILE [--drivers N]

CONVERSATION is what such a run printed with `--echo`, as crates/asremote/stdout. Its commands are said one after the
other, and what is asked while one is done gets the answers that were given then, in their order. So the host is in step,
also where less is asked than before: the answers that are left then are not said. Ends with the status of asremote.
"""

import re
import subprocess
import sys

NO_MORE = b"fault 1\n"  # to what was not asked before


def turns(lines):
    """Each command, a section's text with it, and the answers that were given while it was done."""
    at = 1  # after the `done` of the start
    while at < len(lines):
        found = re.match(rb"section [^ ]+ (\d+)\r?\n", lines[at])
        end = at + 1 + (int(found[1]) if found else 0)
        command, answers, at = b"".join(lines[at:end]), [], end
        while at < len(lines) and lines[at] != b"done\n":
            if lines[at].startswith(b"ask "):
                at += 1
                answers.extend(lines[at : at + 1])
            at += 1
        at += 1
        yield command, answers


def take(process, command, answers):
    """Says a command, and prints what comes until it is done."""
    given = iter(answers)
    process.stdin.write(command)
    for line in iter(process.stdout.readline, b""):
        sys.stdout.buffer.write(line)
        if line == b"done\n":
            return
        if line.startswith(b"ask "):
            process.stdin.write(next(given, NO_MORE))


def main():
    with open(sys.argv[1], "rb") as file:
        lines = re.findall(rb"[^\n]*\n", file.read())
    process = subprocess.Popen(sys.argv[2:], stdin=subprocess.PIPE, stdout=subprocess.PIPE, bufsize=0)
    try:
        take(process, b"", [])
        for command, answers in turns(lines):
            take(process, command, answers)
        process.stdin.close()
    except BrokenPipeError:
        pass  # what it said last is still to be read
    sys.stdout.buffer.write(process.stdout.read())
    sys.stdout.buffer.flush()
    status = process.wait()
    sys.exit(status if status >= 0 else 128 - status)


if __name__ == "__main__":
    main()
