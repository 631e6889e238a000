#!/usr/bin/env python3
"""Says what the checks that run now cost, function by function, without a run of its own.

    python3 tools/check_costs.py [--least SECONDS] [--watch FILE]

A check writes a file for each step of each function's proof below the temporary folder, and removes all at its end. The times
of these files are what the steps took. Prints for each check its functions of at least so many seconds (5 if left out), and
those whose code is longest, which is there from the check's first minute on: what is long and not proved yet will be dear.
With --watch it looks every 15 seconds until it is interrupted, and keeps the table of all checks that it saw in FILE: begun
beside `rt ci`, it has a whole gate. It takes next to no time itself.
"""

import argparse
import contextlib
import glob
import os
import re
import tempfile
import time
from collections import Counter, defaultdict

STEP = re.compile(r"Rattle-(?P<crate>\w+?)-(?:proofs|specs\.contracts)\.(?P<function>.+?)\.(?P<step>[A-Z][A-Za-z]*)(?:[-.].*)?\.oantt")
LONGEST = 5


def seen():
    """The files of each check that runs: when they were written and how long they are, by name."""
    found = defaultdict(dict)
    for folder in glob.glob(f"{tempfile.gettempdir()}/rattle-logic-built-locked-*"):
        try:
            for entry in os.scandir(folder):
                if entry.name.endswith(".oantt"):
                    stat = entry.stat()
                    found[folder][entry.name] = stat.st_mtime, stat.st_size
        except OSError:
            # (the check has ended)
            pass
    return found


def seconds_of(files):
    """The seconds of each function. A check writes what it proved of one when it has begun the next."""
    steps = sorted((at, name) for name, (at, _) in files.items())
    taken = Counter()
    for number in range(1, len(steps)):
        at, name = steps[number]
        after = steps[number + 1][1] if number + 1 < len(steps) and steps[number + 1][0] - at < 0.2 else ""
        found = STEP.fullmatch(after if ".Lts" in after else name)
        if found:
            taken[found["function"]] += at - steps[number - 1][0]
    return taken


def told(files, least):
    """The lines on one check."""
    crates = Counter(found["crate"] for found in map(STEP.fullmatch, files) if found)
    taken, times = seconds_of(files), [at for at, _ in files.values()]
    name = crates.most_common(1)[0][0] if crates else "?"
    yield f"{name}: {max(times) - min(times):.0f} seconds so far"
    for function, seconds in taken.most_common():
        if seconds >= least:
            yield f"  {seconds:6.1f} s  {function}"
    code = {name: size for name, (_, size) in files.items() if name.endswith(".Code.Mir.oantt")}
    for file in sorted(code, key=code.get, reverse=True)[:LONGEST]:
        found = STEP.fullmatch(file)
        yield f"  {code[file] >> 10:6} kB of code  {found['function'] if found else file}"


def main():
    options = argparse.ArgumentParser(description=__doc__.split("\n")[0])
    options.add_argument("--least", type=float, default=5)
    options.add_argument("--watch", metavar="FILE")
    given = options.parse_args()
    all_seen = defaultdict(dict)
    while True:
        for folder, files in seen().items():
            all_seen[folder].update(files)
        lines = [line for files in all_seen.values() if files for line in told(files, given.least)]
        if not given.watch:
            print("\n".join(lines) or "no check runs")
            return
        with open(given.watch, "w", encoding="utf-8") as file:
            file.write("\n".join([*lines, ""]))
        time.sleep(15)


if __name__ == "__main__":
    with contextlib.suppress(KeyboardInterrupt):
        main()
