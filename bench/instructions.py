#!/usr/bin/env python3
"""Counts the processor's instructions that a tick of each script of bench/ takes in the program.

    python3 bench/instructions.py ASRUN [--from N] [--to N] [--limits] [--unheard BENCH_PROGRAMS] [SCRIPT ...]

ASRUN is the executable of crates/asrun. Each script is built and called by `valgrind --tool=callgrind` with a budget of N ticks
(20000 and 60000, if left out), which end it, and the difference of the two counts is divided by that of the budgets. What the host is
asked is listed and printed, and is in the count; with --unheard, the executable of crates/bench_programs, it is only counted, and no
program lists or prints it. Scripts of one tick a pass, as those of bench/objects, so have their instructions a
pass. Prints a line for each script; with --limits also how many times as many a tick takes under limits that it never meets. Wants
valgrind.
"""

import argparse
import re
import subprocess
import sys
import tempfile
from pathlib import Path

sys.dont_write_bytecode = True
from machine import FOLDERS, PROFILE, building, called, script_at, scripts_in  # noqa: E402
from processes import write  # noqa: E402

COUNTED = re.compile(r"Collected : (\d+)")
LIMITS = "".join(f"limit {name} 1000000000\n" for name in ("events", "slots", "objects"))


def instructions(asrun, folder, script, budget, limits="", unheard=None):
    """The instructions of a session that builds a script and calls its main, which these ticks don't suffice for; or of the program
    that only counts what is asked."""
    commands, _ = building(script)
    more, _ = called(script, budget, "fault Budget")
    write(folder, {"profile": PROFILE + limits, "session": commands + more})
    words = ["valgrind", "--tool=callgrind", "--callgrind-out-file=/dev/null"]
    words += [unheard, "script", str(script.path), str(budget)] if unheard else [asrun]
    words += [] if unheard else ["--profile", f"{folder}/profile", "--session", f"{folder}/session"]
    done = subprocess.run(words, capture_output=True, text=True)
    if not done.stdout.endswith("fault Budget\n"):
        sys.exit(f"{script.name}: {done.stdout[-200:]}{done.stderr[-200:]}")
    return int(COUNTED.search(done.stderr)[1])


def of_a_tick(asrun, folder, script, budgets, limits="", unheard=None):
    """The instructions of a tick, by the difference of two sessions."""
    counts = [instructions(asrun, folder, script, budget, limits, unheard) for budget in budgets]
    return (counts[1] - counts[0]) / (budgets[1] - budgets[0])


def main():
    reader = argparse.ArgumentParser(description=__doc__, formatter_class=argparse.RawDescriptionHelpFormatter)
    reader.add_argument("asrun")
    reader.add_argument("--from", dest="short", type=int, default=20000)
    reader.add_argument("--to", dest="long", type=int, default=60000)
    reader.add_argument("--limits", action="store_true")
    reader.add_argument("--unheard", metavar="BENCH_PROGRAMS")
    reader.add_argument("scripts", nargs="*", type=Path)
    chosen = reader.parse_intermixed_args()
    paths = chosen.scripts or [path for name in FOLDERS for path in scripts_in(name)]
    with tempfile.TemporaryDirectory() as folder:
        for script in map(script_at, paths):
            budgets = (chosen.short, chosen.long)
            count = of_a_tick(chosen.asrun, folder, script, budgets, unheard=chosen.unheard)
            under = of_a_tick(chosen.asrun, folder, script, budgets, LIMITS) / count if chosen.limits else None
            print(f"{script.name:12}{count:8.0f}" + ("" if under is None else f"{under:8.4f}"), flush=True)


if __name__ == "__main__":
    main()
