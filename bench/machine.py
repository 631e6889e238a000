#!/usr/bin/env python3
"""Runs the scripts of bench/scripts in the program, and in the original engine where its program is given, and prints a line for
each: the ticks of the run, how many ticks a second the program makes, the seconds of both, and the original's seconds divided by
the program's. Above 1 the program is faster. After several lines comes the geometric mean of the ratios. Then it does the same with
those of bench/classes, which have classes of their own, with those of bench/objects, which ask the host, and with those of
bench/imports, which import functions of other modules. The program lists and prints what is asked of the host, which is in its
seconds.

    python3 bench/machine.py ASRUN [--original MACHINE] [--modes plain,bare,counted,listed] [--unheard BENCH_PROGRAMS]
        [--rounds N] [--check] [SCRIPT ...]

ASRUN is the executable of crates/asrun and MACHINE that of bench/original/machine.cpp, whose modes are named there. A round runs
each once, one after the other, and the quickest of N rounds counts (5, if left out). Seconds are processor time. Those of the
program are the time of a session that builds and calls, less that of a session that only builds; those of the original are taken
around the call. Each answer is compared with the one that the script's head states.

With --unheard, the executable of crates/bench_programs, scripts that ask the host have a second line: what they take where events
are only counted and nothing is listed or printed, as in the original but in its mode `listed`.

--check measures nothing: it tells whether a script runs with the ticks that its head states, and with one less does not.

Ends with status 1 where a script could not be run, or gave another answer.
"""

import argparse
import math
import re
import subprocess
import sys
import tempfile
from dataclasses import dataclass
from pathlib import Path

from processes import lines_of, processor_seconds, run_session, write

HEAD = re.compile(r"// ticks (\d+)\n// answer (-?\d+)\n(?:// events (\d+)\n)?")
IMPORT = re.compile(r'^import (.+) from "(\w+)";$', re.MULTILINE)
PROFILE = """mask 00000001
function 0 0 void print(int64)
type Counter 1
factory Counter 1 Counter@ make(int)
method Counter 0 void bump()
method Counter 1 int value() const
function 0 1 int64 sum(int64, int64)
type Cell 2
factory Cell 0 Cell@ make(int)
method Cell 0 int get() const
"""
EVENTS = ("host ", "end ")
FOLDERS = ["scripts", "classes", "objects", "imports"]
MOST_TICKS = 2147483647
CALL = "call bench () int64 main()\n"
MODES = ["plain", "bare", "counted", "listed"]


class Refused(Exception):
    """A script that could not be run, or gave another answer than it should."""


@dataclass
class Script:
    name: str
    path: Path
    text: str
    ticks: int
    answer: int
    events: int


@dataclass
class Figures:
    """Seconds of the quickest rounds: of the program, of it with events only counted, where that was measured, and of the original
    engine in each mode."""

    ours: float
    unheard: float | None
    original: dict


def script_at(path):
    text = path.read_text()
    head = HEAD.match(text)
    if not head:
        sys.exit("%s: the head states no ticks and answer" % path)
    return Script(path.stem, path, text, int(head[1]), int(head[2]), int(head[3] or 0))


def module(name, text):
    """The commands that make a module of a text."""
    return ["module %s 00000001\n" % name, "section %s %d\n%s" % (name, text.count("\n"), text), "build %s\n" % name]


def exporters(script):
    """The text of each module that a script imports from, by name: files of the folder `exporters` beside the script."""
    folder = script.path.parent / "exporters"
    return {name: (folder / (name + ".as")).read_text() for _, name in IMPORT.findall(script.text)}


def bindings(script):
    """The commands that bind a script's imports."""
    imports = enumerate(IMPORT.findall(script.text))
    return ["bind bench %d %s %s\n" % (index, name, declaration) for index, (declaration, name) in imports]


def building(script):
    """The commands that build a script and what it imports from, and the lines that they print."""
    commands = [command for name, text in exporters(script).items() for command in module(name, text)]
    commands += module("bench", script.text) + bindings(script)
    return "".join(commands), ["ok"] * len(commands)


def called(script, budget, outcome):
    """The commands that call a script's main with a budget of ticks, and the lines that they print."""
    return "budget %d\n%s" % (budget, CALL), ["ok", outcome]


class Program:
    """The program of this project, on sessions written into a folder."""

    def __init__(self, path, folder):
        self.path, self.folder = path, folder
        write(folder, {"profile": PROFILE})

    def seconds(self, commands, expected, events=0):
        """The processor time of a session that prints these lines, and among them this number of events (None: any number)."""
        write(self.folder, {"session": commands})
        seconds, lines = run_session(self.path, self.folder)
        self.compare(lines, expected, events)
        return seconds

    def compare(self, lines, expected, events):
        printed = [line for line in lines if not line.startswith(EVENTS)]
        if printed != expected:
            differing = [line for line in printed if line != "ok"]
            raise Refused("it prints " + " / ".join(differing or printed or ["nothing"]))
        if events is not None and len(lines) - len(printed) != events:
            raise Refused("it prints %d events" % (len(lines) - len(printed)))

    def build(self, script):
        commands, lines = building(script)
        return self.seconds(commands, lines)

    def build_and_call(self, script, budget, outcome, events):
        commands, lines = building(script)
        more, outcomes = called(script, budget, outcome)
        return self.seconds(commands + more, lines + outcomes, events)


class Unheard:
    """A program of this project that runs a script and only counts its events."""

    def __init__(self, path, folder):
        self.path, self.folder = path, folder

    def seconds(self, words, expected):
        printed = f"{self.folder}/unheard"
        seconds = processor_seconds([self.path, "script", *words], printed)
        if [line.split(": ")[-1] for line in lines_of(printed)] != expected:
            raise Refused("with events only counted it prints " + " / ".join(lines_of(printed)))
        return seconds

    def call(self, script):
        """The processor time of its `main`."""
        called = self.seconds([str(script.path), str(MOST_TICKS)], ["ok %d" % script.answer])
        return called - self.seconds([str(script.path)], [])


class Original:
    """The original engine, by the program of bench/original/machine.cpp."""

    def __init__(self, path):
        self.path = path

    def seconds(self, script, mode):
        words = [self.path, str(script.path), str(script.answer), "1", mode]
        done = subprocess.run(words, capture_output=True, text=True)
        if done.returncode != 0:
            raise Refused(done.stderr.strip())
        return float(done.stdout)


def measured(script, program, unheard, original, modes, rounds):
    builds, calls, counted = [], [], []
    others = {mode: [] for mode in modes}
    for _ in range(rounds):
        builds.append(program.build(script))
        calls.append(program.build_and_call(script, MOST_TICKS, "ok %d" % script.answer, script.events))
        if unheard and script.events:
            counted.append(unheard.call(script))
        for mode in modes:
            others[mode].append(original.seconds(script, mode))
    least = {mode: min(taken) for mode, taken in others.items()}
    return Figures(min(calls) - min(builds), min(counted, default=None), least)


def check(script, program):
    """The head's ticks are enough, and one less is not."""
    program.build_and_call(script, script.ticks, "ok %d" % script.answer, script.events)
    program.build_and_call(script, script.ticks - 1, "fault Budget", None)
    print("%-12s %12d ticks" % (script.name, script.ticks))


def heading(modes):
    print("%-12s %12s %16s %8s" % ("script", "ticks", "million ticks/s", "seconds"), end="")
    print("".join(" %8s %6s" % (mode, "ratio") for mode in modes))


def line_of(script, figures):
    if figures.ours <= 0:
        raise Refused("the call takes no time that could be measured")
    line = figures_of(script.name, script.ticks, figures.ours, figures.original)
    if figures.unheard is None:
        return line
    others = {mode: taken for mode, taken in figures.original.items() if mode != "listed"}
    return line + "\n" + figures_of("  unheard", script.ticks, figures.unheard, others)


def figures_of(name, ticks, seconds, original):
    line = "%-12s %12d %16.1f %8.3f" % (name, ticks, ticks / seconds / 1e6, seconds)
    return line + "".join(" %8.3f %6.2f" % (taken, taken / seconds) for taken in original.values())


def geometric_mean(ratios):
    return math.exp(sum(math.log(ratio) for ratio in ratios) / len(ratios))


def last_line(all_figures, modes):
    means = [geometric_mean([figures.original[mode] / figures.ours for figures in all_figures]) for mode in modes]
    print("%-51s" % ("geometric mean of %d" % len(all_figures)) + "".join(" %8s %6.2f" % ("", mean) for mean in means))


def each_of(scripts, act):
    """What there is of each script that is not refused, and how many are."""
    answers, refused = [], 0
    for script in scripts:
        try:
            answers.append(act(script))
        except Refused as why:
            print("%-12s %s" % (script.name, why))
            refused += 1
        sys.stdout.flush()
    return answers, refused


def measure_all(scripts, program, unheard, original, modes, rounds):
    def measure(script):
        figures = measured(script, program, unheard, original, modes, rounds)
        print(line_of(script, figures))
        return figures

    heading(modes)
    all_figures, refused = each_of(scripts, measure)
    if len(all_figures) > 1 and modes:
        last_line(all_figures, modes)
    return refused


def options():
    reader = argparse.ArgumentParser(description=__doc__, formatter_class=argparse.RawDescriptionHelpFormatter)
    reader.add_argument("asrun")
    reader.add_argument("--original")
    reader.add_argument("--modes")
    reader.add_argument("--unheard", metavar="BENCH_PROGRAMS")
    reader.add_argument("--rounds", type=int, default=5)
    reader.add_argument("--check", action="store_true")
    reader.add_argument("scripts", nargs="*", type=Path)
    chosen = reader.parse_intermixed_args()
    chosen.modes = chosen.modes.split(",") if chosen.modes else []
    if chosen.rounds < 1 or not set(chosen.modes) <= set(MODES):
        reader.error("a round at least, and modes of %s" % ", ".join(MODES))
    return chosen


def scripts_in(name):
    return sorted((Path(__file__).parent / name).glob("*.as"))


def modes_of(scripts, chosen):
    """The original's modes: the chosen ones, and if none are `plain` and `bare`, with `listed` for scripts that ask the host."""
    if not chosen.original:
        return []
    asks = any(script.events for script in scripts)
    return chosen.modes or ["plain", "bare"] + (["listed"] if asks else [])


def act_on(scripts, program, chosen):
    """Checks or measures the scripts; how many are refused."""
    if chosen.check:
        _, refused = each_of(scripts, lambda script: check(script, program))
        return refused
    unheard = Unheard(chosen.unheard, program.folder) if chosen.unheard else None
    return measure_all(scripts, program, unheard, Original(chosen.original), modes_of(scripts, chosen), chosen.rounds)


def main():
    chosen = options()
    groups = [chosen.scripts] if chosen.scripts else [scripts_in(name) for name in FOLDERS]
    refused = 0
    with tempfile.TemporaryDirectory() as folder:
        program = Program(chosen.asrun, folder)
        for paths in groups:
            refused += act_on([script_at(path) for path in paths], program, chosen)
    sys.exit(1 if refused else 0)


if __name__ == "__main__":
    main()
