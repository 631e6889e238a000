#!/usr/bin/env python3
"""Searches for sections whose builds take long, or much memory, and prints the worst ones beside an ordinary section.

    python3 bench/search.py ASRUN [--minutes M] [--seed N] [--keep]
    python3 bench/search.py ASRUN --known [--rounds N] [--sections N] [--beside ASRUN]

ASRUN is the executable of crates/asrun. A section is made by a shape of bench/shapes.py and its numbers, or by two, of which the first
one has a part of the bytes, in percent. The first form begins with the sections of bench/worst.txt, changes some of their numbers again and
again, and goes on from what takes longer, or more memory; beside that it tries numbers at random. With `--keep` it writes the worst that it
found of each shape into that file. `--known` measures the sections of the file alone, with `--sections` each made as large as so many,
and with `--beside` in another program too.

A build is a fresh process. Its time is the processor time, the system's part included, of a process that builds and prints into nothing,
less that of one that reads the same texts and builds an empty section; its memory is what is resident at most, less what is of the other
process. Each is the least of the rounds. What initializers do is left out: the budget is one tick. Beside what seems worse than all before
an ordinary section is built in the same rounds, and each known section beside one of its own: so what slows the machine slows both.

Ends with status 1 where a process ended by a signal or was out of time.
"""

import argparse
import os
import random
import sys
import tempfile
import time
from collections import namedtuple

from doublings import ordinary
from processes import last_line, measured, write
from shapes import MOST, SHAPES, Script

WORST = os.path.join(os.path.dirname(os.path.abspath(__file__)), "worst.txt")
SCRIPT, EMPTY = "m", "e"  # modules: the one of the sections, and one of an empty section
HEAD = "# By bench/search.py: of what it is the worst, the first shape's percent of the bytes and that shape, and the last shape.\n"
MODULES = 33  # that are built of one section, to tell what stays of it
BETTER = 1.03  # times the worst known that counts as worse
PAIRED, AT_RANDOM = 0.2, 0.15  # of the tries, those of two shapes and those that begin anew

# A shape with its numbers, and the percent of the bytes that it has together with those before it.
Part = namedtuple("Part", "percent shape numbers")
Figures = namedtuple("Figures", "seconds bytes size answer")


# ---- sections


def script_of(parts, sections=1):
    script = Script(sections)
    for part in parts:
        script.limit(part.percent, sections)
        SHAPES[part.shape][0](script, **part.numbers)
    return script


def text_of(parts):
    """A line of the file, without what it is the worst of, and without the numbers that are the least."""
    words = []
    for part in parts:
        words += [str(part.percent), part.shape]
        words += [f"{key}={value}" for key, value in part.numbers.items() if value != SHAPES[part.shape][1][key][0]]
    return " ".join(words)


def parts_in(words):
    """The parts that the words of a line say."""
    parts = []
    for word in words:
        if word.isdigit():
            parts.append(Part(int(word), None, {}))
        elif "=" in word:
            key, value = word.split("=")
            parts[-1].numbers[key] = int(value)
        else:
            parts[-1] = parts[-1]._replace(shape=word)
    return [it._replace(numbers=completed(it.shape, it.numbers)) for it in parts]


def completed(shape, numbers):
    """Numbers that a line doesn't say are the least, and those that the shape doesn't have any more are left out."""
    return {key: numbers.get(key, bounds[0]) for key, bounds in SHAPES[shape][1].items()}


def known():
    """What the sections of the file are the worst of, and their parts."""
    if not os.path.exists(WORST):
        return []
    with open(WORST, encoding="utf-8") as file:
        lines = [line.split() for line in file if line.strip() and not line.startswith("#")]
    return [(words[0], parts_in(words[1:])) for words in lines]


# ---- measuring


class Program:
    """A program, whose builds are measured in a folder."""

    def __init__(self, path, folder):
        self.path, self.folder, self.bad = os.path.abspath(path), folder, 0

    def run(self, session, printed=os.devnull):
        words = [self.path, "--profile", f"{self.folder}/profile", "--session", f"{self.folder}/{session}", "--budget", "1"]
        seconds, size, status = measured(words, printed, f"{self.folder}/resident")
        self.bad += status > 2
        return seconds, size

    def build(self, profile, sections, rounds=1):
        """The least figures of the builds of these sections."""
        texts = "".join(f"section {SCRIPT} {text.count(chr(10))}\n{text}" for text in sections)
        head = f"module {SCRIPT} 00000001\n{texts}module {EMPTY} 00000001\nsection {EMPTY} 0\nbuild "
        sessions = {module: f"{head}{module}\n" for module in (SCRIPT, EMPTY)}
        write(self.folder, {"profile": "".join(f"{line}\n" for line in profile), **sessions})
        without = [self.run(EMPTY) for _ in range(rounds)]
        with_it = [self.run(SCRIPT) for _ in range(rounds)]
        self.run(SCRIPT, f"{self.folder}/printed")
        answer = last_line(f"{self.folder}/printed") or "nothing"
        seconds, size = (min(found) - min(base) for found, base in zip(zip(*with_it), zip(*without)))
        return Figures(seconds, size, sum(map(len, sections)), answer)

    def kept(self, section):
        """The bytes that stay for each byte of a section, by the peak of a process that builds it in many modules, less that in one."""
        names = [f"{SCRIPT}{i}" for i in range(MODULES)]
        head = "".join(f"module {name} 00000001\nsection {name} {section.count(chr(10))}\n{section}" for name in names)
        builds = [f"build {name}\n" for name in names]
        write(self.folder, {"profile": "", "one": head + builds[0], "all": head + "".join(builds)})
        return (self.run("all")[1] - self.run("one")[1]) / (MODULES - 1) / len(section)

    def build_parts(self, parts, sections=1, rounds=1):
        script = script_of(parts, sections)
        return self.build(script.profile, script.sections(), rounds)

    def build_ordinary(self, rounds):
        return self.build([], ordinary(1).sections, rounds)


# ---- the search


class Search:
    """The worst that is known of each shape: of time how many times that of an ordinary section, of bytes how many are taken for a byte of
    the section."""

    def __init__(self, program, seed):
        self.program, self.random = program, random.Random(seed)
        self.best, self.tries = {}, 0
        self.usual = program.build_ordinary(20).seconds

    def scores(self, figures):
        return {"time": figures.seconds / self.usual, "bytes": figures.bytes / figures.size}

    def scores_beside(self, parts):
        """The scores by three rounds, in each of which an ordinary section is built too."""
        rounds = [(self.program.build_ordinary(3).seconds, self.program.build_parts(parts)) for _ in range(3)]
        self.usual = min(seconds for seconds, _ in rounds)
        found = [self.scores(figures) for _, figures in rounds]
        return {what: min(it[what] for it in found) for what in found[0]}

    def consider(self, parts):
        """Measures parts, once more where they seem worse than what is known, and keeps them where they are."""
        key, self.tries = "+".join(it.shape for it in parts), self.tries + 1
        scores = self.scores(self.program.build_parts(parts))
        for what, score in scores.items():
            if score > BETTER * self.best.get((what, key), (0,))[0]:
                again = self.scores_beside(parts)[what]
                if again > BETTER * self.best.get((what, key), (0,))[0]:
                    self.keep(what, key, again, parts)

    def keep(self, what, key, score, parts):
        self.best[what, key] = (score, parts)
        print(f"{time.strftime('%H:%M:%S', time.gmtime())} {self.tries} {score_of(what, score)}: {what} {text_of(parts)}", flush=True)

    def at_random(self):
        shape = self.random.choice(list(SHAPES))
        return [Part(100, shape, {key: self.random.randint(*bounds) for key, bounds in SHAPES[shape][1].items()})]

    def chosen(self):
        """Parts that are known, the worse the likelier."""
        what = self.random.choice(["time", "bytes"])
        found = [it for (of, _), it in self.best.items() if of == what]
        most = max(score for score, _ in found)
        return self.random.choices([parts for _, parts in found], [0.05 + score / most for score, _ in found])[0]

    def changed(self, parts):
        """Some numbers of one part changed, or how many bytes it has."""
        place = self.random.randrange(len(parts))
        part = parts[place]
        if part.percent < 100 and self.random.random() < 0.2:
            part = part._replace(percent=self.random.randint(1, 99))
        numbers = dict(part.numbers)
        for key in self.random.sample(list(numbers), min(len(numbers), self.random.randint(1, 3))):
            numbers[key] = self.moved(numbers[key], *SHAPES[part.shape][1][key])
        return [*parts[:place], part._replace(numbers=numbers), *parts[place + 1 :]]

    def moved(self, value, low, high):
        places = [2 * value, value // 2, value + 1, value - 1, value + value // 8, value - value // 8, low, high]
        places += [self.random.randint(low, high) for _ in range(4)]
        return max(low, min(high, self.random.choice(places)))

    def next_parts(self):
        way = self.random.random()
        if way < AT_RANDOM:
            return self.at_random()
        if way < AT_RANDOM + PAIRED:
            first, last = self.chosen()[0], self.chosen()[-1]
            if first.shape != last.shape:
                return [first._replace(percent=self.random.choice([10, 25, 50, 75, 90])), last._replace(percent=100)]
        return self.changed(self.chosen())

    def run(self, minutes):
        end = time.time() + 60 * minutes
        for _, parts in known():
            self.consider(parts)
        for shape, (_, bounds) in SHAPES.items():
            self.consider([Part(100, shape, {key: self.random.randint(*bounds[key]) for key in bounds})])
        while time.time() < end:
            self.consider(self.next_parts())

    def lines(self):
        """Lines of the file: of each shape and each pair that is worse than both of its shapes alone."""
        found = []
        for (what, key), (score, parts) in sorted(self.best.items(), key=lambda it: (it[0][0], -it[1][0])):
            alone = [self.best.get((what, shape), (0,))[0] for shape in key.split("+")]
            if len(parts) == 1 or score > BETTER * max(alone):
                found.append((what, score, f"{what} {text_of(parts)}"))
        return found


# ---- what is printed


def score_of(what, score):
    return f"{score:.1f} times" if what == "time" else f"{score:.0f} bytes"


def shown(figures, usual):
    return f"{figures.seconds * 1e3:.1f} | {figures.seconds / usual:.1f} | {figures.bytes / figures.size:.0f} | {figures.answer}"


def print_known(programs, sections, rounds):
    """A row for each section of the file, and each program."""
    for program in programs:
        print(f"{program.path} keeps {program.kept(ordinary(1).sections[0]):.1f} bytes for a byte of an ordinary section.", flush=True)
    print("| Section | program | milliseconds | times the ordinary one | bytes for a byte | answer |\n|---|---|---|---|---|---|")
    for program in programs:
        figures = program.build_ordinary(20)
        print(f"| an ordinary one | {program.path} | {shown(figures, figures.seconds)} |", flush=True)
    for what, parts in known():
        for program in programs:
            usual = program.build_ordinary(3 * rounds).seconds
            figures = program.build_parts(parts, sections, rounds)
            print(f"| {what} {text_of(parts)} | {program.path} | {shown(figures, usual)} |", flush=True)


def options():
    words = argparse.ArgumentParser(description=__doc__, formatter_class=argparse.RawDescriptionHelpFormatter)
    words.add_argument("program")
    words.add_argument("--minutes", type=float, default=60)
    words.add_argument("--seed", type=int, default=1)
    words.add_argument("--keep", action="store_true")
    words.add_argument("--known", action="store_true")
    words.add_argument("--rounds", type=int, default=3)
    words.add_argument("--sections", type=int, default=1)
    words.add_argument("--beside")
    return words.parse_args()


def searched(program, given):
    search = Search(program, given.seed)
    try:
        search.run(given.minutes)
    except KeyboardInterrupt:
        pass
    lines = search.lines()
    print(f"{search.tries} tries; an ordinary section took {search.usual * 1e3:.1f} milliseconds last")
    for what, score, text in lines:
        print(score_of(what, score), text)
    if given.keep:
        with open(WORST, "w", encoding="utf-8") as file:
            file.write(HEAD + "".join(f"{text}\n" for _, _, text in lines))


def main():
    given = options()
    with tempfile.TemporaryDirectory() as folder:
        programs = [Program(path, folder) for path in [given.program, given.beside] if path]
        if given.known:
            print_known(programs, given.sections, given.rounds)
        else:
            searched(programs[0], given)
    return sum(it.bad for it in programs) > 0


if __name__ == "__main__":
    sys.exit(main())
