"""Generated sessions: scripts over numbers (trials/original/random_scripts.py) and scripts over objects of the host, in up
to three modules with masks of their own, which are built, bound, called, built anew and discarded."""

import os
import random
import sys

sys.path.insert(0, os.path.join(os.path.dirname(os.path.abspath(__file__)), "..", "original"))
from random_scripts import Script  # noqa: E402

PROFILE = """\
# seen by all
mask 00000003
function 0 1 int64 sum(int64, int64)
global 0 0 int64 reg
function 0 0 void put(int64)
function 0 0 void note(bool, uint8, int64)
type Counter 1
factory Counter 0 Counter@ f()
factory Counter 1 Counter@ f(int)
method Counter 0 void bump()
method Counter 1 int value() const
property Counter 0 int step
type Cell 2
factory Cell 0 Cell@ f(int)
factory Cell 1 Cell@ g(Cell@+, int)
method Cell 0 int get() const
function 2 2 Cell@+ pick(Cell@+)
# staff alone
mask 00000002
method Cell 1 void set(int)
function 0 2 void fail(uint)
function 0 9 void unknown()
function 0 1 uint bad(int64, int64)
global 0 0 const int64 limit
"""

# The same, of which the functions that note values are posted.
POSTED = PROFILE.replace("function 0 0 void", "posted 0 0 void")

MODULES = ["a", "b", "c"]


class Objects:
    """A script over cells and counters: globals, functions from int to int64, and an import."""

    def __init__(self, dice, trusted):
        self.dice = dice
        self.trusted = trusted
        self.names = 0
        self.functions = []
        self.lines = [dice.choice(["Cell@ kept = Cell(1);"] * 9 + ["Cell@ kept;"]), "Counter@ total = Counter(3);", "class Box {", "  Cell@ held;", "  int n;"]
        self.lines += ["  Box(Cell@ c) { @held = c; n = 1; }", "  int look() { n++; return held.get() + n; }", "}"]
        self.lines.append('import int64 far(int) from "b";')
        for _ in range(dice.randrange(1, 4)):
            self.function()

    def text(self):
        return "\n".join(self.lines) + "\n"

    def name(self, letter):
        self.names += 1
        return f"{letter}{self.names}"

    def function(self):
        name = self.name("o")
        self.cells, self.counters, self.boxes = ["kept"], ["total"], []
        body = [line for _ in range(self.dice.randrange(3, 9)) for line in self.statement(2)]
        self.lines += [f"int64 {name}(int n)", "{", *body, f"return {self.number()};", "}"]
        self.functions.append(name)

    def cell(self):
        return self.dice.choice(self.cells)

    def number(self):
        """An expression of a number."""
        choices = [lambda: str(self.dice.randrange(100)), lambda: "n"] * 2
        choices.append(lambda: f"{self.cell()}.get()")
        choices.append(lambda: f"{self.dice.choice(self.counters)}.value()")
        choices.append(lambda: f"int(sum(n, {self.dice.randrange(9)}))")
        choices.append(lambda: f"({self.number()} {self.dice.choice('+-*')} {self.number()})")
        return self.dice.choice(choices)()

    def statement(self, depth):
        kinds = [self.new_cell, self.new_cell, self.new_counter, self.count, self.count, self.moved, self.shown]
        kinds += [self.boxed, self.called] + [self.risky] * (self.dice.random() < 0.4)
        if depth and self.dice.random() < 0.3:
            return self.nested(depth)
        return self.dice.choice(kinds)()

    def nested(self, depth):
        before = [list(it) for it in (self.cells, self.counters, self.boxes)]
        body = [line for _ in range(self.dice.randrange(1, 4)) for line in self.statement(depth - 1)]
        self.cells, self.counters, self.boxes = before
        head = self.dice.choice([f"if ({self.cell()} is {self.cell()})", f"if ({self.number()} > 10)"])
        index = self.name("i")
        loop = f"for (int {index} = 0; {index} < {self.dice.randrange(1, 4)}; {index}++)"
        return [self.dice.choice([head, loop]), "{", *body, "}"]

    def new_cell(self):
        name, number = self.name("c"), self.number()
        forms = [f"Cell@ {name} = Cell({number});", f"Cell {name}({number});", f"Cell@ {name} = pick({self.cell()});"]
        forms += [f"Cell@ {name} = Cell({self.cell()}, {number});"] + [f"Cell@ {name};"] * (self.dice.random() < 0.2)
        line = self.dice.choice(forms)
        self.cells.append(name)
        return [line]

    def new_counter(self):
        name, number = self.name("k"), self.number()
        line = self.dice.choice([f"Counter {name}({number});", f"Counter {name};", f"Counter@ {name} = total;"])
        self.counters.append(name)
        return [line]

    def count(self):
        name, number = self.dice.choice(self.counters), self.number()
        change = self.dice.choice([f"{name}.step = {number};", f"{name}.step += {number};", f"{name}.bump();"])
        return [change, f"{name}.bump();"]

    def moved(self):
        return [self.dice.choice([f"@kept = {self.cell()};", f"@kept = Cell({self.number()});", "@total = Counter();"])]

    def shown(self):
        return [self.dice.choice([f"put({self.number()});", f"note({self.cell()} is null, 7, n);", "reg += n;"])]

    def boxed(self):
        if self.boxes and self.dice.random() < 0.6:
            return [f"put({self.dice.choice(self.boxes)}.look());"]
        name = self.name("b")
        line = f"Box@ {name} = Box({self.cell()});"
        self.boxes.append(name)
        return [line]

    def called(self):
        name = self.dice.choice([*self.functions, *self.functions, "far"]) if self.functions else "far"
        return [f"put({name}({self.number()}));"]

    def risky(self):
        """What faults, or is hidden from some modules."""
        lines = ["@kept = null;", "put(n / (n - n));", "put(sum(9223372036854775807, n));"]
        lines += [f"{self.cell()}.set({self.number()});", "fail(7);", "unknown();", "put(bad(n, 1));", "put(limit);"]
        return [self.dice.choice(lines if self.trusted or self.dice.random() < 0.3 else lines[:3])]


def section(module, text):
    return f"section {module} {text.count(chr(10))}\n{text}"


class Session:
    """One generated session, as the text of a file."""

    def __init__(self, seed):
        self.dice = random.Random(seed)
        self.seed = seed
        self.scripts = {}
        self.commands = []
        for module in MODULES[: self.dice.randrange(1, 4)]:
            mask = self.dice.choice([1, 2, 3, 3, 3])
            self.commands.append(f"module {module} {mask:08x}\n")
            self.script(module, mask > 1 or self.dice.random() < 0.5)
        for _ in range(self.dice.randrange(5, 20)):
            self.command()

    def text(self):
        return "".join(self.commands)

    def script(self, module, trusted):
        """A new script for a module."""
        if self.dice.random() < 0.25:
            script = Script(self.seed * 100 + len(self.commands))
            functions = ["int64 m()"]
        else:
            script = Objects(self.dice, trusted)
            functions = [f"int64 {name}(int)" for name in script.functions]
        self.scripts[module] = functions
        self.commands += [section(module, script.text()), f"build {module}\n"]

    def command(self):
        dice, module = self.dice, self.dice.choice(list(self.scripts))
        exporter = dice.choice(list(self.scripts))
        declaration = dice.choice(self.scripts[exporter])
        kind = dice.random()
        if kind < 0.6:
            own = dice.choice(self.scripts[module])
            value = dice.choice(["7", "0", "-3", "100", "2147483648", "7u", "true"]) if dice.random() < 0.15 else "5"
            self.commands.append(f"call {module} ({'' if own.endswith('m()') else value}) {own}\n")
        elif kind < 0.75:
            self.commands.append(f"bind {module} 0 {exporter} {declaration}\n")
        elif kind < 0.8:
            self.commands.append(f"unbind {module} {dice.randrange(2)}\n")
        elif kind < 0.85:
            self.commands.append(dice.choice(["budget 10\n", "budget 300\n", "budget 100000\n", "\n", "# a comment\n"]))
        elif kind < 0.9:
            self.commands.append(f"mask {module} {dice.choice([1, 3]):08x}\n")
        elif kind < 0.98:
            self.script(module, True)
        else:
            self.commands.append(dice.choice([f"discard {module}\n", f"module {module} 00000003\n", "call a\n"]))
