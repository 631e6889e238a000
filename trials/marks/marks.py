#!/usr/bin/env python3
"""Tries that each instruction is said to be of the statement that it is of.

    python3 trials/marks/marks.py PROGRAM [COUNT [SEED]]

PROGRAM is that of trials/marks/program.txt, which trials/marks.sh makes. Writes COUNT sections (1,000, if left out) at
random, of functions and constructors whose statements have numbers that occur once, and compares for each number that the
code pushes the place of its statement by the code's marks with the place where the section has it. Prints the first section
where they differ, and at the end how many numbers were compared, and how many bytes the marks take.
"""

import random
import subprocess
import sys
import tempfile

GAPS = [" ", "  ", "\n", "\n    ", " /* c */ ", " // d\n  ", "\t", "\r\n"]


class Section:
    """A section as it is written, and for each of its numbers where the statement stands that has it."""

    def __init__(self, rng):
        self.rng, self.text, self.places, self.next = rng, "", {}, 1000
        self.statements = 0

    def put(self, *tokens):
        for token in tokens:
            self.text += token + (self.rng.choice(GAPS) if self.rng.random() < 0.4 else " ")

    def here(self):
        before = self.text
        line = before.count("\n") + 1
        return line, len(before) - (before.rfind("\n") + 1) + 1

    def begin(self):
        self.statements += 1
        return self.here()

    def number(self, place):
        self.next += 1
        self.places[self.next] = place
        return str(self.next)

    # ---- statements

    def sum_of(self, place):
        terms = ["x"] + [self.number(place) for _ in range(self.rng.randint(1, 2))]
        tokens = [terms[0]]
        for term in terms[1:]:
            tokens += [self.rng.choice(["+", "-", "*"]), term]
        return tokens

    def test_of(self, place):
        return self.sum_of(place) + [self.rng.choice(["<", ">", "==", "!="]), self.number(place)]

    def block(self, depth, loop):
        self.put("{")
        self.some(depth, loop)
        self.put("}")

    def some(self, depth, loop):
        for _ in range(self.rng.randint(0, 3)):
            self.statement(depth, loop, False)

    def declaration(self, place):
        name = f"v{self.next}"
        self.put(*self.rng.choice([["int"], ["const", "int"]]), name, "=", *self.sum_of(place))
        if self.rng.random() < 0.3:
            self.put(",", name + "b", "=", *self.sum_of(place))
        self.put(";")

    def simple(self, place):
        form = self.rng.randint(0, 5)
        if form == 0:
            self.put("x", self.rng.choice(["+=", "-=", "^="]), *self.sum_of(place), ";")
        elif form == 1:
            self.put("(", *self.sum_of(place), ")", "*", self.number(place), ";")
        elif form == 2:
            self.put("take", "(", *self.sum_of(place), ",", *self.sum_of(place), ")", ";")
        elif form == 3:
            self.put(*self.test_of(place), "?", *self.sum_of(place), ":", *self.sum_of(place), ";")
        elif form == 4:
            self.put("int64", "(", *self.sum_of(place), ")", ";")
        else:
            self.put("x", "=", *self.sum_of(place), ";")

    def for_loop(self, depth, place):
        self.put("for", "(")
        start = self.begin()
        form = self.rng.randint(0, 2)
        if form == 0:
            self.declaration(start)
        elif form == 1:
            self.put("x", "=", *self.sum_of(start), ";")
        else:
            self.put(";")
        if self.rng.random() < 0.8:
            self.put(*self.test_of(place))
        self.put(";")
        steps = self.rng.randint(0, 2)
        for step in range(steps):
            self.put(*([","] if step else []), "x", "+=", *self.sum_of(place))
        self.put(")")
        self.statement(depth - 1, True, True)

    def statement(self, depth, loop, is_branch):
        """One statement; a branch declares nothing that anyone sees."""
        place = self.begin()
        form = self.rng.randint(0, 11 if depth > 0 else 5)
        if form in (0, 1):
            self.simple(place)
        elif form == 2:
            self.declaration(place)
        elif form == 3:
            self.put(";")
        elif form == 4 and loop:
            self.put(self.rng.choice(["break", "continue"]), ";")
        elif form in (4, 5):
            self.put("return", *self.sum_of(place), ";")
        elif form in (6, 7):
            self.put("if", "(", *self.test_of(place), ")")
            self.block_branch(depth, loop)
            if self.rng.random() < 0.5:
                self.put("else")
                self.statement(depth - 1, loop, True)
        elif form == 8:
            self.put("while", "(", *self.test_of(place), ")")
            self.statement(depth - 1, True, True)
        elif form == 9:
            self.put("do")
            self.statement(depth - 1, True, True)
            self.put("while", "(", *self.test_of(place), ")", ";")
        elif form == 10:
            self.for_loop(depth, place)
        else:
            self.block(depth - 1, loop)

    def block_branch(self, depth, loop):
        """A branch that no `else` after it can join."""
        self.begin()
        self.block(depth - 1, loop)

    # ---- bodies

    def function(self, name):
        self.put("int", name, "(", "int", "x", ")", "{")
        self.some(3, False)
        place = self.begin()
        self.put("return", *self.sum_of(place), ";", "}")

    def classes(self):
        self.put("class", "A", "{", "A", "(", "int", "x", ")", "{", "}", "}")
        self.put("class", "B", ":", "A", "{", "B", "(", "int", "x", ")", "{")
        place = self.begin()
        self.put("super", "(", *self.sum_of(place), ")", ";")
        self.some_void(2)
        self.put("}", "}")

    def some_void(self, depth):
        for _ in range(self.rng.randint(1, 3)):
            place = self.begin()
            if self.rng.random() < 0.5:
                self.simple(place)
            else:
                self.put("if", "(", *self.test_of(place), ")")
                place = self.begin()
                self.simple(place)

    def whole(self):
        self.put("void", "take", "(", "int", "a", ",", "int", "b", ")", "{", "}")
        for number in range(self.rng.randint(1, 4)):
            self.function(f"f{number}")
        if self.rng.random() < 0.5:
            self.classes()
        return self


def found_in(printed):
    """The place of each number that is pushed, and how many marks there are."""
    found, marks, count = {}, [], 0
    for line in printed.splitlines():
        word, *rest = line.split()
        if word == "body":
            marks = []
        elif word == "mark":
            line, column = map(int, rest[1].split(":"))
            marks.append((int(rest[0]), (line, column)))
            count += 1
        else:
            at, number = int(rest[0]), int(rest[1])
            before = [place for first, place in marks if first <= at]
            found.setdefault(number, []).append(before[-1] if before else None)
    return found, count


def main():
    program = sys.argv[1]
    count = int(sys.argv[2]) if len(sys.argv) > 2 else 1000
    seed = int(sys.argv[3]) if len(sys.argv) > 3 else 1
    compared = marks = statements = 0
    with tempfile.NamedTemporaryFile(suffix=".as") as file:
        for number in range(count):
            section = Section(random.Random(f"{seed} {number}")).whole()
            with open(file.name, "wb") as out:
                out.write(section.text.encode())
            run = subprocess.run([program, file.name], capture_output=True, text=True)
            if run.returncode:
                sys.exit(f"section {number} is refused:\n{section.text}\n{run.stderr}")
            found, these = found_in(run.stdout)
            for value, place in section.places.items():
                if value not in found:
                    sys.exit(f"section {number}: {value} is not pushed:\n{section.text}")
                if any(other != place for other in found[value]):
                    sys.exit(f"section {number}: {value} is at {found[value]}, and not at {place}:\n{section.text}")
                compared += 1
            marks += these
            statements += section.statements
    print(f"{count} sections, {statements} statements, {compared} numbers: none differs")
    print(f"{marks} marks, {8 * marks / statements:.1f} bytes a statement")


if __name__ == "__main__":
    main()
