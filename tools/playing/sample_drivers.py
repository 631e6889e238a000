"""The drivers of asrun, `Console`, `Counter` and `Cell`, as a host of asremote has them (docs/RATTLE_HOST.md, "Console").

Each has a method `asked(kind, f, object, values)`, which gives the text of the answer. Values stay texts, since the
drivers tell a signed value from an unsigned one. A counter can't tell how many references were added (its function 2):
asremote counts them by itself.
"""

import re

UNKNOWN = "fault 1"


def integer(text):
    """The number of a signed value in 64 bits, or None."""
    return int(text) if re.fullmatch(r"-?\d+", text) else None


def integer_32(text):
    number = integer(text)
    return number if number is not None and -(2**31) <= number < 2**31 else None


def wrapped_32(number):
    return (number + 2**31) % 2**32 - 2**31


class Console:
    """Notes values, adds, faults, and has a register."""

    def __init__(self):
        self.register = 0
        self.notes = []

    def asked(self, kind, f, object, values):
        if kind == "call" and f == 0:
            self.notes += values
            return "void"
        if kind == "call" and f == 1:
            return self.sum(values)
        if kind == "call" and f == 2:
            number = re.fullmatch(r"(\d+)u", values[0]) if len(values) == 1 else None
            return f"fault {number[1]}" if number and int(number[1]) < 2**32 else UNKNOWN
        if kind == "read" and f == 0:
            return str(self.register)
        if kind == "write" and f == 0 and integer(values[0]) is not None:
            self.register = int(values[0])
            return "void"
        return UNKNOWN

    def sum(self, values):
        numbers = [integer(text) for text in values]
        if len(numbers) != 2 or None in numbers:
            return UNKNOWN
        return str(sum(numbers)) if -(2**63) <= sum(numbers) < 2**63 else "fault 2"


class Objects:
    """Objects under keys from 0 on, none of them used again."""

    def __init__(self):
        self.live = {}
        self.made = 0

    def make(self, object):
        self.live[self.made] = object
        self.made += 1
        return f"made #{self.made - 1}"

    def end(self, key):
        del self.live[key]


class Counter(Objects):
    """Objects with a value and a step."""

    def asked(self, kind, f, object, values):
        numbers = [integer_32(text) for text in values]
        if kind == "make":
            if f == 0 and not values:
                return self.make([0, 1])
            return self.make([numbers[0], 1]) if f == 1 and len(values) == 1 and numbers[0] is not None else UNKNOWN
        if object is None:
            return UNKNOWN
        count = self.live[object]
        if kind == "call" and f == 0 and not values:
            count[0] = wrapped_32(sum(count))
            return "void"
        if kind == "call" and f == 1 and not values:
            return str(count[0])
        if kind == "read" and f == 0:
            return str(count[1])
        if kind == "write" and f == 0 and numbers[0] is not None:
            count[1] = numbers[0]
            return "void"
        return UNKNOWN


class Cell(Objects):
    """Objects with a number each."""

    def asked(self, kind, f, object, values):
        numbers = [integer_32(text) for text in values]
        if kind == "make" and f == 0 and len(values) == 1 and numbers[0] is not None:
            return self.make([numbers[0]])
        if kind == "make" and f == 1 and len(values) == 2 and values[0][0] == "#" and integer(values[1]) is not None:
            return self.make([wrapped_32(self.live[int(values[0][1:])][0] + int(values[1]))])
        if kind == "call" and object is not None:
            return self.of(self.live[object], f, values, numbers)
        if kind == "call" and f == 2 and len(values) == 1 and (values[0][0] == "#" or values[0] == "null"):
            return values[0]
        return UNKNOWN

    def of(self, cell, f, values, numbers):
        if f == 0 and not values:
            return str(cell[0])
        if f == 1 and len(values) == 1 and numbers[0] is not None:
            cell[0] = numbers[0]
            return "void"
        return UNKNOWN


class Drivers:
    """The three, in the order in which asrun has them."""

    def __init__(self):
        self.drivers = [Console(), Counter(), Cell()]
        self.asks = 0

    def answer(self, line):
        """The answer to a line `ask DRIVER KIND F OBJECT (V,V)`, or to one with `post`, to which nothing is said."""
        _, driver, kind, f, object, values = line.split(" ")
        self.asks += 1
        key = None if object == "-" else int(object[1:])
        return self.drivers[int(driver)].asked(kind, int(f), key, values[1:-1].split(",") if values != "()" else [])

    def replied(self, lines):
        """Lets go of the objects whose end a reply tells."""
        for _, driver, key in (line.split(" ") for line in lines if line.startswith("end ")):
            self.drivers[int(driver)].end(int(key[1:]))

    def live(self):
        return sum(len(driver.live) for driver in self.drivers[1:])
