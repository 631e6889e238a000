#!/usr/bin/env python3
"""Tries that the trace of a fault tells where it came.

    python3 trials/traces.py ASRUN [COUNT [SEED [PLACES]]]

Writes COUNT sessions (1,000, if left out) at random. In each a call, or a build, comes to one fault. What stands one inside the other then,
and at which statement, is chosen before the scripts are written: functions, methods, constructors, imports and initializers, and in each of
them blocks, branches and loops around a statement of any kind. Each session is run with `--trace` and without. The fault and the lines `at`
have to be those, and all else the same. With PLACES `none` a program is tried that tells no statement's place.

Prints the first sessions of which that isn't so, and at the end how many were tried, and how many lines of each kind. The status is 0 where
none differed.
"""

import collections
import os
import random
import subprocess
import sys
import tempfile

GAPS = [" ", "  ", "\n", "\n    ", " /* c */ ", " // d\n  ", "\t", "\r\n"]
PROFILE = "function 0 0 void note(int64, bool)\nfunction 0 2 void fail(uint)\n"
HELPERS = """int id ( int a ) { return a ; }
int both ( int a , int b ) { return a + b ; }
int held ( const Held &in h ) { return h . v ; }
class Held { int v ; Held ( int a ) { v = a ; } int twice ( ) { return v * 2 ; } }
int fine ( int a ) { return a ; }
"""
MOST_INSIDE = 200
SHOWN = 3


class Chunk:
    """A declaration as it is written. Its places are told once it stands in a section."""

    def __init__(self, rng):
        self.rng, self.text, self.section, self.first = rng, "", None, None

    def put(self, *tokens):
        for token in tokens:
            self.text += token + (self.rng.choice(GAPS) if self.rng.random() < 0.3 else " ")

    def here(self):
        return self, len(self.text)


def told(mark):
    """A mark as `SECTION:LINE:COLUMN`."""
    if mark is None:
        return "-"
    chunk, offset = mark
    before = chunk.first + chunk.text[:offset]
    line = before[before.rfind("\n") + 1 :]
    return f"{chunk.section}:{before.count(chr(10)) + 1}:{len(line.encode()) + 1}"


class Module:
    def __init__(self, rng, name):
        self.rng, self.name, self.chunks, self.imports = rng, name, [], []
        helpers = self.chunk()
        helpers.text = HELPERS

    def chunk(self):
        chunk = Chunk(self.rng)
        self.chunks.append(chunk)
        return chunk

    def imported(self, name, source):
        """Declares an import of one `int`."""
        chunk = self.chunk()
        chunk.put("import", "int", name, "(", "int", ")", "from", f'"{source}"', ";")
        self.imports.append((chunk, name))

    def write(self):
        """The lines that add its sections, in which the declarations stand in any order."""
        self.rng.shuffle(self.chunks)
        texts = ["\ufeff" if self.rng.random() < 0.1 else "" for _ in range(self.rng.randint(1, 3))]
        for chunk in self.chunks:
            number = self.rng.randrange(len(texts))
            chunk.section, chunk.first = number, texts[number]
            texts[number] += chunk.text + self.rng.choice(GAPS)
        self.imports.sort(key=lambda entry: (entry[0].section, len(entry[0].first)))
        lines = ""
        for text in texts:
            text += "\n"
            lines += f"section {self.name} {text.count(chr(10))}\n{text}"
        return lines

    def import_number(self, name):
        return [other for _, other in self.imports].index(name)


class Frame:
    """What stands in the stack: its name, where that is declared, and the statement at which it stood."""

    def __init__(self, module, name, times=1):
        self.module, self.name, self.times, self.declared, self.place = module, name, times, None, None

    def line(self, has_places):
        return f"at {self.module.name} {self.name} {told(self.declared)} {told(self.place) if has_places else '-'}"


class Link:
    """How a body comes to the fault, or to what is inside it, and the ticks that this takes.

    `tokens` of a body are an expression for it, a number or nothing; `statement` writes a statement of its own; `prepare` writes what has
    to stand before."""

    def __init__(self, tokens=None, is_number=True, statement=None, prepare=None, ticks=0, is_base=False):
        self.tokens, self.is_number, self.statement, self.prepare = tokens, is_number, statement, prepare
        self.ticks, self.is_base = ticks, is_base


class Body:
    """Writes a body, and counts the ticks that are taken in it before it comes to the link."""

    def __init__(self, session, chunk, frame, link, has_result):
        self.session, self.rng, self.chunk, self.put = session, session.rng, chunk, chunk.put
        self.frame, self.link, self.has_result, self.ticks, self.has_x = frame, link, has_result, 0, True
        self.is_calm = False

    def name(self, letter):
        return self.session.name(letter)

    def stand(self):
        self.frame.place = self.chunk.here()

    # ---- what comes to no fault; each function answers its ticks

    def number(self):
        plain = [["1"], ["7", "%", "4"], ["-", "3"], ["2", "*", "(", "4", "-", "1", ")"]]
        return self.rng.choice(plain + ([["x"], ["x", "+", "2"], ["(", "x", "*", "3", ")"], ["int8", "(", "x", ")"]] if self.has_x else []))

    def holds(self):
        plain = [["true"], ["1", "<", "2"], ["!", "(", "2", "<", "1", ")"]]
        return self.rng.choice(plain + ([["x", "==", "x"], ["x", "!=", "x", "+", "1"]] if self.has_x else []))

    def fails(self):
        return self.rng.choice([["false"], ["2", "<", "1"], ["1", "!=", "1"], ["not", "true"]])

    def plain(self):
        form = self.rng.choice([0, 1, 3, 4, 5] if self.is_calm else range(9))
        if form == 0:
            self.put("x", self.rng.choice(["=", "+=", "-=", "^="]), *self.number(), ";")
        elif form == 1:
            self.put("int", self.name("v"), "=", *self.number(), ";")
        elif form == 2:
            self.put("id", "(", *self.number(), ")", ";")
        elif form == 3:
            self.put("note", "(", *self.number(), ",", *self.holds(), ")", ";")
        elif form == 4:
            self.put(";")
        elif form == 5:
            self.put("x", "++", ";")
        elif form == 6:
            self.put("Held", self.name("h"), "(", *self.number(), ")", ";")
        elif form == 7:
            self.put("const", "int", self.name("v"), "=", *self.number(), ",", self.name("w"), "=", "id", "(", "3", ")", ";")
        else:
            self.put("Held", "(", "2", ")", ".", "twice", "(", ")", ";")
        return [0, 0, 1, 0, 0, 0, 1, 1, 2][form]

    def quiet(self, depth=2):
        form = self.rng.randint(0, 12 if depth > 0 else 6)
        if form <= 6:
            return self.plain()
        if form <= 8:
            return self.quiet_if(depth)
        if form == 9:
            turns, name = self.rng.randint(0, 2), self.name("i")
            self.put("for", "(", "int", name, "=", "0", ";", name, "<", str(turns), ";", name, "++", ")")
            return turns + 1 + turns * self.branch(depth)
        if form == 10:
            self.put("while", "(", *self.holds(), ")", "{")
            ticks = self.quiets(depth)
            self.put("break", ";", "}")
            return 1 + ticks
        if form == 11:
            self.put("do")
            ticks = self.branch(depth)
            self.put("while", "(", *self.fails(), ")", ";")
            return 1 + ticks
        return self.branch(depth)

    def quiet_if(self, depth):
        is_taken = self.rng.random() < 0.5
        self.put("if", "(", *(self.holds() if is_taken else self.fails()), ")")
        first, second = self.branch(depth), 0
        if self.rng.random() < 0.5:
            self.put("else")
            second = self.branch(depth)
        return first if is_taken else second

    def quiets(self, depth):
        return sum(self.quiet(depth - 1) for _ in range(self.rng.randint(0, 2)))

    def branch(self, depth=2):
        self.put("{")
        ticks = self.quiets(depth)
        self.put("}")
        return ticks

    # ---- what comes to the link

    def reach(self):
        """An expression of a number that comes to it."""
        tokens = self.link.tokens(self)
        for _ in range(self.rng.choice([0, 0, 1, 2])):
            tokens, ticks = self.around(tokens)
            self.ticks += ticks
        return tokens

    def around(self, tokens):
        form = self.rng.randint(0, 10)
        return [
            (["3", "+", *tokens], 0),
            (["(", *tokens, ")", "*", "2"], 0),
            (["-", "(", *tokens, ")"], 0),
            (["(", *self.holds(), "?", *tokens, ":", "0", ")"], 0),
            (["(", *self.fails(), "?", "0", ":", *tokens, ")"], 0),
            (["id", "(", *tokens, ")"], 0),
            (["both", "(", *tokens, ",", "id", "(", "2", ")", ")"], 0),
            (["both", "(", "1", ",", *tokens, ")"], 0),
            (["int16", "(", *tokens, ")"], 0),
            (["id", "(", "1", ")", "-", "(", *tokens, ")"], 1),
            (["Held", "(", *tokens, ")", ".", "v"], 0),
        ][form]

    def test(self):
        """A condition that comes to it."""
        tokens = ["(", *self.reach(), ")", self.rng.choice(["<", ">", "==", "!="]), "1"]
        return self.rng.choice([tokens, [*self.holds(), "&&", *tokens], [*self.fails(), "||", *tokens], ["!", "(", *tokens, ")"]])

    def carry(self, depth):
        """A statement that comes to it."""
        if depth > 0 and self.rng.random() < 0.6:
            self.nest(depth)
        elif self.link.statement and (not self.link.tokens or self.rng.random() < 0.5):
            self.stand()
            self.link.statement(self)
        elif self.link.is_number:
            self.rng.choice([self.simple, self.declare, self.compound, self.loop, self.loop_head])()
        else:
            self.call_alone()

    def call_alone(self):
        form = self.rng.randint(0, 3)
        if form == 0:
            self.put("for", "(")
            self.stand()
            self.put(*self.link.tokens(self), ";", *self.fails(), ";", ")")
            self.branch()
        elif form == 1:
            self.stand()
            self.put("for", "(", ";", *self.holds(), ";", *self.link.tokens(self), ")")
            self.ticks += 1 + self.branch()
        else:
            self.stand()
            self.put(*self.link.tokens(self), ";")

    def simple(self):
        self.stand()
        form = self.rng.randint(0, 5 if self.has_result else 3)
        if form == 0:
            self.put("x", self.rng.choice(["=", "+=", "*=", "|="]), *self.reach(), ";")
        elif form == 1:
            self.put("Held", "(", "1", ")", ".", "v", self.rng.choice(["=", "+=", "^="]), *self.reach(), ";")
        elif form <= 3:
            self.put(*self.reach(), ";")
        else:
            self.put("return", *self.reach(), ";")

    def declare(self):
        self.stand()
        form, name = self.rng.randint(0, 4), self.name("v")
        if form == 0:
            self.put(*self.rng.choice([["int"], ["const", "int"], ["int64"], ["uint8"]]), name, "=", *self.reach(), ";")
        elif form == 1:
            self.put("int", name, "=", *self.number(), ",", self.name("w"), "=", *self.reach(), ",", self.name("w"), "=", "2", ";")
        elif form == 2:
            self.put("bool", name, "=", *self.test(), ";")
        elif form == 3:
            self.put("Held", name, "(", *self.reach(), ")", ";")
        else:
            self.ticks += 1
            self.put("Held", name, "(", "1", ")", ",", self.name("w"), "(", *self.reach(), ")", ";")

    def compound(self):
        self.stand()
        self.put("if", "(", *self.test(), ")")
        self.branch()
        if self.rng.random() < 0.5:
            self.put("else")
            self.branch()

    def loop(self):
        self.stand()
        self.ticks += 1
        if self.rng.random() < 0.5:
            self.put("while", "(", *self.test(), ")")
            self.branch()
        else:
            self.put("do")
            self.ticks += self.branch()
            self.put("while", "(", *self.test(), ")", ";")

    def loop_head(self):
        """In what a `for` starts with, a statement of its own; or in its condition, or its step, which are of the `for`."""
        form, name = self.rng.randint(0, 2), self.name("i")
        place = self.chunk.here()
        self.put("for", "(")
        self.frame.place = self.chunk.here() if form == 0 else place
        if form == 0:
            self.put(*self.rng.choice([["int", name, "="], ["x", "="]]), *self.reach(), ";", *self.holds(), ";", ")")
            self.branch()
        elif form == 1:
            self.put(*self.rng.choice([["int", name, "=", "0"], ["x", "=", "0"], []]), ";", *self.test(), ";", "x", "++", ")")
            self.ticks += 1
            self.branch()
        else:
            self.put("int", name, "=", "0", ";", name, "<", "2", ";", *self.rng.choice([[], [name, "++", ","]]))
            self.put("x", self.rng.choice(["+=", "="]), *self.reach(), *self.rng.choice([[], [",", name, "++"]]), ")")
            self.ticks += 1 + self.branch()

    # ---- statements around the one that comes to it

    def nest(self, depth):
        self.rng.choice([self.inside, self.in_if, self.in_else, self.in_loop, self.in_for, self.in_later_turn])(depth)

    def inside(self, depth):
        self.put("{")
        self.ticks += self.quiets(2)
        self.carry(depth - 1)
        self.quiets(2)
        self.put("}")

    def in_if(self, depth):
        self.put("if", "(", *self.holds(), ")")
        self.inside(depth)
        if self.rng.random() < 0.5:
            self.put("else")
            self.branch()

    def in_else(self, depth):
        self.put("if", "(", *self.fails(), ")")
        self.branch()
        self.put("else")
        self.rng.choice([self.inside, lambda depth: self.carry(depth - 1)])(depth)

    def in_loop(self, depth):
        if self.rng.random() < 0.5:
            self.put("while", "(", *self.holds(), ")")
            self.ticks += 1
            self.inside(depth)
        else:
            self.put("do")
            self.inside(depth)
            self.put("while", "(", *self.holds(), ")", ";")

    def in_for(self, depth):
        self.put("for", "(", ";", *self.rng.choice([[], self.holds()]), ";", ")")
        self.ticks += 1
        self.rng.choice([self.inside, lambda depth: self.carry(depth - 1)])(depth)

    def in_later_turn(self, depth):
        turn, name = self.rng.randint(0, 2), self.name("i")
        self.put("for", "(", "int", name, "=", "0", ";", name, "<", "3", ";", name, "++", ")", "{")
        before = self.quiet(1)
        self.put("if", "(", name, "==", str(turn), ")")
        self.inside(depth)
        after = self.quiet(1)
        self.put("}")
        self.ticks += turn + 1 + (turn + 1) * before + turn * after

    def whole(self):
        """What stands between the braces. Answers the ticks from the entry on."""
        self.ticks += 1
        if self.link.is_base:
            self.link.statement(self)
        else:
            self.ticks += self.quiets(2)
            if self.link.prepare:
                self.link.prepare(self)
            self.ticks += self.quiets(2)
            self.carry(self.rng.randint(0, 3))
        self.quiets(2)
        if self.has_result:
            self.put("return", "1", ";")
        return self.ticks + self.link.ticks


class Session:
    """A session with one fault, its outcome and the frames, the innermost first."""

    def __init__(self, rng):
        self.rng, self.count, self.frames, self.binds, self.budget = rng, 0, [], [], None
        self.modules = [Module(rng, name) for name in ("a", "b")]
        self.module = self.modules[0]
        self.is_build = rng.random() < 0.2
        if not self.is_build and rng.random() < 0.3:
            self.module = self.modules[1]
        link = self.leaf()
        for _ in range(rng.choice([0, 1, 1, 2, 2, 3, 4, 5, 8])):
            link = self.outer(link)
        self.ticks = self.begin(link)
        self.deepen()

    def name(self, letter):
        self.count += 1
        return f"{letter}{self.count}"

    def push(self, name, times=1):
        frame = Frame(self.module, name, times)
        self.frames.append(frame)
        return frame

    # ---- faults

    def leaf(self):
        kinds = [self.zero, self.zero, self.least, self.null, self.null, self.unbound, self.host, self.tick_of_call, self.tick_of_loop, self.depth]
        return self.rng.choice(kinds)()

    def zero(self):
        self.fault = "DivideByZero"

        def statement(body):
            body.put("x", body.rng.choice(["/=", "%="]), "0", ";")

        def tokens(body):
            zero = body.rng.choice([["0"], ["(", "1", "-", "1", ")"], ["id", "(", "0", ")"]])
            body.ticks += len(zero) == 4
            kind = body.rng.choice([[], [], ["int64"], ["uint"]])
            return ["(", *kind, "(", *body.number(), ")", body.rng.choice(["/", "%"]), *kind, "(", *zero, ")", ")"]

        return Link(tokens, statement=statement)

    def least(self):
        self.fault = "DivideOverflow"
        return Link(lambda body: ["(", "(", "-", "2147483647", "-", "1", ")", body.rng.choice(["/", "%"]), "(", "0", "-", "1", ")", ")"])

    def null(self):
        self.fault = "Null"
        name = self.name("n")

        def tokens(body):
            return body.rng.choice([[name, ".", "v"], [name, ".", "twice", "(", ")"], ["held", "(", name, ")"], [name, ".", "v", "++"]])

        def statement(body):
            body.put(name, ".", "v", body.rng.choice(["=", "+="]), *body.number(), ";")

        return Link(tokens, statement=statement, prepare=lambda body: body.put("Held", "@", name, ";"))

    def unbound(self):
        self.fault = "Unbound"
        name = self.name("u")
        self.module.imported(name, "c")
        return Link(lambda body: [name, "(", *body.number(), ")"])

    def host(self):
        number = self.rng.randint(0, 9)
        self.fault = f"Host {number}"
        return Link(lambda body: ["fail", "(", str(number), ")"], is_number=False)

    def tick_of_call(self):
        self.fault, self.budget = "Budget", 0
        return Link(lambda body: ["id", "(", *body.number(), ")"])

    def tick_of_loop(self):
        self.fault, self.budget = "Budget", self.rng.randint(0, 20)

        def statement(body):
            form = body.rng.randint(0, 2)
            if form == 0:
                body.put("while", "(", *body.holds(), ")", *body.rng.choice([[";"], ["{", "}"], ["{", "x", "++", ";", "}"]]))
            elif form == 1:
                body.put("for", "(", ";", *body.rng.choice([[], body.holds()]), ";", *body.rng.choice([[], ["x", "++"]]), ")", "{", "}")
            else:
                body.put("do", "x", "--", ";", "while", "(", *body.holds(), ")", ";")

        return Link(statement=statement)

    def depth(self):
        """One that calls itself and nothing else; or something else first, and then the last of them stands there."""
        self.fault = "Depth"
        name, chunk = self.name("r"), self.module.chunk()
        last = self.push(name) if self.rng.random() < 0.5 else None
        self.deep = self.push(name, 0)
        link = Link(lambda body: [name, "(", *body.number(), ")"])
        chunk.put("int")
        self.deep.declared = chunk.here()
        chunk.put(name, "(", "int", "x", ")", "{")
        body = Body(self, chunk, self.deep, link, True)
        body.is_calm = True
        if last:
            last.declared, last.place = self.deep.declared, chunk.here()
            chunk.put(*self.rng.choice([["id", "(", "x", ")", ";"], ["Held", self.name("h"), "(", "x", ")", ";"], ["int", self.name("v"), "=", "id", "(", "2", ")", ";"]]))
        body.whole()
        chunk.put("}")
        return link

    def deepen(self):
        """How often the one that calls itself stands there: as often as may be."""
        if self.fault == "Depth":
            others = sum(frame.times for frame in self.frames if not frame.name.startswith("global "))
            self.deep.times = MOST_INSIDE - others

    # ---- what stands around them

    def outer(self, link):
        kinds = [self.called, self.called, self.called_void, self.method, self.method, self.constructor, self.based]
        if not self.is_build and self.module is self.modules[1]:
            kinds += [self.over_modules] * 2
        return self.rng.choice(kinds)(link)

    def function(self, chunk, frame, name, link, has_result, word=None):
        """Writes a function, a method or a constructor from its type on. Answers the ticks of its call."""
        if word is None:
            chunk.put("int" if has_result else "void")
        frame.declared = chunk.here()
        chunk.put(name, "(", "int", "x", ")", "{")
        ticks = Body(self, chunk, frame, link, has_result).whole()
        chunk.put("}")
        return ticks

    def called(self, link, has_result=True):
        name = self.name("f")
        ticks = self.function(self.module.chunk(), self.push(name), name, link, has_result)
        return Link(lambda body: [name, "(", *body.number(), ")"], is_number=has_result, ticks=ticks)

    def called_void(self, link):
        return self.called(link, False)

    def over_modules(self, link):
        target, name = self.called(link), self.name("m")
        exported = self.frames[-1].name
        source, self.module = self.module, self.modules[0]
        self.module.imported(name, source.name)
        self.binds.append((name, source.name, exported))
        return Link(lambda body: [name, "(", *body.number(), ")"], ticks=target.ticks)

    def method(self, link):
        """A method, of a class, or in the place of one of a base class or an interface, or inherited."""
        form, has_result = self.rng.randint(0, 3), self.rng.random() < 0.7
        owner, other, name, held = self.name("K"), self.name("B"), self.name("m"), self.name("o")
        kind = "int" if has_result else "void"
        chunk = self.module.chunk()
        if form == 1:
            chunk.put("class", other, "{", kind, name, "(", "int", "x", ")", "{", *(["return", "x", ";"] if has_result else []), "}", "}")
        if form == 2:
            chunk.put("interface", other, "{", kind, name, "(", "int", "x", ")", ";", "}")
        chunk.put("class", owner, *([":", other] if form in (1, 2) else []), "{", "int", self.name("v"), ";")
        ticks = self.function(chunk, self.push(f"{owner}::{name}"), name, link, has_result)
        chunk.put("}")
        if form == 3:
            chunk.put("class", other, ":", owner, "{", "int", self.name("v"), ";", "}")
        made = other if form == 3 else owner
        seen = other if form in (1, 2) else made
        return self.method_link(made, seen, held, name, has_result, ticks)

    def method_link(self, made, seen, held, name, has_result, ticks):
        if made == seen and (self.is_build or self.rng.random() < 0.5):
            return Link(lambda body: [made, "(", ")", ".", name, "(", *body.number(), ")"], is_number=has_result, ticks=ticks)
        if made == seen and self.rng.random() < 0.5:
            def prepare(body):
                body.put(made, held, ";")
        else:
            def prepare(body):
                body.put(seen, "@", held, "=", made, "(", ")", ";")
        return Link(lambda body: [held, ".", name, "(", *body.number(), ")"], is_number=has_result, prepare=prepare, ticks=ticks)

    def constructor_link(self, owner, held, is_bare, ticks):
        """How an object is made, whose constructor takes no number where it is bare."""

        def arguments(body):
            return [] if is_bare else body.number()

        def statement(body):
            form = body.rng.randint(0, 2)
            if form == 0:
                body.put(owner, held, *([] if is_bare else ["(", *arguments(body), ")"]), ";")
            elif form == 1:
                body.put(owner, "@", held, "=", owner, "(", *arguments(body), ")", ";")
            else:
                body.put(owner, "(", *arguments(body), ")", ";")

        return Link(lambda body: [owner, "(", *arguments(body), ")", ".", "v"], statement=statement, ticks=ticks)

    def constructor(self, link):
        owner, held, chunk = self.name("C"), self.name("o"), self.module.chunk()
        chunk.put("class", owner, "{", "int", "v", ";")
        ticks = self.function(chunk, self.push(f"{owner}::{owner}"), owner, link, False, "")
        chunk.put("}")
        return self.constructor_link(owner, held, False, ticks)

    def based(self, link):
        """A base class's constructor: called by `super`, or where none is written, or where no constructor is; or the argument of `super`."""
        form = self.rng.randint(0, 3)
        owner, held, chunk = self.name("D"), self.name("o"), self.module.chunk()
        if form == 3 and link.tokens and link.is_number and not link.prepare:
            base = "Held"

            def statement(body):
                body.stand()
                body.put("super", "(", *body.reach(), ")", ";")

            inner = Link(statement=statement, is_base=True, ticks=link.ticks, tokens=link.tokens)
        else:
            base, is_bare = self.name("B"), form != 0
            chunk.put("class", base, "{", "int", "v", ";")
            frame = self.push(f"{base}::{base}")
            frame.declared = chunk.here()
            chunk.put(base, "(", *([] if is_bare else ["int", "x"]), ")", "{", *(["int", "x", "=", "2", ";"] if is_bare else []))
            ticks = Body(self, chunk, frame, link, False).whole()
            chunk.put("}", "}")
            if form == 1:
                chunk.put("class", owner, ":", base, "{", "}")
                return self.constructor_link(owner, held, True, ticks)

            def statement(body):
                if is_bare and form == 2 and body.rng.random() < 0.7:
                    body.frame.place = body.frame.declared
                else:
                    body.stand()
                    body.put("super", "(", *([] if is_bare else body.number()), ")", ";")

            inner = Link(statement=statement, is_base=True, ticks=ticks)
        chunk.put("class", owner, ":", base, "{", "int", self.name("w"), ";")
        ticks = self.function(chunk, self.push(f"{owner}::{owner}"), owner, inner, False, "")
        chunk.put("}")
        return self.constructor_link(owner, held, False, ticks)

    # ---- the whole

    def begin(self, link):
        """The outermost: a function that is called, or a global whose initializer the build runs."""
        if self.module is self.modules[1]:
            link = self.over_modules(link)
        if not self.is_build:
            self.has_result = self.rng.random() < 0.7
            return self.called(link, self.has_result).ticks
        if link.prepare or not link.tokens or not link.is_number or (self.budget is not None and link.ticks == 0):
            link = self.called(link)
        name, chunk = self.name("g"), self.module.chunk()
        frame = self.push(f"global {name}")
        body = Body(self, chunk, frame, link, True)
        body.has_x = False
        for _ in range(self.rng.randint(0, 2)):  # these have no initializer, so no body
            chunk.put("int", self.name("g"), ";")
        form = self.rng.randint(0, 3)
        chunk.put(*[["int"], ["const", "int", self.name("g"), "=", "1", ","], ["Held"], ["Held", "@"]][form])
        frame.declared = chunk.here()
        tokens = body.reach()
        chunk.put(name, *[["=", *tokens], ["=", *tokens], ["(", *tokens, ")"], ["=", "Held", "(", *tokens, ")"]][form], ";")
        return body.ticks + link.ticks

    def lines(self):
        """The commands."""
        text = ""
        for module in self.modules:
            text += f"module {module.name} 00000001\n" + module.write()
            if module is self.modules[0] and self.is_build:
                text += self.budget_line()
            text += f"build {module.name}\n"
        if self.is_build:
            return text
        for name, source, exported in self.binds:
            text += f"bind a {self.modules[0].import_number(name)} {source} int {exported}(int)\n"
        kind, outermost = "int" if self.has_result else "void", self.frames[-1].name
        text += f"call a (4) int fine(int)\n{self.budget_line()}call a (5) {kind} {outermost}(int)\n"
        return text + "budget 1000\ncall a (6) int fine(int)\n"

    def budget_line(self):
        return "" if self.budget is None else f"budget {self.ticks + self.budget}\n"

    def outcome(self):
        return f"refused InitFailed {self.fault}" if self.is_build else f"fault {self.fault}"

    def trace(self, has_places):
        return [line for frame in self.frames for line in [frame.line(has_places)] * frame.times]


def printed(program, folder, *flags):
    command = [program, "--profile", f"{folder}/profile", "--session", f"{folder}/session", *flags]
    run = subprocess.run(command, capture_output=True, timeout=60)
    return run.returncode, run.stdout.decode().splitlines(), run.stderr


def wrong(program, folder, session, has_places):
    """What is otherwise than it has to be, if anything is."""
    status, lines, error = printed(program, folder, "--trace")
    plain_status, plain, plain_error = printed(program, folder)
    wanted = session.trace(has_places)
    if (status, [line for line in lines if not line.startswith("at ")], error) != (plain_status, plain, plain_error):
        return f"without --trace: status {plain_status} for {status}", plain, lines
    places = [number for number, line in enumerate(lines) if line.startswith(("fault ", "refused "))]
    if [lines[number] for number in places] != [session.outcome()]:
        return f"the outcome is not '{session.outcome()}'", [session.outcome()], lines
    first = places[0] + 1
    if lines[first : first + len(wanted)] != wanted or sum(line.startswith("at ") for line in lines) != len(wanted):
        return "the trace", wanted, [line for line in lines if line.startswith("at ")]
    return None


def main():
    program = os.path.abspath(sys.argv[1]) if len(sys.argv) > 1 else sys.exit(__doc__)
    count = int(sys.argv[2]) if len(sys.argv) > 2 else 1000
    seed = int(sys.argv[3]) if len(sys.argv) > 3 else 1
    has_places = len(sys.argv) <= 4 or sys.argv[4] != "none"
    bad, faults, frames = 0, collections.Counter(), 0
    with tempfile.TemporaryDirectory() as folder:
        with open(f"{folder}/profile", "w") as file:
            file.write(PROFILE)
        for number in range(count):
            session = Session(random.Random(f"{seed} {number}"))
            text = session.lines()
            with open(f"{folder}/session", "wb") as file:
                file.write(text.encode())
            found = wrong(program, folder, session, has_places)
            faults[session.outcome().split()[-2 if "Host" in session.outcome() else -1]] += 1
            frames += len(session.trace(has_places))
            if found:
                bad += 1
                if bad <= SHOWN:
                    what, wanted, got = found
                    print(f"session {number}: {what}", "wanted:", *wanted[:12], "printed:", *got[-24:], "of", text, sep="\n")
    print(f"{count} sessions, {frames} lines of traces, faults: {', '.join(f'{n} {name}' for name, n in sorted(faults.items()))}")
    print(f"{bad} differ")
    return 1 if bad else 0


if __name__ == "__main__":
    sys.exit(main())
