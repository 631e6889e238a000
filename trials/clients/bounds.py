#!/usr/bin/env python3
"""Random scripts under random limits: what asremote says is what docs/HOST.md, "Limits", makes of them.

    trials/clients/bounds.py ASREMOTE [NUMBER [FIRST]]

Each script makes objects of its classes and of the host, in globals, blocks, constructors, initializers and through an
import, and lets them go; the host answers wrongly at times. Between its calls limits are set, mostly to what is held or
little above. A model that counts events, objects, ticks and slots, those that one tick makes by themselves too, says what
is asked, each line of each reply, and what `used` tells; after the modules are discarded nothing is held. Prints the
first lines that differ. The status is 0 where none do.
"""

import random
import subprocess
import sys
import tempfile
from collections import Counter

NONE = 2**63 - 1
PROFILE = """\
function 0 0 void say(int)
global 0 0 int64 reg
type Thing 1
factory Thing 0 Thing@ f(int)
method Thing 1 int poke(int)
"""
CLASSES = """\
class A { int64 x, y, z; }
class P { Thing@ t; A@ a; P(int n) { @t = Thing(n); @a = A(); } }
class R { Thing@ t; A@ a; R(int n) { @t = Thing(n); @a = A(); } }
class Q : P { R@ r; bool b; Q(int n) { super(n); @r = R(n); } }
"""
SLOTS = {"A": 4, "P": 3, "R": 3, "Q": 5}
# The constructors that run for an object of each class: its own, and with `super` that of the class below.
CONSTRUCTORS = {"P": 1, "R": 1, "Q": 2}
TYPES = {"t": "Thing", "a": "A", "p": "P", "q": "Q"}
GLOBALS = [f"{kind}{n}" for n in range(3) for kind in TYPES]
# What the host answers to a factory, by its argument: with a number from 1 on, an object.
ANSWERS = {-1: "nothing", -2: "fault 5", -3: "memory", -4: "void", -5: "x" * 70}
SHOWN = {-4: "fault 4294967284", -5: "fault 4294967283"}
FAULTS = {-1: "NoObject", -2: "Host 5", -3: "Memory", -4: "Host 4294967284", -5: "Host 4294967283"}


class Fault(Exception):
    """What a run ends with."""


class Held:
    """An object: of the host, with its key, or of a class, with its slots and its fields."""

    def __init__(self, key=0, slots=0):
        self.key, self.slots, self.fields, self.places = key, slots, {}, 1


class Model:
    """The limits, what is held, and what a command asks and lists."""

    def __init__(self):
        self.limits = {"events": NONE, "slots": NONE, "objects": NONE}
        self.slots = self.objects = self.keys = self.register = 0
        self.globals = {"a": {}, "b": {}}
        self.begin("a")

    def begin(self, module):
        self.module, self.events, self.asks = module, [], []
        self.ticks = self.made = 0  # of this command, and the slots that were made since its last tick

    def tick(self):
        self.ticks, self.made = self.ticks + 1, 0

    def room(self, events):
        if len(self.events) + self.objects + events > self.limits["events"]:
            raise Fault("Memory")

    def ask(self, ask, answer, entry, driver, held, value, shown=None):
        self.asks.append((f"ask {driver} {ask} {held} ({value})", answer))
        self.events.append(f"host {self.module} {entry} {driver} {held} ({value}) {shown or answer}")

    def say(self, value):
        self.room(1)
        self.ask("call 0", "void", 0, 0, "-", value)

    def increase(self):
        self.room(1)
        self.ask("read 0", str(self.register), 1, 0, "-", "")
        self.room(1)
        self.register += 1
        self.ask("write 0", "void", 1, 0, "-", self.register)

    def poke(self, held, value):
        if held is None:
            raise Fault("Null")
        self.room(1)
        self.ask("call 1", str(value), 4, 1, f"#{held.key}", value)

    def thing(self, number):
        if self.objects + 1 > self.limits["objects"]:
            raise Fault("Memory")
        self.room(2)
        if number < 0:
            self.ask("make 0", ANSWERS[number], 3, 1, "-", number, SHOWN.get(number))
            raise Fault(FAULTS[number])
        self.keys += 1
        self.ask("make 0", f"made #{self.keys}", 3, 1, "-", number)
        self.objects += 1
        return Held(key=self.keys)

    def new(self, name, number):
        """An object of a class or of the host. One whose constructor faults is given up."""
        if name == "Thing":
            return self.thing(number)
        if max(self.slots, self.made) + SLOTS[name] > self.limits["slots"]:
            raise Fault("Memory")
        self.slots += SLOTS[name]
        self.made += SLOTS[name]
        held = Held(slots=SLOTS[name])
        fields = {"P": ["Thing", "A"], "R": ["Thing", "A"], "Q": ["Thing", "A", "R"]}.get(name, [])
        for _ in range(CONSTRUCTORS.get(name, 0)):
            self.tick()
        try:
            for field in fields:
                held.fields[field] = self.new(field, number)
        except Fault:
            self.give_up(held)
            raise
        return held

    def give_up(self, held):
        if held is None:
            return
        held.places -= 1
        if held.places == 0 and held.key:
            self.objects -= 1
            self.events.append(f"end 1 #{held.key}")
        elif held.places == 0:
            self.slots -= held.slots
            for field in held.fields.values():
                self.give_up(field)

    def put(self, name, held):
        places = self.globals[self.module]
        old, places[name] = places.get(name), held
        self.give_up(old)

    def give_up_globals(self, module):
        places = self.globals[module]
        for name in reversed(list(places)):
            self.give_up(places.pop(name))

    def block(self, number, statements):
        held = self.thing(number)
        try:
            self.run(statements)
        finally:
            self.give_up(held)

    def call(self, statements):
        self.tick()
        self.run(statements)

    def far(self):
        caller, self.module = self.module, "b"
        try:
            self.call(FAR)
        finally:
            self.module = caller

    def run(self, statements):
        for word, *rest in statements:
            if word == "make":
                self.put(rest[0], self.new(TYPES[rest[0][0]], rest[1]))
            elif word == "copy":
                held = self.globals[self.module][rest[1]]
                if held:
                    held.places += 1
                self.put(rest[0], held)
            elif word == "forget":
                self.put(rest[0], None)
            elif word == "loop":
                self.tick()
                for _ in range(rest[0]):
                    self.run(rest[1])
                    self.tick()
            elif word == "poke":
                self.poke(self.globals[self.module][rest[0]], rest[1])
            elif word == "drop":
                self.give_up(self.new(*rest))
            else:
                getattr(self, word)(*rest)


# ---- the scripts

FAR = [("make", "t0", 9), ("block", 2, [("make", "q0", 2), ("say", 5)]), ("make", "a0", 0)]


def made(name, number):
    return f"{name}({'' if name == 'A' else number})"


def text(statement, depth=0):
    """A statement of the script."""
    word, *rest = statement
    if word in ("block", "loop"):
        inner = " ".join(text(it, depth + 1) for it in rest[1])
        i = f"i{depth}"
        head = f"for (int {i} = 0; {i} < {rest[0]}; {i}++) {{" if word == "loop" else f"{{ Thing l{depth}({rest[0]});"
        return f"{head} {inner} }}"
    return {
        "make": lambda: f"@{rest[0]} = {made(TYPES[rest[0][0]], rest[1])};",
        "copy": lambda: f"@{rest[0]} = {rest[1]};",
        "forget": lambda: f"@{rest[0]} = null;",
        "poke": lambda: f"{rest[0]}.poke({rest[1]});",
        "drop": lambda: f"{made(*rest)};",
        "say": lambda: f"say({rest[0]});",
        "increase": lambda: "reg += 1;",
        "far": lambda: "far();",
    }[word]()


def statement(some, depth=0):
    """A random statement."""
    words = ["say", "increase", "make", "make", "make", "make", "copy", "forget", "poke", "drop", "block", "loop", "far"]
    word, name = some.choice(words if depth < 3 else words[:-3]), some.choice(GLOBALS)
    number = some.randrange(1, 5) if some.random() < 0.93 else some.randrange(-5, 0)
    rest = {
        "say": lambda: [some.choice([0, 1, -2147483647, 2147483647])],
        "make": lambda: [name, number],
        "copy": lambda: [name, some.choice([it for it in GLOBALS if it[0] == name[0]])],
        "forget": lambda: [name],
        "poke": lambda: ["t" + name[1], number],
        "drop": lambda: [some.choice(list(TYPES.values())), number],
        "block": lambda: [number, statements(some, 3, depth + 1)],
        "loop": lambda: [some.choice([1, 2, 5]), statements(some, 3, depth + 1)],
    }
    return (word, *rest.get(word, list)())


def statements(some, most, depth=0):
    return [statement(some, depth) for _ in range(some.randrange(1, most + 1))]


def script(initializers, functions, imported=""):
    declared = "".join(f"{TYPES[it[0]]}@ {it};\n" for it in GLOBALS)
    for number, (kind, argument) in enumerate(initializers):
        declared += f"{TYPES[kind]}@ i{number} = {made(TYPES[kind], argument)};\n"
    bodies = (f"void {name}() {{ {' '.join(map(text, body))} }}\n" for name, body in functions.items())
    return CLASSES + declared + imported + "".join(bodies)


# ---- the conversation


class Differs(Exception):
    """asremote says something else than the model."""


class Talk:
    """A conversation of which the model knows what is asked and what is replied."""

    def __init__(self, program):
        with tempfile.NamedTemporaryFile("w") as profile:
            profile.write(PROFILE)
            profile.flush()
            words = [program, "--profile", profile.name, "--drivers", "2"]
            self.process = subprocess.Popen(words, stdin=subprocess.PIPE, stdout=subprocess.PIPE, text=True)
            self.say("", [])

    def line(self):
        return self.process.stdout.readline().rstrip("\n")

    def say(self, command, reply, asks=()):
        self.process.stdin.write(command and command + "\n")
        self.process.stdin.flush()
        for ask, answer in asks:
            self.wants(command, ask)
            self.process.stdin.write(answer + "\n")
            self.process.stdin.flush()
        for line in [*reply, "done"]:
            self.wants(command, line)

    def used(self, ticks, slots, objects):
        """Asks what is used."""
        self.say("used", [f"ticks {ticks}", f"slots {slots}", f"objects {objects}", "ok"])

    def wants(self, command, wanted):
        said = self.line()
        if said != wanted:
            raise Differs(f"{command[:2000]}\n  says   {said}\n  wanted {wanted}")


class Trial:
    """One script, and what is done with it."""

    def __init__(self, program, number):
        self.some, self.model, self.talk, self.ends = random.Random(number), Model(), Talk(program), Counter()
        self.functions = {f"f{n}": statements(self.some, 6) for n in range(6)}
        self.is_built = False

    def told(self, command, outcome):
        """Says a command of which the model knows the events."""
        self.ends[outcome] += 1
        self.talk.say(command, [*self.model.events, outcome], self.model.asks)
        self.talk.used(self.model.ticks, self.model.slots, self.model.objects)

    def build(self, name, initializers, functions, imported=""):
        model, outcome = self.model, "ok"
        whole = script(initializers, functions, imported)
        self.talk.say(f"section {name} {whole.count(chr(10))}\n{whole[:-1]}", ["ok"])
        model.begin(name)
        model.give_up_globals(name)
        model.globals[name] = dict.fromkeys(GLOBALS)
        try:
            for number, (kind, argument) in enumerate(initializers):
                model.globals[name][f"i{number}"] = model.new(TYPES[kind], argument)
        except Fault as fault:
            model.give_up_globals(name)
            outcome = f"refused InitFailed {fault}"
        self.told(f"build {name}", outcome)
        return outcome == "ok"

    def build_both(self):
        some = self.some
        initializers = [(some.choice("tapq"), some.choice([1, 2, 3, 4, -1, -3])) for _ in range(some.randrange(3))]
        self.build("b", [], {"far": FAR})
        self.is_built = self.build("a", initializers, self.functions, 'import void far() from "b";\n')
        if self.is_built:
            self.talk.say("bind a 0 b void far()", ["ok"])

    def set_limits(self):
        some, model = self.some, self.model
        least = {"events": model.objects, "slots": model.slots, "objects": model.objects}
        for name in model.limits:
            if some.random() < 0.5:
                near = max(0, least[name] + some.randrange(-1, 9))
                most = some.choice([near, near, near, 0, 1, 2**31, 2**32, NONE, NONE])
                model.limits[name] = most
                self.talk.say(f"limit {name} {some.choice([most, f'{most:019d}'])}", ["ok"])

    def call(self):
        name = self.some.choice(list(self.functions))
        self.model.begin("a")
        outcome = "ok"
        try:
            self.model.call(self.functions[name])
        except Fault as fault:
            outcome = f"fault {fault}"
        self.told(f"call a () void {name}()", outcome)

    def run(self):
        for name in "ab":
            self.talk.say(f"module {name} 00000001", ["ok"])
        for _ in range(25):
            if self.some.random() < 0.5:
                self.set_limits()
            if not self.is_built or self.some.random() < 0.1:
                self.build_both()
            if self.is_built:
                self.call()
        for name in "ab":
            self.model.begin(name)
            self.model.give_up_globals(name)
            self.told(f"discard {name}", "ok")
        self.talk.used(0, 0, 0)


def main():
    program, *numbers = sys.argv[1:]
    count, first = [*map(int, numbers), *(300, 0)[len(numbers) :]]
    ends, bad = Counter(), 0
    for number in range(first, first + count):
        trial = Trial(program, number)
        try:
            trial.run()
        except Differs as differs:
            bad += 1
            print(f"script {number}: {differs}")
        ends += trial.ends
        trial.talk.process.communicate()
    print(f"{count} scripts, {sum(ends.values())} commands, {ends['fault Memory']} faults of want of memory, {bad} differ")
    sys.exit(bad > 0)


main()
