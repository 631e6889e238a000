"""Random classes and interfaces: what stands above what, fields, methods and constructors, all without their bodies."""
import collections, random

HOSTS = ["Counter", "Cell"]
NUMBERS = ["int", "int64"]
# random_classes.py says what these are
KINDS = ["ordered", "ordered", "grouped", "grouped", "collected"]


class Method(collections.namedtuple("Method", "name rank parameters result const access owner")):
    def key(self):
        """What a method that stands for it has too."""
        return self.name, self.parameters, self.const


class Class:
    """A class or an interface of a script. Its fields are of a name, a type and an access."""

    def __init__(self, at, name, bases, interface=False, final=False):
        self.at, self.name, self.bases, self.interface, self.final = at, name, bases, interface, final
        self.fields, self.methods, self.makers = [], [], []

    def above(self):
        """It and all that stands above it."""
        return [self] + [c for base in self.bases for c in base.above()]

    def line(self):
        """It and the classes that it inherits from, or of an interface all that stands above it."""
        return [c for c in self.above() if self.interface or not c.interface]

    def callable(self):
        """The nearest method of each name, parameters and const."""
        found = {}
        for c in self.line():
            for m in c.methods:
                found.setdefault(m.key(), m)
        return list(found.values())


def is_handle(type):
    """Whether what has the type is a handle: types of objects go by their names."""
    return type not in NUMBERS + ["bool", "void"]


def spelled(type):
    return f"{type}@" if is_handle(type) else type


def apart(some, others):
    """Whether no arguments fit both lists of parameters: they differ in length, or in a number and a bool at one place."""
    if len(some) != len(others):
        return True
    return any("bool" in (a, b) and (a in NUMBERS or b in NUMBERS) for a, b in zip(some, others))


class Plan:
    """The classes of one random script. An interface is one of them."""

    def __init__(self, seed):
        self.random = random.Random(seed)
        self.kind = self.random.choice(KINDS)
        self.names = 0
        self.plan_classes()
        self.plan_fields()
        self.plan_methods()

    def name(self, letter):
        self.names += 1
        return f"{letter}{self.names}"

    def pick(self, *choices):
        return self.random.choice(choices)

    def often(self, part):
        return self.random.random() < part

    def plan_classes(self):
        self.classes = []
        for at in range(self.random.randrange(4)):
            bases = [c for c in self.classes if self.often(0.3)]
            self.classes.append(Class(at, f"I{at}", bases, interface=True))
        interfaces, depth = list(self.classes), {}
        for at in range(len(interfaces), len(interfaces) + self.random.randrange(3, 7)):
            found = [c for c in self.classes if not c.interface and not c.final and depth[c] < 4]
            base = [self.random.choice(found)] if found and self.often(0.65) else []
            made = Class(at, f"A{at}", base + [i for i in interfaces if self.often(0.3)], final=self.often(0.2))
            depth[made] = depth[base[0]] + 1 if base else 1
            self.classes.append(made)
        self.of_name = {c.name: c for c in self.classes}

    def is_a(self, type, wanted):
        """Whether a handle to the type converts to the wanted type."""
        return type == wanted or type in self.of_name and wanted in [c.name for c in self.of_name[type].above()]

    def reached(self, c, seen):
        """All classes that a class reaches by its fields, and by those of all that they can lead to."""
        for field in [f for above in c.line() for f in above.fields]:
            for d in self.classes:
                if self.is_a(d.name, field[1]) and d not in seen:
                    seen.add(d)
                    self.reached(d, seen)
        return seen

    def plan_fields(self):
        for c in [c for c in self.classes if not c.interface]:
            for _ in range(self.random.randrange(1, 5)):
                type = self.pick("int", "int64", "bool", *HOSTS, *[d.name for d in self.classes])
                c.fields.append((self.name("x"), type, self.pick("", "", "private", "protected")))
                if not self.fields_are_right():
                    c.fields.pop()

    def fields_are_right(self):
        """Whether no class reaches itself, and fields lead where the kind of the script allows it."""
        for c in self.classes:
            handles = [f[1] for d in c.line() for f in d.fields if is_handle(f[1])]
            led = [self.of_name[t] for t in handles if t in self.of_name]
            if c in self.reached(c, set()) or self.kind == "ordered" and len(handles) > 1:
                return False
            if self.kind != "collected" and any(not d.final or self.leads_on(d) for d in led):
                return False
        return True

    def leads_on(self, c):
        return any(f[1] in self.of_name for d in c.line() for f in d.fields)

    def signature(self):
        """Types of parameters."""
        types = [self.pick("int", "int64", "bool", *HOSTS, *self.of_name) for _ in range(self.random.randrange(4))]
        if self.kind == "ordered":
            types = [t for t in types if not is_handle(t)] + [t for t in types if is_handle(t)][:1]
        return tuple(types)

    def result(self):
        return self.pick("int", "int64", "int64", "bool", "void", *HOSTS, *self.of_name)

    def plan_methods(self):
        self.ranks = 0
        for c in self.classes:
            for _ in range(self.random.randrange(1, 4) if self.ranks < 12 else 0):
                self.plan_method(c)
        for c in [c for c in self.classes if not c.interface]:
            self.plan_overrides(c)
            self.plan_makers(c)

    def plan_method(self, c):
        """A new method, or two that differ in const alone. It calls those of lower ranks, so that all runs end."""
        self.ranks += 1
        access = "" if c.interface else self.pick("", "", "", "protected", "private")
        m = Method(f"f{self.ranks}", self.ranks, self.signature(), self.result(), self.often(0.3), access, c)
        known = [k.name for d in c.above() for k in d.methods]
        if known and self.often(0.35):
            m = self.overload(m, self.random.choice(known))
        c.methods += [m, m._replace(const=not m.const)] if self.often(0.1) and access == "" else [m]

    def overload(self, m, name):
        """The method under the name, if no arguments fit it and another one of the name."""
        others = [k.parameters for c in self.classes for k in c.methods if k.name == name]
        return m._replace(name=name) if all(apart(m.parameters, other) for other in others) else m

    def plan_overrides(self, c):
        """The methods of interfaces that the class lacks, and some that stand for inherited ones."""
        for wanted in [m for d in c.above() for m in d.methods if m.owner is not c]:
            there = [m for m in c.callable() if m.key() == wanted.key()]
            own = any(m.owner is c for m in there)
            if not own and wanted.access != "private" and (not there or self.often(0.6)):
                c.methods.append(wanted._replace(owner=c))

    def plan_makers(self, c):
        for _ in range(self.random.randrange(3)):
            made = self.signature()
            if all(apart(made, other) for other in c.makers):
                c.makers.append(made)
        if any(b.makers and () not in b.makers for b in c.bases) and not c.makers:
            c.makers.append(self.signature())

    def is_interface(self, type):
        return type in self.of_name and self.of_name[type].interface
