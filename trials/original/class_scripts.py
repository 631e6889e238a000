"""Random scripts of classes, handles and host objects, of what AngelScript and this engine mean alike.

Of the operands, arguments and the receiver of an operation one at most calls something, and the others are then literals
and locals; or it is the difference of two calls. Kept out is what docs/COMING_FROM.md has as different.
"""
import re

from class_plans import HOSTS, NUMBERS, Method, Plan, is_handle, spelled

# what a script prints to tell what happens next or has just happened, so that it can be counted
MARKS = {
    "a handle to a base class called a method": 9001, "a handle to an interface called a method": 9002, "an override ran": 9003,
    "a cast succeeded": 9004, "a cast gave null": 9005, "a block ended": 9006, "a break": 9007, "an early return": 9008,
    "a base class's version was called": 9009, "two handles were one object": 9010, "two handles were not one object": 9011,
    "a constructor with super ran": 9012, "a handle was set to null": 9013, "a continue": 9014, "a handle to const": 9015,
}


class Script(Plan):
    """One random script: interfaces, classes, globals, functions, and m, which gives a number made of all that it has."""

    def __init__(self, seed):
        super().__init__(seed)
        self.lines, self.functions, self.globals = [], [], []
        self.write_globals()
        for c in self.classes:
            self.write_class(c)
            self.lines += [] if c.interface else self.references(c)
        for at in range(self.random.randrange(1, 4)):
            self.write_function(100 + at)
        self.write_main()

    def text(self):
        return "\n".join(self.lines) + "\n"

    def mark(self, what):
        return f"print({MARKS[what]});"

    # expressions: of level 0 literals and locals alone, of 1 what asks and calls nothing, of 2 one call at most

    def enter(self, owner, rank, makes, result, const=False):
        """Begins a body: of a class, if any, that calls what is of lower ranks and makes objects of the classes below makes."""
        self.owner, self.rank, self.makes, self.returned, self.const = owner, rank, makes, result, const
        self.scopes, self.loops = [[]], 0

    def variables(self, wanted, level):
        """Names, types and whether they are objects, of what can be read."""
        found = [v for scope in self.scopes for v in scope]
        if level > 0:
            found += self.globals if self.rank > 4 else []
            found += [(name, type, False) for name, type in self.own_fields()]
        return [v for v in found if wanted(v[1])]

    def own_fields(self):
        if not self.owner:
            return []
        return [(n, t) for c in self.owner.line() for n, t, a in c.fields if a != "private" or c is self.owner]

    def may_use(self, access, of):
        if access == "private":
            return of is self.owner
        return access == "" or self.owner is not None and of in self.owner.line()

    def fields(self, wanted):
        """Fields of the objects in variables."""
        found = []
        for name, type, is_object in self.variables(lambda t: t in self.of_name, 1):
            for c in self.of_name[type].line():
                for field, t, access in c.fields:
                    own = self.owner and type == self.owner.name and (access == "protected" or c is self.owner)
                    if wanted(t) and (access == "" or own) and (is_object or self.often(0.08)):
                        found.append((f"{name}.{field}", t, False))
        return found

    def split(self, level):
        return self.pick((2, 0), (0, 2)) if level == 2 else (level, level)

    def value(self, type, level):
        if type == "bool":
            return self.truth(level, 2)
        return self.number(level, 2) if type in NUMBERS else self.handle(type, level)

    def number(self, level, depth):
        kind = self.random.randrange(8)
        if kind <= 1 and depth > 0:
            left, right = self.split(level)
            return f"({self.number(left, depth - 1)} {self.pick('+', '-', '*')} {self.number(right, depth - 1)})"
        if kind == 2 and depth > 0:
            return f"({self.truth(level, depth - 1)} ? int64({self.number(0, 0)}) : int64({self.number(0, 0)}))"
        if level == 2 and kind <= 6:
            called, other = self.call(lambda t: t in NUMBERS), self.call(lambda t: t in NUMBERS)
            if kind == 6 and called and other and ".step" not in called + other:
                return f"({called} - {other})"
            if called:
                return called
        found = self.variables(lambda t: t in NUMBERS, level) + (self.fields(lambda t: t in NUMBERS) if level else [])
        if found and self.often(0.75):
            return self.random.choice(found)[0]
        return self.pick("0", "1", "2", "3", "7", "100", "(-5)")

    def truth(self, level, depth):
        kind = self.random.randrange(9)
        if kind <= 1 and depth > 0:
            left, right = self.split(level)
            if kind == 0:
                return f"({self.number(left, 1)} {self.pick('<', '<=', '>', '>=', '==', '!=')} {self.number(right, 1)})"
            return f"({self.truth(left, depth - 1)} {self.pick('&&', '||', '^^')} {self.truth(right, depth - 1)})"
        if kind <= 3:
            found = self.variables(is_handle, level)
            if found:
                return self.compared(self.random.choice(found), found)
        if level == 2 and kind == 4:
            return f"({self.handle(self.pick(*HOSTS, *self.of_name), 2)} {self.pick('is', '!is')} null)"
        if level == 2 and kind <= 6:
            called = self.call(lambda t: t == "bool")
            if called:
                return called
        found = self.variables(lambda t: t == "bool", level) + (self.fields(lambda t: t == "bool") if level else [])
        return self.random.choice(found)[0] if found else self.pick("true", "false")

    def compared(self, one, found):
        """Whether a handle is null, or one object with a handle that converts to its type."""
        others = ["null"] + [v[0] for v in found if self.is_a(v[1], one[1])]
        return f"({one[0]} {self.pick('is', '!is')} {self.random.choice(others)})"

    def handle(self, type, level):
        """A handle to the type, or to one that converts to it."""
        kind = self.random.randrange(8)
        if level == 2 and kind <= 3:
            called = self.call(lambda t: self.is_a(t, type)) if kind <= 1 else None
            return called or self.made(type)
        if level and kind == 4:
            same = self.variables(lambda t: t == type, level)
            if same:
                return f"({self.truth(0, 1)} ? @{self.random.choice(same)[0]} : @{self.random.choice(same)[0]})"
        if level and kind == 5:
            cast = self.cast(type, level)
            if cast:
                return cast
        found = self.variables(lambda t: self.is_a(t, type), level)
        found += self.fields(lambda t: self.is_a(t, type)) if level else []
        found += [("this",)] if self.owner and not self.const and self.is_a(self.owner.name, type) else []
        return self.random.choice(found)[0] if found else "null"

    def cast(self, type, level):
        found = [v for v in self.variables(lambda t: t in self.of_name, level) if type in self.of_name]
        found = [v for v in found if v not in self.globals or not v[2]]
        found = [v for v in found if self.is_a(v[1], type) or self.is_a(type, v[1]) or self.is_interface(v[1])]
        return f"cast<{type}>({self.random.choice(found)[0]})" if found else None

    def made(self, type):
        """An object of the type or of a class that converts to it, else null."""
        if type in HOSTS:
            return f"{type}{self.making(type, 0, True)}"
        found = [c for c in self.classes if not c.interface and self.is_a(c.name, type) and c.at < self.makes]
        if not found:
            return "null"
        type = self.random.choice(found).name
        return f"{type}{self.making(type, 0, True)}"

    def making(self, type, level, called=False):
        """The arguments of a constructor or factory, in parentheses where there are any or where they are a call's."""
        if type in HOSTS:
            arguments = self.host_arguments(type, level)
        else:
            types = self.random.choice(self.of_name[type].makers or [()])
            arguments = self.arguments(types, level)
            if called and len(types) == 1 and types[0] in self.of_name:
                arguments = self.no_conversion(type, types[0])
        return f"({arguments})" if arguments or called else ""

    def host_arguments(self, type, level):
        if type == "Counter":
            return self.pick("", self.number(level, 1))
        cells = [v[0] for v in self.variables(lambda t: t == "Cell", 0) if v[2] or self.often(0.1)]
        if cells and self.often(0.3):
            return f"{self.random.choice(cells)}, {self.number(0, 1)}"
        return f"int({self.number(level, 1)})"

    def no_conversion(self, type, wanted):
        """The one argument of a constructor: of an object that derives from the type T(a) is that object in the library."""
        found = self.variables(lambda t: self.is_a(t, wanted) and (t == type or not self.is_a(t, type)), 0)
        return self.random.choice([v[0] for v in found] + ["null"])

    def arguments(self, types, level):
        """One at most calls something, and then the others are literals and locals."""
        loud = self.random.randrange(len(types)) if types else 0
        levels = [level if level < 2 or at == loud else 0 for at in range(len(types))]
        return ", ".join(self.value(t, at) for t, at in zip(types, levels))

    def call(self, wanted):
        """A call that gives what is wanted, or none where there is none."""
        found = self.method_calls(wanted) + self.host_calls(wanted)
        found += [("", f, False) for f in self.functions if f.rank < self.rank and wanted(f.result)]
        if not found:
            return None
        receiver, m, rich = self.random.choice(found)
        if isinstance(m, str):
            return receiver + m
        return f"{receiver}{m.name}({self.arguments(m.parameters, self.pick(1, 2) if rich else 0)})"

    def method_calls(self, wanted):
        """Receivers, methods, and whether an argument may call something."""
        known = [v for v in self.variables(lambda t: t in self.of_name, 1) if v[2] or self.often(0.06)]
        known += [v for v in self.fields(lambda t: t in self.of_name) if self.often(0.25)]
        known = [(v[0], v[1], any(v in scope for scope in self.scopes)) for v in known]
        for c in [c for c in self.classes if not c.interface and c.at < self.makes and self.often(0.1)]:
            known.append((f"{c.name}{self.making(c.name, 0, True)}", c.name, False))
        for f in [f for f in self.functions if f.result in self.of_name and f.rank < self.rank and self.often(0.1)]:
            known.append((f"{f.name}({self.arguments(f.parameters, 0)})", f.result, False))
        for c in [c for c in self.classes if self.often(0.03)]:
            known.append((self.cast(c.name, 1) or "", c.name, False))
        found = [(f"{name}.", m, local) for name, type, local in known if name for m in self.of_name[type].callable()]
        if self.owner:
            # a call by a bare name in a const method is no const one in the library
            this = "this." if self.const else self.pick("", "this.")
            found += [(this, m, True) for m in self.owner.callable() if m.const or not self.const]
        return [f for f in found if wanted(f[1].result) and f[1].rank < self.rank and self.may_use(f[1].access, f[1].owner)]

    def host_calls(self, wanted):
        found = []
        objects = self.variables(lambda t: t in HOSTS, 1) + self.fields(lambda t: t in HOSTS)
        for name, type, _ in [v for v in objects if v[2] or self.often(0.05)]:
            if wanted("int"):
                found += [(name, ".value()", True), (name, ".step", True)] if type == "Counter" else [(name, ".get()", True)]
            if wanted("void"):
                found.append((name, ".bump()" if type == "Counter" else f".set({self.number(0, 1)})", True))
        if wanted("int64"):
            found.append(("", f"sum({self.number(0, 1)}, {self.number(0, 1)})", True))
        if wanted("Cell"):
            found.append(("", f"pick({self.handle('Cell', self.pick(0, 2))})", True))
        return found

    # statements: each gives its lines

    def local(self, type, name, is_object=False):
        self.scopes[-1].append((name, type, is_object))
        return name

    def declared(self):
        type, name = self.pick("int64", "bool", "int", *HOSTS, *HOSTS, *self.of_name, *self.of_name), self.name("v")
        makes = type in HOSTS or type in self.of_name and not self.is_interface(type) and self.of_name[type].at < self.makes
        if not is_handle(type):
            line = f"{type} {name} = {self.value(type, 2)};"
        elif makes and self.often(0.5):
            line = f"{type} {name}{self.making(type, 2)};"
            self.local(type, name, True)
            return [line]
        else:
            value = self.made(type) if self.often(0.5) else self.handle(type, 2)
            line = f"{type}@ {name} = {value};" if self.often(0.9) else f"{type}@ {name};"
        self.local(type, name)
        return [line]

    def changeable(self, wanted):
        """Variables and fields that can be assigned."""
        found = [v for scope in self.scopes for v in scope] + (self.globals if self.rank > 4 else [])
        found += [] if self.const else [(n, t, False) for n, t in self.own_fields()]
        return [v for v in found + self.fields(wanted) if wanted(v[1]) and not v[2]]

    def assigned(self):
        handles = self.often(0.55)
        found = self.changeable(lambda t: is_handle(t) == handles)
        if not found:
            return self.declared()
        name, type, _ = self.random.choice(found)
        if handles:
            if self.often(0.2):
                return [f"@{name} = null;", self.mark("a handle was set to null")]
            return [f"@{name} = {self.other(name, self.handle(type, 2))};"]
        if type == "bool":
            return [f"{name} = {self.truth(2, 2)};"]
        return [self.pick(f"{name}++;", f"{name} {self.pick('=', '+=', '-=', '*=')} {self.number(2, 2)};")]

    def other(self, name, value):
        """The value, or null for the variable itself, which the library gives up before it takes it again."""
        return "null" if name in re.findall(r"[a-z][0-9.a-z]*", value) else value

    def stepped(self):
        """Changes an object of the host, and tells what it holds then."""
        found = [v for v in self.variables(lambda t: t in HOSTS, 1) if v[2]]
        if not found:
            return self.declared()
        name, type, _ = self.random.choice(found)
        if type == "Cell":
            return [f"{name}.set({self.number(0, 1)});", f"print({name}.get());"]
        return [f"{name}.step {self.pick('=', '+=')} {self.number(0, 2)};", f"{name}.bump();", f"print({name}.value());"]

    def called(self):
        """A call as a statement, through a handle to a base class or an interface where one is there and not null."""
        through = [v for v in self.variables(lambda t: t in self.of_name, 0) if not v[2]]
        if through and self.often(0.6):
            name, type, _ = self.random.choice(through)
            found = [m for m in self.of_name[type].callable() if m.rank < self.rank and self.may_use(m.access, m.owner)]
            if found:
                m = self.random.choice(found)
                what = "an interface" if self.is_interface(type) else "a base class"
                told = self.mark(f"a handle to {what} called a method")
                return [f"if ({name} !is null)", "{", told, f"{name}.{m.name}({self.arguments(m.parameters, 0)});", "}"]
        line = self.call(lambda t: t == "void" or self.often(0.3))
        return [f"{line};"] if line and not line.endswith(".step") else self.declared()

    def as_const(self):
        """Calls a method through a handle to a const object."""
        found = [v for v in self.variables(is_handle, 0) if v[2]]
        if not found:
            return self.declared()
        type, name = self.random.choice(found)[1], self.name("v")
        lines = [f"const {type}@ {name} = {self.random.choice([v[0] for v in found if v[1] == type])};"]
        if type in HOSTS:
            return lines + [f"print({name}.{'value' if type == 'Counter' else 'get'}());"]
        methods = [m for m in self.of_name[type].callable() if m.const and m.rank < self.rank and self.may_use(m.access, m.owner)]
        lines += [f"{name}.{m.name}({self.arguments(m.parameters, 0)});" for m in methods[:1]]
        return lines + [self.mark("a handle to const")]

    def told(self):
        """Tells what a cast gives, or whether two handles are one object."""
        found = self.variables(lambda t: t in self.of_name, 0)
        if not found:
            return self.declared()
        one = self.random.choice(found)
        others = [v for v in found if v != one and self.is_a(v[1], one[1])]
        below = [c.name for c in self.classes if c.name != one[1] and (self.is_a(c.name, one[1]) or self.is_interface(one[1]))]
        if others and self.often(0.5):
            condition = f"{one[0]} is {self.random.choice(others)[0]}"
            return self.told_by(condition, "two handles were one object", "two handles were not one object")
        if not below:
            return self.declared()
        type, name = self.random.choice(below), self.name("v")
        self.local(type, name)
        told = self.told_by(f"{name} is null", "a cast gave null", "a cast succeeded")
        return [f"{type}@ {name} = cast<{type}>({one[0]});", f"if ({one[0]} !is null)"] + told

    def told_by(self, condition, what, otherwise):
        return ["{", f"if ({condition})", self.mark(what), "else", self.mark(otherwise), "}"]

    def block(self, depth):
        self.scopes.append([])
        lines = [line for _ in range(self.random.randrange(1, 4)) for line in self.statement(depth)]
        self.scopes.pop()
        return ["{"] + lines + ["}"]

    def loop(self, depth):
        counter, turns, kept = self.name("n"), self.random.randrange(1, 4), self.name("v")
        kind = self.random.randrange(4)
        self.scopes.append([(kept, "Cell", True)] if kind == 0 else [])
        self.loops += 1
        body = self.block(depth - 1)
        self.loops -= 1
        self.scopes.pop()
        inner = ["{", f"if (++{counter} > {turns}) break;"] + body[1:]
        start = f"int {counter} = 0;"
        if kind == 0:
            return [start, f"for (Cell {kept}(4); {counter} < {turns}; {counter}++)"] + body
        if kind == 1:
            return [f"for ({start} {counter} < {turns}; {counter}++)"] + body
        if kind == 2:
            return [start, f"while ({self.truth(2, 1)})"] + inner
        return [start, "do"] + inner + [f"while ({self.truth(2, 1)});"]

    def jump(self, depth):
        """An end of a loop's pass or of the function, in a block that may hold objects."""
        word = self.pick("break", "continue") if self.loops and self.often(0.6) else "return"
        told = self.mark("an early return" if word == "return" else f"a {word}")
        self.scopes.append([])
        lines = [f"if ({self.truth(1, 1)})", "{"] + self.declared()
        value = f" {self.value(self.returned, 0)}" if word == "return" and self.returned != "void" else ""
        self.scopes.pop()
        return lines + [told, f"{word}{value};", "}"]

    def printed(self):
        found = self.variables(lambda t: t in NUMBERS, 0)
        if found and self.often(0.1):
            return [f"print({self.number(0, 1)} / {self.random.choice(found)[0]});"]
        return [f"print({self.number(2, 2)});"]

    def referred(self):
        """Hands an object over by reference, and takes a handle to it back."""
        found = self.variables(lambda t: t in self.of_name and not self.is_interface(t), 0)
        found = [v for v in found if v[2] or self.often(0.1)]
        if not found:
            return self.declared()
        (old, type, _), name = self.random.choice(found), self.name("v")
        self.local(type, name)
        return [f"{type}@ {name};", f"take{type}({old}, {name});", f"print(look{type}({name}));"]

    def inner(self, depth):
        return self.block(depth - 1) + [self.mark("a block ended")]

    def branch(self, depth):
        lines = [f"if ({self.truth(2, 2)})"] + self.block(depth - 1)
        return lines + ["else"] + self.block(depth - 1) if self.often(0.5) else lines

    def statement(self, depth):
        if depth > 0 and self.often(0.35):
            return self.pick(self.inner, self.loop, self.branch, self.jump)(depth)
        if self.loops and self.often(0.1):
            return self.jump(depth)
        often = [self.declared, self.assigned, self.called]
        return self.pick(*often, *often, self.told, self.as_const, self.referred, self.stepped, self.printed)()

    def body(self, count, depth):
        lines = [line for _ in range(count) for line in self.statement(depth)]
        return lines if self.returned == "void" else lines + [f"return {self.value(self.returned, 2)};"]

    # declarations

    def parameters(self, types):
        own = [(self.local(type, self.name("p")), type) for type in types]
        return ", ".join(f"{spelled(type)} {name}" for name, type in own)

    def write_globals(self):
        self.enter(None, 4, 0, "void")
        for _ in range(self.random.randrange(4)):
            type, name = self.pick("int64", "bool", *HOSTS, *self.of_name), self.name("g")
            if self.kind == "ordered" and any(is_handle(t) for _, t, _ in self.globals):
                type = "int64"
            if not is_handle(type):
                self.lines.append(f"{type} {name} = {self.value(type, 0)};")
                self.globals.append((name, type, False))
            elif self.often(0.3) and not self.is_interface(type):
                self.lines.append(f"{type} {name}{self.making(type, 0)};")
                self.globals.append((name, type, True))
            else:
                value = f" = {self.made(type)}" if self.often(0.6) else ""
                self.lines.append(f"{type}@ {name}{value};")
                self.globals.append((name, type, False))

    def write_class(self, c):
        bases = f" : {', '.join(b.name for b in c.bases)}" if c.bases else ""
        word = "interface" if c.interface else "final class" if c.final else "class"
        self.lines += [f"{word} {c.name}{bases}", "{"]
        if c.interface:
            self.lines += [self.heading(m, ", ".join(spelled(t) for t in m.parameters)) + ";" for m in c.methods]
        else:
            self.lines += [f"{access} {spelled(type)} {name};".strip() for name, type, access in c.fields]
            for types in c.makers:
                self.write_maker(c, types)
            for m in c.methods:
                self.write_method(c, m)
        self.lines.append("}")

    def references(self, c):
        """Functions of references to an object."""
        numbers = [f for d in c.line() for f, t, a in d.fields if t in NUMBERS and a == ""]
        taking = [f"void take{c.name}({c.name} &inout o, {c.name}@ &out h)", "{", "@h = o;", *[f"o.{f}++;" for f in numbers], "}"]
        sum = " + ".join(["1"] + [f"o.{f}" for f in numbers])
        return taking + [f"int64 look{c.name}(const {c.name} &in o)", "{", f"return {sum};", "}"]

    def heading(self, m, parameters):
        return f"{m.access} {spelled(m.result)} {m.name}({parameters}){' const' if m.const else ''}".strip()

    def write_maker(self, c, types):
        self.enter(c, 4, c.at, "void")
        base = [b for b in c.bases if not b.interface]
        lines = [f"{c.name}({self.parameters(types)})", "{"]
        if base and (base[0].makers and () not in base[0].makers or self.often(0.4)):
            lines += [f"super{self.making(base[0].name, 0, True)};", self.mark("a constructor with super ran")]
        for name, type in self.own_fields():
            if is_handle(type) and self.often(0.6):
                lines.append(f"@{name} = {self.handle(type, 2)};")
        self.lines += lines + self.body(self.random.randrange(3), 1) + ["}"]

    def write_method(self, c, m):
        self.enter(c, m.rank, 0 if m.rank <= 3 else len(self.classes), m.result, m.const)
        base = [k for b in c.bases if not b.interface for k in b.callable()]
        base = [k for k in base if k.key() == m.key()]
        twins = [k for k in c.callable() if (k.name, k.parameters) == (m.name, m.parameters)]
        heading = self.heading(m, self.parameters(m.parameters))
        self.lines += [heading + (" override" if base and self.often(0.5) else ""), "{"]
        if base:
            self.lines.append(self.mark("an override ran"))
        self.lines += self.body(self.random.randrange(1, 4), 1)
        if base and self.often(0.5) and len(twins) == 1:
            self.lines += self.base_called(base[0], m)
        self.lines.append("}")

    def base_called(self, base, m):
        """A call of the base class's version, in place of the last line where that returns a value."""
        word = "return " if m.result != "void" and self.lines.pop() else ""
        given = ", ".join(v[0] for v in self.scopes[0][: len(m.parameters)])
        return [self.mark("a base class's version was called"), f"{word}{base.owner.name}::{m.name}({given});"]

    def write_function(self, rank):
        self.enter(None, rank, len(self.classes), self.result())
        f = Method(self.name("h"), rank, self.signature(), self.returned, False, "", None)
        self.lines += [f"{spelled(f.result)} {f.name}({self.parameters(f.parameters)})", "{"]
        self.lines += self.body(self.random.randrange(1, 5), 2) + ["}"]
        self.functions.append(f)

    def write_main(self):
        self.enter(None, 1000, len(self.classes), "int64")
        lines = ["int64 m()", "{"] + [line for _ in range(self.random.randrange(4, 12)) for line in self.statement(3)]
        lines.append("int64 h = 17;")
        everything = self.scopes[0] + self.globals
        for name, type, _ in everything:
            lines += self.folded(name, type, everything)
        self.lines += lines + ["return h;", "}"]

    def folded(self, name, type, everything):
        """Takes into h a variable's value, or whether it is null, what it is and which public numbers it has."""
        if type in NUMBERS:
            return [f"h = h * 31 + {name};"]
        if type == "bool":
            return [f"h = h * 31 + ({name} ? 1 : 0);"]
        lines = [f"h = h * 31 + ({name} is {v[0]} ? 1 : 2);" for v in everything if v[1] == type and v[0] > name]
        lines.append(f"h = h * 31 + ({name} is null ? 1 : 2);")
        fields = [f for c in self.of_name[type].line() for f in c.fields] if type in self.of_name else []
        numbers = [f for f, t, access in fields if t in NUMBERS and access == ""]
        return lines + [f"if ({name} !is null) h = h * 31 + {name}.{f};" for f in numbers]
