#!/usr/bin/env python3
"""Runs random scripts with the AngelScript library and with asrun, and compares how they end.

    trials/original/random_scripts.py ASRUN [COUNT [SEED]]

Needs g++ and Debian's angelscript-dev. ASRUN is the executable of crates/asrun. Prints each script that ends otherwise,
and how many ended how.

The scripts keep to what both languages mean alike (docs/COMING_FROM.md, "Different"): no operation mixes
signed and unsigned numbers, ~ is taken of unsigned ones and >>> of signed ones, none has constants alone (the library
works these out otherwise than it runs them), no operand or argument changes what another reads, an &out parameter is
given a value before it is read, a global reads those in front of it, and every loop ends. They ask the host's function
sum, whose arguments are compared in their order, read and write its property reg, and use its enumerations, of which a
variable is never changed by its own value.
"""
import collections, os, random, re, subprocess, sys, tempfile
from concurrent.futures import ThreadPoolExecutor

HERE = os.path.dirname(os.path.abspath(__file__))
SIGNED = ["int8", "int16", "int", "int64"]
UNSIGNED = ["uint8", "uint16", "uint", "uint64"]
NUMBERS = SIGNED + UNSIGNED
# the host's enumerations; of their names BLUE is of both, and GREEN of one more that the library does not hide
ENUMERATIONS = {"Color": {"RED": 1, "GREEN": 3, "BLUE": -2}, "Light": {"DIM": 4, "BLUE": 5}}
ALONE = ["RED", "DIM"]
# globals that nothing changes, so that each expression has something that is no constant
KEPT = [("s8", "int8"), ("s32", "int"), ("s64", "int64"), ("u16", "uint16"), ("u32", "uint"), ("u64", "uint64"), ("yes", "bool"),
        ("hue", "Color"), ("lamp", "Light")]
# scripts in a session, which takes 16 MiB at most
BATCH = 1000
SMALL = [0, 1, 2, 3, 7, 31, 100, 127, 128, 255, 256, 32767, 65535, 65536, 2147483647]
# how an exception of the library is called here
FAULTS = {"exception Divide by zero": "fault DivideByZero", "exception Overflow in integer division": "fault DivideOverflow"}


def width(type):
    return 32 if type in ENUMERATIONS else int(type.strip("uint") or 32)


def family_of(type):
    return UNSIGNED if type in UNSIGNED else SIGNED


def is_of(type, family):
    """Operators take a value of an enumeration as an int."""
    return type in family or (family is SIGNED and type in ENUMERATIONS)


def common(left, right):
    """The type of an operation on two numbers, both signed or both unsigned."""
    return family_of(left)[3 if 64 in (width(left), width(right)) else 2]


class Script:
    """One random script: globals, functions, and m, which gives a number made of all that it computed."""

    def __init__(self, seed):
        self.random = random.Random(seed)
        self.names = 0
        self.functions = []
        self.scopes = [list(KEPT)]
        self.loops = 0
        self.lines = [f"{type} {name} = {self.literal(type)};" for name, type in KEPT]
        for _ in range(self.random.randrange(4)):
            self.lines.append(self.variable())
        self.scopes[0].append(("reg", "int64"))
        for _ in range(self.random.randrange(1, 5)):
            self.function()
        self.main()

    def text(self):
        return "\n".join(self.lines) + "\n"

    def name(self, letter):
        self.names += 1
        return f"{letter}{self.names}"

    def pick(self, *choices):
        return self.random.choice(choices)

    def known(self, wanted):
        """The name and type of a variable that can be read here."""
        return self.random.choice([v for scope in self.scopes for v in scope if wanted(v[1])])

    # expressions

    def literal(self, type):
        value = self.random.choice(SMALL)
        if type in ENUMERATIONS:
            name = self.pick(*ENUMERATIONS[type])
            return name if name in ALONE and self.random.random() < 0.5 else f"{type}::{name}"
        if type == "bool":
            return self.pick("true", "false")
        return hex(value) if type in UNSIGNED else self.pick(str(value), f"(-{value})")

    def operand(self, family, depth):
        """A number of one of the family's types, which may be a constant, and its type."""
        if self.random.random() < 0.25:
            return self.literal(family[2]), family[2]
        return self.number(family, depth)

    def number(self, family, depth):
        """A number of one of the family's types, which is no constant, and its type."""
        kind = self.random.randrange(9) if depth > 0 else 0
        if kind <= 1:
            return self.known(lambda type: is_of(type, family))
        if kind <= 4:
            return self.operation(family, depth - 1)
        if kind == 5:
            a, type = self.number(family, depth - 1)
            operator = self.pick("<<", ">>", ">>>" if family is SIGNED else ">>")
            return f"({a} {operator} {self.random.randrange(70)})", common(type, type)
        if kind == 6:
            type = self.random.choice(family)
            return f"{type}({self.number(self.pick(SIGNED, UNSIGNED), depth - 1)[0]})", type
        if kind == 7:
            type = self.random.choice(family)
            a, b = self.number(family, depth - 1)[0], self.operand(family, depth - 1)[0]
            return f"({self.truth(depth - 1)} ? {type}({a}) : {type}({b}))", type
        return self.call_or_sign(family, depth - 1)

    def operation(self, family, depth):
        (a, left), (b, right) = self.number(family, depth), self.operand(family, depth)
        operator = self.pick("+", "-", "*", "/", "%", "&", "|", "^")
        if operator in "/%" and self.random.random() < 0.9:
            b, right = self.number(family, depth)
            b, right = f"({b} | {1 if family is SIGNED else '0x1'})", common(right, right)
        elif operator in "/%":
            b, right = self.known(lambda type: is_of(type, family))
        return f"({a} {operator} {b})", common(left, right)

    def call_or_sign(self, family, depth):
        """A call of a function without effects, else a number with a sign."""
        found = [f for f in self.functions if is_of(f[1], family) and f[3]]
        if found and self.random.random() < 0.7:
            name, result, parameters, _ = self.random.choice(found)
            return f"{name}({', '.join(self.converted(type, depth) for type, _ in parameters)})", result
        a, type = self.number(family, depth)
        if width(type) < 32:
            return a, type
        return f"({self.pick('-', '+') if family is SIGNED else '~'}{a})", type

    def truth(self, depth):
        kind = self.random.randrange(6) if depth > 0 else 0
        if kind == 0:
            return self.known(lambda type: type == "bool")[0]
        if kind == 1:
            return f"(!{self.truth(depth - 1)})"
        if kind == 2:
            a, b = self.truth(depth - 1), self.pick(self.truth(depth - 1), "true", "false")
            return f"({a} {self.pick('&&', '||', '^^', '==', '!=', 'and', 'or', 'xor')} {b})"
        family = self.pick(SIGNED, UNSIGNED)
        (a, _), (b, _) = self.number(family, depth - 1), self.operand(family, depth - 1)
        return f"({a} {self.pick('<', '<=', '>', '>=', '==', '!=')} {b})"

    def converted(self, type, depth):
        """An expression that converts to the type by itself."""
        if type in ENUMERATIONS:
            return self.enumerated(type, depth)
        return self.truth(depth) if type == "bool" else self.operand(family_of(type), depth)[0]

    def enumerated(self, type, depth):
        """A value of an enumeration."""
        kind = self.random.randrange(6) if depth > 0 else 0
        if kind == 0:
            return self.literal(type)
        if kind == 1:
            return f"{type}({self.number(self.pick(SIGNED, UNSIGNED), depth - 1)[0]})"
        if kind == 2:
            a, b = self.enumerated(type, depth - 1), self.enumerated(type, depth - 1)
            return f"({self.truth(depth - 1)} ? {a} : {b})"
        found = [f for f in self.functions if f[1] == type and f[3]]
        if kind == 3 and found:
            name, _, parameters, _ = self.random.choice(found)
            return f"{name}({', '.join(self.converted(each, depth - 1) for each, _ in parameters)})"
        return self.known(lambda each: each == type)[0]

    # statements: each gives its lines

    def variable(self):
        type = self.pick("bool", *NUMBERS, *ENUMERATIONS)
        value, name = self.converted(type, 3), self.name("v")
        self.scopes[-1].append((name, type))
        return f"{type} {name} = {value};"

    def assignment(self):
        found = [v for scope in self.scopes for v in scope if v not in KEPT]
        if not found:
            return self.variable()
        name, type = self.random.choice(found)
        if type == "bool":
            return f"{name} = {self.truth(3)};"
        if type in ENUMERATIONS:
            return f"{name} = {self.enumerated(type, 3)};"
        operator = self.pick("=", "=", "+=", "-=", "*=", "/=", "%=", "&=", "|=", "^=", "<<=", ">>=", ">>>=", "++", "--")
        if operator in ("++", "--"):
            return self.pick(f"{name}{operator};", f"{operator}{name};")
        if operator in ("<<=", ">>=", ">>>="):
            operator = ">>=" if type in UNSIGNED and operator == ">>>=" else operator
            return f"{name} {operator} {self.random.randrange(70)};"
        value = self.converted(type, 3)
        if operator in ("/=", "%="):
            value = self.number(family_of(type), 2)[0]
        return f"{name} {operator} {value};"

    def block(self, depth):
        self.scopes.append([])
        lines = [line for _ in range(self.random.randrange(1, 4)) for line in self.statement(depth)]
        self.scopes.pop()
        return ["{"] + lines + ["}"]

    def loop(self, depth):
        counter, turns = self.name("n"), self.random.randrange(1, 6)
        self.loops += 1
        body = self.block(depth - 1)
        self.loops -= 1
        if self.random.random() < 0.4:
            return [f"for (int {counter} = 0; {counter} < {turns}; {counter}++)"] + body
        inner = ["{", f"if (++{counter} > {turns}) break;"] + body[1:]
        if self.random.random() < 0.5:
            return [f"int {counter} = 0;", f"while ({self.truth(2)})"] + inner
        return [f"int {counter} = 0;", "do"] + inner + [f"while ({self.truth(2)});"]

    def statement(self, depth):
        kind = self.random.randrange(12)
        if kind <= 2:
            return [self.variable()]
        if kind <= 5 or depth == 0:
            return [self.assignment()]
        if kind <= 7:
            return self.call()
        if kind == 8 and self.loops:
            return [f"if ({self.truth(2)}) {self.pick('break', 'continue')};"]
        if kind == 9:
            return self.block(depth - 1)
        if kind == 10:
            return self.loop(depth)
        lines = [f"if ({self.truth(3)})"] + self.block(depth - 1)
        return lines + ["else"] + self.block(depth - 1) if self.random.random() < 0.5 else lines

    def call(self):
        """A call as a statement. Its &out arguments are variables that are declared for it."""
        if not self.pure and self.random.random() < 0.25:
            name = self.name("v")
            line = f"int64 {name} = sum(int({self.converted('int', 2)}), int({self.converted('uint64', 2)}));"
            self.scopes[-1].append((name, "int64"))
            return [line]
        callable = [f for f in self.functions if f[3]] if self.pure else self.functions
        if not callable:
            return [self.assignment()]
        name, result, parameters, _ = self.random.choice(callable)
        lines, arguments, made = [], [], []
        for type, passing in parameters:
            if passing == "&out":
                made.append((self.name("v"), type))
                lines.append(f"{type} {made[-1][0]};")
                arguments.append(made[-1][0])
            else:
                arguments.append(self.converted(type, 2))
        made.append((self.name("v"), result))
        self.scopes[-1] += made
        return lines + [f"{result} {made[-1][0]} = {name}({', '.join(arguments)});"]

    def function(self):
        """A function. One without effects changes and reads nothing but its own and what nothing changes."""
        self.pure = self.random.random() < 0.5
        result, name = self.pick(*NUMBERS, *ENUMERATIONS), self.name("f")
        passings = ["", "&in"] if self.pure else ["", "&in", "&out"]
        types = ["bool", *NUMBERS, *ENUMERATIONS]
        parameters = [(self.pick(*types), self.random.choice(passings)) for _ in range(self.random.randrange(4))]
        own = [(self.name("p"), type) for type, _ in parameters]
        listed = ", ".join(f"{type} {passing} {p}" for (type, passing), (p, _) in zip(parameters, own))
        outer = self.scopes
        given = [v for v, (_, passing) in zip(own, parameters) if passing != "&out"]
        self.scopes = [list(KEPT) if self.pure else outer[0], given]
        lines = [f"{result} {name}({listed})", "{"]
        lines += [f"{p} = {self.converted(type, 2)};" for p, type in own if (p, type) not in given]
        self.scopes[-1] = list(own)
        for _ in range(self.random.randrange(1, 5)):
            lines += self.statement(2)
        self.lines += lines + [f"return {self.converted(result, 3)};", "}"]
        self.scopes = outer
        self.functions.append((name, result, parameters, self.pure))

    def main(self):
        self.pure = False
        self.scopes.append([])
        lines = ["int64 m()", "{", "reg = 5;"]
        for _ in range(self.random.randrange(2, 8)):
            lines += self.statement(3)
        lines.append("int64 h = 17;")
        for name, type in [v for scope in self.scopes for v in scope]:
            lines.append(f"h = h * 31 + {f'({name} ? int64(1) : int64(0))' if type == 'bool' else f'int64({name})'};")
        self.scopes.pop()
        self.lines += lines + ["return h;", "}"]


def there(program, text):
    """How the library ends a script, after the arguments of what it asked of sum; and the errors of its build."""
    ran = subprocess.run([program], input=text, capture_output=True, text=True, timeout=20)
    asked, ended = re.fullmatch(r"(?s)[^\n]*\n((?:\([^)]*\) )*)(.*)\n", ran.stdout).groups()
    errors = [line for line in ran.stderr.splitlines() if line.startswith("error")]
    if ended == "refused" and any("Failed to initialize global variable" in error for error in errors):
        ended = "refused InitFailed"
    return asked + FAULTS.get(ended, ended), errors


def here(asrun, texts, room):
    """How asrun ends each of the scripts, all in one session, after the arguments of what it asked of sum."""
    profile, session = os.path.join(room, "profile"), os.path.join(room, "session")
    with open(profile, "w") as out:
        out.write("mask 00000001\nfunction 0 1 int64 sum(int64, int64)\nglobal 0 0 int64 reg\n")
        for name, values in ENUMERATIONS.items():
            out.write(f"enum {name}\n" + "".join(f"value {name} {value} {number}\n" for value, number in values.items()))
    with open(session, "w") as out:
        out.write("module a 00000001\n")
        for text in texts:
            out.write(f"section a {text.count(chr(10))}\n{text}build a\ncall a () int64 m()\n")
    ran = subprocess.run([asrun, "--profile", profile, "--session", session], capture_output=True, text=True, timeout=600)
    lines = iter(ran.stdout.splitlines()[1:])
    ends = []
    for _ in texts:
        next(lines)
        built, errors = next(lines), []
        while built.startswith(("error", "host")):
            errors.append(built)
            built = next(lines)
        called, asked = next(lines), ""
        while called.startswith("host"):
            _, _, entry, _, _, arguments, _ = called.split(" ")
            asked += f"{arguments} " if entry == "0" else ""
            called = next(lines)
        # the library does not say in a build which fault an initializer had
        built = "refused InitFailed" if built.startswith("refused InitFailed") else built
        ends.append(asked + called if built == "ok" else " ".join([built] + errors))
    return ends


def ending(end):
    """What is counted of an end: whether sum was asked, and for a value that there was one."""
    asked, ended = re.fullmatch(r"((?:\([^)]*\) )*)(.*)", end).groups()
    return ("asked, " if asked else "") + ("ok" if ended.startswith("ok ") else ended)


def main():
    asrun = os.path.abspath(sys.argv[1])
    count = int(sys.argv[2]) if len(sys.argv) > 2 else 2000
    seed = int(sys.argv[3]) if len(sys.argv) > 3 else 1
    texts = [Script(seed * 1_000_000 + at).text() for at in range(count)]
    with tempfile.TemporaryDirectory() as room:
        program = os.path.join(room, "host")
        subprocess.run(["g++", "-O1", "-o", program, f"{HERE}/host.cpp", "-langelscript-addon", "-langelscript", "-lpthread"], check=True)
        ours = [end for at in range(0, count, BATCH) for end in here(asrun, texts[at : at + BATCH], room)]
        with ThreadPoolExecutor(os.cpu_count()) as pool:
            theirs = list(pool.map(lambda text: there(program, text), texts))
    ended, differ = collections.Counter(), 0
    for at, (text, own, (other, errors)) in enumerate(zip(texts, ours, theirs)):
        if own == other:
            ended[ending(own)] += 1
            continue
        differ += 1
        print(f"--- script {at} of seed {seed}\n{text}    there: {other}\n    here:  {own}")
        print("".join(f"    {error}\n" for error in errors))
    for how, number in sorted(ended.items()):
        print(f"{how}: {number}")
    print(f"{count} scripts, {differ} differ")
    return differ > 0


if __name__ == "__main__":
    sys.exit(main())
