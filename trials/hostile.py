#!/usr/bin/env python3
"""The trials of trials/hostile.sh, whose head says what they are."""

import os
import random
import re
import resource
import shutil
import subprocess
import sys
import tempfile
from collections import Counter, defaultdict, namedtuple

sys.dont_write_bytecode = True
import nests  # noqa: E402
import replies  # noqa: E402

MOST = 65536  # bytes of a section
STACK = 8192  # KiB, with which each section has to build
LEVELS = 4000  # statements one inside the other, the innermost one among them
STEP = 64  # KiB, to which the least stack is found
SECONDS = 600  # for one process
GNU_TIME = "/usr/bin/time"
WAYS = ["ended by a signal", "ran out of time", "answered otherwise", "above a bound"]

PROFILE = "function 0 0 void put(int64)\nglobal 0 0 int64 reg\n"
HEAD = "int x;bool b;int g(int n){return n;}void f(){"

# How a run ended: its status, which is negative after a signal and None where it ran out of time, what it printed, its
# seconds of processor, and its greatest resident memory in bytes where it was measured.
Ended = namedtuple("Ended", "status text seconds resident")


class Trials:
    """The programs, and what was seen of them: asrun, and asremote in the parts that try both."""

    def __init__(self, programs, folder):
        self.program = programs[0]
        self.programs = programs
        self.folder = folder
        self.runs = 0
        self.bad = Counter()

    def run(self, session, profile=PROFILE, stack=STACK, memory=None, measured=False):
        """Runs a session, with that many KiB of stack, and that many of memory if there is a limit."""
        files = {"profile": profile, "session": session}
        for name, text in files.items():
            with open(f"{self.folder}/{name}", "w", newline="\n") as out:
                out.write(text)
        words = [self.program, "--profile", "profile", "--session", "session"]
        if measured:
            words = [GNU_TIME, "-q", "-f", "%M", "-o", "resident", *words]
        start = seconds_of_children()
        how = {"cwd": self.folder, "env": {}, "capture_output": True, "timeout": SECONDS}
        try:
            ran = subprocess.run(words, preexec_fn=lambda: limit_to(stack, memory), **how)
            status, text = ran.returncode, ran.stdout.decode("latin-1")
        except subprocess.TimeoutExpired:
            status, text = None, ""
        seconds = seconds_of_children() - start
        resident = None
        if measured and status is not None:
            with open(f"{self.folder}/resident") as file:
                resident = int(file.read().split()[-1]) * 1024
            # GNU time ends with 128 and the signal's number.
            status = status if status < 128 else 128 - status
        return Ended(status, text, seconds, resident)

    def tried(self, what, session, wanted, **how):
        """Runs a session, whose answer is to be the wanted one, and counts it."""
        ended = self.run(session, **how)
        self.runs += 1
        answer = answer_of(ended)
        if ended.status is None or is_killed(ended) or not re.fullmatch(wanted, answer):
            self.count(way_of(ended), f"{what}: {answer}, where {wanted} is wanted")
        return ended

    def count(self, way, what):
        """Counts and prints what did not go well."""
        self.bad[way] += 1
        print(f"{way}: {what}", flush=True)

    def held(self, what, figure, bound):
        """Counts a figure that is above its bound."""
        if figure > bound:
            self.count(WAYS[3], f"{what}: {figure:.1f}, where {bound} is the most")

    def least_stack(self, session, wanted):
        """The least KiB of stack, up to a step, with which a session is answered so."""
        low, high = 0, STACK // STEP
        while high - low > 1:
            middle = (low + high) // 2
            if re.fullmatch(wanted, answer_of(self.run(session, stack=middle * STEP))):
                high = middle
            else:
                low = middle
        return high * STEP


def seconds_of_children():
    """The seconds of processor that the processes took that have ended."""
    times = os.times()
    return times.children_user + times.children_system


def limit_to(stack, memory):
    """Limits this process, in KiB. What is left of one that ran out of time ends by itself."""
    resource.setrlimit(resource.RLIMIT_CPU, (2 * SECONDS, 2 * SECONDS))
    resource.setrlimit(resource.RLIMIT_STACK, (stack * 1024, stack * 1024))
    if memory:
        resource.setrlimit(resource.RLIMIT_AS, (memory * 1024, memory * 1024))


def way_of(ended):
    """In which way a run ended whose answer is not the wanted one."""
    if ended.status is None:
        return WAYS[1]
    return WAYS[0] if is_killed(ended) else WAYS[2]


def is_killed(ended):
    return ended.status is not None and ended.status < 0


def answer_of(ended):
    """The last line of a run, with the kind of the first error before it, or how the process was ended."""
    if ended.status is None:
        return "out of time"
    if is_killed(ended):
        return f"signal {-ended.status}"
    lines = ended.text.splitlines() or [""]
    kinds = [line.split()[1] for line in lines if line.startswith("error ")]
    return f"{lines[-1]} {kinds[0]}" if kinds else lines[-1]


def section(text):
    return f"section m {text.count(chr(10)) + 1}\n{text}\n"


def built(*texts, calls=(), mask="00000001"):
    """A session that builds sections in one module, and then does the calls."""
    lines = [f"{line}\n" for line in ("build m", *calls)]
    return f"module m {mask}\n" + "".join(map(section, texts)) + "".join(lines)


def filled(unit, head=HEAD, tail="}"):
    """The unit as often as there is room in a section, whose last byte is its line's end."""
    return head + unit * ((MOST - 1 - len(head) - len(tail)) // len(unit)) + tail


def table(titles, rows):
    """Prints rows below their titles. The rows may come one by one."""
    print("| " + " | ".join(titles) + " |")
    print("|" + "---|" * len(titles))
    for row in rows:
        print("| " + " | ".join(map(str, row)) + " |", flush=True)


# Statements inside statements, of which each has a `;` of its own, so that operators hold no nest back: what stands before
# the inner statement, what after, and how many statements that is.
NESTS = [
    ("", "", 1),
    ("for(;;)", "", 1),
    ("if(b);else ", "", 1),
    ("for(;;)if(b)", "", 2),
    ("for(;;)while(b)", "", 2),
    ("for(;;)do ", "while(b);", 2),
    ("while(b)for(;;)", "", 2),
    ("if(b)for(;;);else ", "", 1),
    ("for(;;)if(b);else ", "", 2),
    ("for(;;)for(;;)if(b)while(b)", "", 4),
    ("for(;;)if(b)while(b)do ", "while(b);", 4),
    ("for(x;b;x)", "", 1),
]

# What stands at the bottom: the deepest expressions that there may be, and what is refused.
OK, REFUSED = "ok", "refused BuildErrors [A-Za-z]+"
BOTTOMS = {
    "`;`": (";", OK),
    "`x=x=..`": ("x=" * 250 + "x;", OK),
    "`b?x:..`": ("b?x:" * 250 + "x;", OK),
    "63 brackets": ("(" * 63 + "x" + ")" * 63 + ";", OK),
    "63 calls": ("g(x=x=x=" * 63 + "x" + ")" * 63 + ";", OK),
    "a wrong name": ("y;", REFUSED),
    "a wrong sign": (")", REFUSED),
}


CLASS_HEAD = HEAD.replace("void f(){", "class C{void f(){")

# Where the nest stands: what stands in front of it and after, and what is answered where else all is well.
PLACES = {
    "a function": (HEAD, "}", OK),
    "a method": (CLASS_HEAD, "}}", OK),
    "a method before a wrong sign": (CLASS_HEAD, "})}", REFUSED),
}


def nested(nest, bottom, place="a function", levels=LEVELS - 1):
    """A section with a nest as deep as it may be, or as there is room, and the number of its statements around the bottom."""
    before, after, statements = nest
    head, tail, _ = PLACES[place]
    room = MOST - 1 - len(head + bottom + tail)
    count = min(room // len(before + after), levels // statements) if before else 0
    return head + before * count + bottom + after * count + tail, count * statements


def ranks(count):
    """A session in which each object of a class holds one of the next class, and all are given up at once, at a handle's change."""
    classes = [f"class C{n}{{C{n + 1}@ n;}}" for n in range(count - 1)] + [f"class C{count - 1}{{}}"]
    made = [f"C{n}@ c{n}=C{n}();" for n in range(count)]
    joined = [f"@c{n}.n=c{n + 1};" for n in range(count - 1)]
    script = "".join(classes) + "C0@ g;void make(){" + "".join(made + joined) + "@g=c0;}void end(){@g=null;}"
    return built(script, calls=["call m () void make()", "call m () void end()"])


def deep(trials):
    """The deepest sections, objects inside one another, and the declarations of calls that are as long."""

    def too_deep(nest, text, place):
        section, levels = nested(nest, text, place, MOST)
        if levels >= LEVELS:
            trials.tried(f"{levels} of {nest} in {place}", built(section), "refused BuildMemory")

    def least(nest, bottom, place):
        text, wanted = BOTTOMS[bottom]
        wanted = PLACES[place][2] if wanted == OK else wanted
        session = built(nested(nest, text, place)[0])
        trials.tried(f"{nest} around {bottom} in {place}", session, wanted)
        too_deep(nest, text, place)
        return trials.least_stack(session, wanted)

    def rows(place, nests, bottoms):
        for nest in nests:
            name = f"`{'..'.join(filter(None, nest[:2]))}`" if nest[0] else "no statement around it"
            levels = nested(nest, BOTTOMS["`;`"][0], place)[1]
            yield name, levels, *(least(nest, bottom, place) for bottom in bottoms)

    print(f"\nThe least stack for the answer to a section, in KiB of {STACK}, by what stands at its bottom")
    for place in PLACES:
        few = place != "a function"
        bottoms = list(BOTTOMS)[:3] if few else BOTTOMS
        print(f"\nIn {place}:\n")
        table(["Section of", "levels", *bottoms], rows(place, NESTS[1:5] if few else NESTS, bottoms))
    for count, wanted in ((1, OK), (2, OK), (64, OK), (256, OK), (257, "refused NotBuilt Limit")):
        trials.tried(f"objects of {count} classes, each inside the next", ranks(count), wanted)
    print(f"\nObjects of 256 classes, each inside the next, are given up with {trials.least_stack(ranks(256), OK)} KiB of stack")
    decls = [HEAD + "for(;;)" * 9000 + ";}", "void f" + "(" * 60000, "void f(" + "(int a," * 9000 + ")"]
    decls += ["int " + "a," * 30000 + "a", "void f(){" + "{" * 60000, "f" * 60000, "x=" * 30000 + "x"]
    for decl in decls:
        session = built("void f(){}", calls=[f"call m () {decl}"])
        wanted = "refused Memory" if "for(;;)" in decl else "refused NoFunction"
        trials.tried(f"call of {decl[:40]}..", session, wanted)
    print(f"\n{len(decls)} calls whose declarations are as long: refused NoFunction, or Memory where statements nest")


# What is limited, its last value, what makes a session of a number, and what that is answered at the last value and one
# above.
Limit = namedtuple("Limit", "what last session within above")


def named(count, piece):
    return "".join(piece % n for n in range(count))


def operators(unit):
    return lambda n: built(HEAD + unit * n + "x;}")


def called(text, call, *before):
    return built(text, calls=[*before, f"call m {call}"])


def profiled(profile):
    """An empty session below a profile."""
    return {"session": "", "profile": profile}


DEEP = "refused BuildErrors TooDeep"
LONG = "refused BuildErrors TooLong"
MANY = "refused BuildErrors Limit"
ARGUMENTS = "refused BadArguments"
COUNT = "int f(int n){return n<2?n:f(n-1);}"
LOOP = "void f(){for(int i;i<%d;i++);}"  # takes two ticks more

LIMITS = [
    Limit("bytes of a section", MOST, lambda n: built(";" * (n - 1)), OK, LONG),
    Limit("bytes of a name", 255, lambda n: built(f"int {'a' * n};"), OK, LONG),
    Limit("bytes of a text", 255, lambda n: built(f'import void f() from "{"a" * (n - 2)}";'), OK, LONG),
    Limit("a number", 2**64 - 1, lambda n: built(f"uint64 a={n};"), OK, "refused BuildErrors BadNumber"),
    Limit("open `(` and `{`", 64, lambda n: built(HEAD + "(" * (n - 1) + "x" + ")" * (n - 1) + ";}"), OK, DEEP),
    Limit("open `{`", 64, lambda n: built("void f()" + "{" * n + "}" * n), OK, DEEP),
    Limit("operators: `x=..`", 256, operators("x="), OK, DEEP),
    Limit("operators: `x+..`", 256, operators("x+"), OK, DEEP),
    Limit("operators: `~..`", 256, operators("~"), OK, DEEP),
    Limit("operators: `b?x:..`", 256, operators("b?x:"), OK, DEEP),
    Limit("operators: `if(b)..`", 256, operators("if(b)"), OK, DEEP),
    Limit("operators: `while(b)..`", 256, operators("while(b)"), OK, DEEP),
    Limit("statements one inside the other", LEVELS, lambda n: built(HEAD + "for(;;)" * (n - 1) + ";}"), OK, "refused BuildMemory"),
    Limit("`else if` one after the other", LEVELS, lambda n: built(HEAD + "if(b);else " * (n - 1) + ";}"), OK, "refused BuildMemory"),
    Limit("functions", 4096, lambda n: built(named(n, "void f%d(){}")), OK, MANY),
    Limit("globals", 4096, lambda n: built(named(n, "int a%d;")), OK, MANY),
    Limit("globals of one list", 4096, lambda n: built(f"int a{named(n - 1, ',a%d')};"), OK, MANY),
    Limit("classes", 256, lambda n: built(named(n, "class C%d{}")), OK, MANY),
    Limit("classes in a chain", 256, lambda n: built("class C0{}" + "".join(f"class C{i}:C{i - 1}{{}}" for i in range(1, n))), OK, MANY),
    Limit("imports", 256, lambda n: built(named(n, 'import void f%d() from "b";')), OK, MANY),
    Limit("members of a class", 256, lambda n: built("class C{" + named(n, "int a%d;") + "}"), OK, MANY),
    Limit("methods of an interface", 256, lambda n: built("interface I{" + named(n, "void f%d();") + "}"), OK, MANY),
    Limit("parameters", 32, lambda n: built(f"void f({','.join(['int'] * n)}){{}}"), OK, MANY),
    Limit("locals alive at once", 1024, lambda n: built(f"void f(){{{named(n, 'int a%d;')}}}"), OK, MANY),
    Limit("locals of nested loops", 1024, lambda n: built("void f(){" + "for(int i;;)" * n + ";}"), OK, MANY),
    Limit("functions one inside the other", 200, lambda n: called(COUNT, f"({n}) int f(int)"), "ok 1", "fault Depth"),
    Limit("ticks", 1000, lambda n: called(LOOP % (n - 2), "() void f()", "budget 1000"), OK, "fault Budget"),
    Limit("a budget", 2**31 - 1, lambda n: called("void f(){}", "() void f()", f"budget {n}"), OK, "refused BadBudget"),
    Limit("a signed argument", 127, lambda n: called("void f(int8 a){}", f"({n}) void f(int8)"), OK, ARGUMENTS),
    Limit("an unsigned argument", 255, lambda n: called("void f(uint8 a){}", f"({n}u) void f(uint8)"), OK, ARGUMENTS),
    Limit(
        "bytes of a call's declaration",
        MOST - 3,
        lambda n: called("void f(){}", "() void f()" + " " * (n - 8)),
        OK,
        "refused NoFunction",
    ),
    Limit("sections that wait", 64, lambda n: "module m 00000001\n" + section(";") * n, OK, "refused Limit"),
    Limit("modules", 64, lambda n: named(n, "module m%d 00000001\n"), OK, "refused Limit"),
    Limit("bytes of a module's name", 255, lambda n: f"module {'m' * n} 00000001\n", OK, "refused BadName"),
    Limit("registrations", 1024, lambda n: profiled(named(n, "function 0 0 void f%d()\n")), "", "profile 1025 Limit"),
    Limit(
        "parameters of a registration",
        32,
        lambda n: profiled(f"function 0 0 void f({','.join(['int'] * n)})\n"),
        "",
        "profile 1 Limit",
    ),
    Limit("bytes of a profile", 2**20, lambda n: profiled("#" * n), "", "profile 0 TooLong"),
    Limit("bytes of a session", 2**24, lambda n: "#" * n, "", "line 0 TooLong"),
]


def limits(trials):
    """Each limit at its last value, and one above."""

    def rows():
        for limit in LIMITS:
            for number, wanted in ((limit.last, limit.within), (limit.last + 1, limit.above)):
                made = limit.session(number)
                made = made if isinstance(made, dict) else {"session": made}
                trials.tried(f"{limit.what}: {number}", wanted=re.escape(wanted), **made)
            yield limit.what, f"{limit.last:,}", f"`{limit.within or 'nothing'}`", f"`{limit.above}`"

    print("\nEach limit at its last value and one above: what is answered last\n")
    table(["Limit", "last value", "there", "one above"], rows())


TOKEN = re.compile(r'//[^\n]*\n|/\*.*?\*/|\w+|"[^"\n]*"|[-+*/%&|^<>=!]+|\S', re.S)
FUNCTION = re.compile(r"\b(\w+)\s+(\w+)\s*\(([^()]*)\)\s*\{")
WORDS = "if else while for do return break continue true false const in out".split()
CHANGED, A_SESSION = 10000, 50  # changed sections in all, and of a process


def examples(trials):
    """Of each session of the examples its profile, its module's mask, and those of its sections that are read."""
    folder = "crates/examples/data"
    for file in sorted(os.listdir(folder)):
        stem, kind = os.path.splitext(file)
        if kind == ".session" and stem != "refused_profile":
            profiles = [f"{folder}/{it}.profile" for it in (stem, stem.split("_")[0])]
            found = next(filter(os.path.isfile, profiles), None)
            if found is None:
                continue
            profile = open(found).read()
            lines = open(f"{folder}/{file}").read().split("\n")
            mask = next(line.split()[2] for line in lines if line.startswith("module "))
            texts = [it for it in sections_in(lines) if is_read(trials.run(built(it, mask=mask), profile))]
            if texts:
                yield profile, mask, texts


def is_read(ended):
    """Whether the lexer and the parser took the one section of a session."""
    return not re.search("Syntax|BadByte|BadNumber", ended.text)


def sections_in(lines):
    at = 0
    while at < len(lines):
        words = lines[at].split(" ")
        at += 1
        if words[0] == "section":
            yield "\n".join(lines[at : at + int(words[2])])
            at += int(words[2])


def kind_of(token):
    """What a token may be put in for: a token of the same kind, so that the grammar mostly takes it."""
    if re.fullmatch(r"bool|void|u?int(8|16|32|64)?", token):
        return "type"
    if token in WORDS:
        return "statement"
    if re.fullmatch(r"[-+*/%&|^<>=!]+", token):
        return "operator"
    return "name" if token[0].isalpha() else "number" if token[0].isdigit() else token


def statement_at(tokens, at):
    """Where the tokens begin and end that stand between two of `;` `{` `}` around a token, the last of them with it."""
    first = max((n + 1 for n in range(at) if tokens[n] in ";{}"), default=0)
    return first, next((n + 1 for n in range(at, len(tokens)) if tokens[n] in ";{}"), len(tokens))


def change(dice, tokens, others):
    """One change: some tokens are cut or doubled, two are swapped, or one is put in for another of its kind."""
    at, other = dice.randrange(len(tokens)), dice.randrange(len(tokens))
    first, end = dice.choice([statement_at(tokens, at), (at, at + dice.choice([1, 1, 1, 2, 5, 20, 100]))])
    how = dice.choice(["cut", "double", "double", "swap", "take", "take", "take", "take"])
    if how == "cut":
        del tokens[first:end]
    elif how == "double":
        to = dice.choice([first, first, other])
        tokens[to:to] = tokens[first:end] * dice.choice([1, 1, 2, 50])
    elif how == "swap":
        tokens[at], tokens[other] = tokens[other], tokens[at]
    else:
        tokens[at] = dice.choice(others[kind_of(tokens[at])])


def changed_text(dice, text, others):
    """A script with one to six changes."""
    tokens = TOKEN.findall(text)
    for _ in range(dice.choice([1, 1, 1, 2, 3, 6])):
        if 0 < len(tokens) < MOST:
            change(dice, tokens, others)
    return " ".join(tokens)[: MOST - 1].replace("\r", " ")


def calls_of(text):
    """A call of each function of a script by its first declaration, with some value for each parameter."""
    for result, name, params in FUNCTION.findall(text):
        types = [" ".join(it.split()[:1]) for it in params.split(",") if it.strip()]
        values = ["true" if it == "bool" else "1u" if it.startswith("u") else "1" for it in types]
        yield f"call m ({','.join(values)}) {result} {name}({', '.join(types)})"


def commands_of(dice, texts, others):
    """Commands that build changed sections of a session and call what they have, and the bytes of these sections."""
    commands, size = [], 0
    for _ in range(A_SESSION):
        text = changed_text(dice, dice.choice(texts), others)
        size += len(text) + 1
        commands += [section(text), "build m\n", *[f"{call}\n" for call in dict.fromkeys(calls_of(text))][:10]]
    return commands, size


def told(trials, seen, commands, ended):
    """Counts what the commands were answered: each has one outcome, and a refused build its first error before it."""
    kind, outcomes = "", []
    for line in ended.text.splitlines():
        words = line.split(" ")
        if words[0] == "error":
            kind = kind or words[1]
        elif words[0] in ("ok", "fault", "refused"):
            outcomes.append(words[0] if words[0] == "ok" else f"{' '.join(words[:2])} {kind}".strip())
            kind = ""
    if len(outcomes) != len(commands):
        trials.count(WAYS[2], f"{len(outcomes)} answers to {len(commands)} commands")
    words = [command.split(" ")[0] for command in commands]
    seen.update(f"`{word}`: {outcome}" for word, outcome in zip(words, outcomes) if word in ("build", "call"))


def changed(trials):
    """Sections of the examples with changed tokens, each built, and its functions called."""
    dice, seen, size, longest = random.Random(1), Counter(), 0, 0.0
    scripts = list(examples(trials))
    others = defaultdict(list)
    for token in [it for _, _, texts in scripts for text in texts for it in TOKEN.findall(text)]:
        others[kind_of(token)].append(token)
    for first in range(0, CHANGED, A_SESSION):
        profile, mask, texts = dice.choice(scripts)
        commands, more = commands_of(dice, texts, others)
        commands = [f"module m {mask}\n", "budget 2000\n", *commands]
        ended = trials.tried(f"changed sections from number {first}", "".join(commands), ".*", profile=profile)
        if ended.status in (0, 1):
            told(trials, seen, commands, ended)
        size, longest = size + more, max(longest, ended.seconds)
    mean = size // CHANGED
    print(f"\n{CHANGED} changed sections of {mean} bytes on average, {A_SESSION} in at most {longest:.1f} s\n")
    table(["Command and answer", "times"], sorted(seen.items()))


def numbered(head, piece, tail="", most=20000):
    """A piece with a number in it as often as there is room, and at most so often."""
    out, size = [head], len(head) + len(tail)
    for n in range(most):
        size += len(piece % n)
        if size > MOST - 1:
            break
        out.append(piece % n)
    return "".join(out) + tail


def inherited(fields=49, classes=207):
    """Classes of 256 fields in a chain, `fields` of them, and below the last of them `classes` without members."""
    letters = "ABCDEFGHIJKLMNOPQRSTUVWXYZ"
    names = (a + b + c for a in letters for b in letters for c in letters)
    chain = [f"class F{n}{f':F{n - 1}' if n else ''}{{bool {','.join(next(names) for _ in range(256))};}}" for n in range(fields)]
    below = [f"class E{n}:F{fields - 1}{{}}" for n in range(classes)]
    return "".join(chain + below)


ANY = "ok|refused BuildErrors (Limit|Duplicate)"

# What takes most memory: calls inside one another, each with a conversion of its argument.
WORST = "g(" * 62 + "x" + ")" * 62 + ";"
WORST_HEAD = "int8 x;int8 g(int64 n){return n;}void f(){"
MOST_BYTES = 450  # of memory for a byte of source, but for inherited fields: docs/SECURITY.md has it
PARAMETERS = ",".join(["int"] * 32)

# The section, and the most bytes of memory for each of its bytes.
KINDS = [
    ("`;`", filled(";"), 150),
    ("`;` outside of functions", ";" * (MOST - 1), 150),
    ("names: `int a,a0,a1..`", numbered("int a", ",a%d", ";"), 150),
    ("names of one letter: `{int a,b..;}`", filled("{int " + ",".join("abcdefghijklmnopqrstuvw") + ";}"), 150),
    ("refused names: `int a,a..`", "int a" + ",a" * 32000 + ";", 300),
    ("refused names: `int a;int a..`", "int a;" * 10900, 300),
    ("`(x);`", filled("(x);"), 300),
    ("60 brackets around each `x`", filled("(" * 60 + "x" + ")" * 60 + ";"), 300),
    ("`x;`", filled("x;"), 300),
    ("`x=x+1;`", filled("x=x+1;"), 300),
    ("`void f0(){}`", numbered("", "void f%d(){}", most=4096), 300),
    ("32 parameters: `void f0(int,int..){}`", numbered("", f"void f%d({PARAMETERS}){{}}"), 300),
    ("1,000 times `for(;;)` one inside the other", filled("for(;;)" * 1000 + ";"), MOST_BYTES),
    ("`{int a;}`", filled("{int a;}"), 300),
    ("250 times `x+` in a statement", filled("x+" * 250 + "x;"), MOST_BYTES),
    ("250 times `~`", filled("~" * 250 + "x;"), MOST_BYTES),
    ("`g(x);`", filled("g(x);"), MOST_BYTES),
    ("`x=u+x;` of small types", filled("x=u+x;", "int8 x;uint8 u;void f(){"), MOST_BYTES),
    ("62 calls one inside the other", filled(WORST, WORST_HEAD), MOST_BYTES),
    ("49 classes of 256 fields in a chain, 207 empty ones below", inherited(), 900),
]


def memory(trials):
    """The resident memory of a build above that of an empty one, for each byte of source."""
    empty = trials.tried("an empty section", built(""), OK, measured=True).resident

    def rows():
        for name, text, bound in KINDS:
            ended = trials.tried(name, built(text), ANY, measured=True)
            figure = ((ended.resident or 0) - empty) / len(text)
            trials.held(name, figure, bound)
            yield name, f"{len(text):,}", f"{figure:.0f}", bound, f"`{answer_of(ended)}`"

    print(f"\nMemory of a build, above the {empty // 1024} KiB of one of an empty section\n")
    table(["Section of", "bytes", "bytes of memory a byte", "the most", "answer"], rows())
    events(trials)


# What asks the host, the line of asrun for it, and the most bytes of an event: 128, 32 for the caller's name, and for an
# argument 32, and 24 that the console notes.
HOST_CALLS = [("reg;", "host m 1 0 - () 0\n", 128 + 32), ("put(x);", "host m 0 0 - (0) void\n", 128 + 32 + 32 + 24)]


def events(trials):
    """The resident memory of a call, for each host call in its reply, without asrun's text of it."""
    few, many = 1 << 15, 1 << 18

    def resident(text, count):
        script = f"int64 x;void f(){{for(;;){text}}}"
        session = called(script, "() void f()", f"budget {count + 2}")
        return trials.tried(f"{count} times {text}", session, "fault Budget", measured=True).resident or 0

    def rows():
        for text, line, bound in HOST_CALLS:
            figure = (resident(text, many) - resident(text, few)) / (many - few) - len(line)
            trials.held(text, figure, bound)
            yield f"`{text}`", f"{figure:.0f}", bound

    print("\nMemory of a call for each host call\n")
    table(["Host call", "bytes", "the most"], rows())


def sections(unit, head=HEAD):
    """64 full sections of a unit, each in a function of its own. The first has what all use."""
    return [filled(unit, head)] + [filled(unit, f"void f{n}(){{") for n in range(63)]


def limited(trials):
    """The sections that take most memory, and one that takes most stack, below limits of the process's memory.

    The deepest section is built first, so that the stack has grown before memory runs out: a stack that can't grow ends
    the process.
    """
    deepest = nested(("for(;;)", "", 1), BOTTOMS["`x=x=..`"][0])[0]
    then = sections(WORST, WORST_HEAD)[:5] + [deepest.replace(HEAD, "bool b;void deep(){")]
    session = built(deepest) + "".join(map(section, then)) + "build m\n"
    seen = Counter()
    for memory in range(24, 224, 4):
        ended = trials.tried(f"below {memory} MiB", session, "ok|refused BuildMemory", memory=memory << 10)
        seen[answer_of(ended)] += 1
    print("\nBuilds below limits of memory from 24 to 220 MiB (`ulimit -v`), each after one of the deepest section\n")
    table(["Answer", "times"], sorted(seen.items()))


def full(trials):
    """64 full sections in one build."""
    kinds = {
        "1,000 times `for(;;)` one inside the other": sections("for(;;)" * 1000 + ";"),
        "`;`": sections(";"),
        "`x=x+1;`": sections("x=x+1;"),
        "62 calls one inside the other": sections(WORST, WORST_HEAD),
    }

    def rows():
        for name, texts in kinds.items():
            size = sum(len(it) + 1 for it in texts)
            ended = trials.tried(f"64 sections of {name}", built(*texts), OK, measured=True)
            resident = ended.resident or 0
            trials.held(f"64 sections of {name}", resident / size, MOST_BYTES)
            figures = [f"{size:,}", f"{ended.seconds:.1f}", resident >> 20, f"{resident / size:.0f}"]
            yield name, *figures, f"`{answer_of(ended)}`"

    print("\n64 full sections in one build\n")
    table(["Sections of", "bytes", "seconds of processor", "MiB", "bytes of memory a byte", "answer"], rows())


def nestings(trials):
    """All nests of one, two and three kinds of statement, around each bottom."""
    count = 0
    for (cycle, program, stack), wrong in nests.tried(trials.programs):
        count += 1
        if wrong:
            way = WAYS[0] if "signal" in wrong else WAYS[2]
            trials.count(way, f"{' '.join(cycle)} with {stack} KiB of {program}: {wrong}")
    trials.runs += count
    kinds, bottoms = len(nests.KINDS), len(nests.bottoms(1))
    print(f"\nNests of up to three of {kinds} kinds of statement, {bottoms} bottoms in each, {nests.STACKS} KiB: {count} processes")


def answered(trials):
    """Calls that ask the host until memory runs out."""

    def rows():
        for (name, script, memory), wrong, calls in replies.tried(trials.programs):
            trials.runs += 1
            if wrong:
                trials.count(WAYS[2], f"{name}, {script} below {memory} MB: {wrong}")
            yield name, f"`{script}`", memory, f"{calls:,}"

    print("\nCalls that ask the host until memory runs out, and how many host calls their replies list\n")
    table(["Program", "script", "MB", "host calls"], rows())


PARTS = {
    "deep": deep,
    "nests": nestings,
    "limits": limits,
    "changed": changed,
    "limited": limited,
    "replies": answered,
    "full": full,
    "memory": memory,
}


def main():
    programs, chosen = sys.argv[1:3], sys.argv[3:] or list(PARTS)
    unknown = [part for part in chosen if part not in PARTS]
    if unknown or ({"full", "memory"} & {*chosen} and not os.path.exists(GNU_TIME)):
        sys.exit(f"no such part: {unknown}" if unknown else f"the parts full and memory need GNU time, at {GNU_TIME}")
    folder = tempfile.mkdtemp()
    trials = Trials(programs, folder)
    try:
        for part in chosen:
            PARTS[part](trials)
    finally:
        shutil.rmtree(folder)
    print(f"\n{trials.runs} runs: " + ", ".join(f"{trials.bad[way]} {way}" for way in WAYS))
    sys.exit(1 if trials.bad else 0)


if __name__ == "__main__":
    main()
