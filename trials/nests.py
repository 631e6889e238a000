"""All nests of one, two and three kinds of statement, with each of the bottoms, at two sizes of the stack.

Each nest is tried as deep as statements may stand inside one another, and as deep as there is room, which is then want of
memory. No process may end by a signal.
"""

import itertools
import os
import re
import resource
import subprocess
import tempfile
from concurrent.futures import ThreadPoolExecutor

MOST = 65536  # bytes of a section
LEVELS = 4000  # statements one inside the other, the innermost one among them
STACKS = [8192, 6656]  # KiB
OPERATORS = 250  # of the 256 since the last `;` `{` or `}`
BRACES = 30  # around the bottom, whose brackets leave room for so many

# What stands before the inner statement and after it.
KINDS = {
    "for": ("for(;;)", ""),
    "while": ("while(b)", ""),
    "do": ("do ", "while(b);"),
    "if": ("if(b)", ""),
    "else": ("if(b);else ", ""),
    "{": ("{", "}"),
}

HEAD = "int x;bool b;int g(int n){return n;}"
PLACES = [("void f(){", "}"), ("class C{void f(){", "}}"), ("class A{}class C:A{C(){super();", "}}")]

OK, REFUSED, MEMORY = "ok", "refused BuildErrors", "refused BuildMemory"


def around(before, count, middle, after):
    return before * count + middle + after * count + ";"


def bottoms(brackets):
    """What stands at the bottom, and the answer to a build of it."""
    calls = "g(x=x=x="
    return [
        (";", OK),
        ("x=" * 250 + "x;", OK),
        ("b?x:" * 250 + "x;", OK),
        (around("(", brackets, "x", ")"), OK),
        (around(calls, brackets, "x", ")"), OK),
        ("y;", REFUSED),
        (")", REFUSED),
        ("x=" * 250 + "y;", REFUSED),
        (around(calls, brackets, "hidden(x)", ")"), REFUSED),
        ("x=" * 250 + "hidden(x);", REFUSED),
        (calls * brackets + "x,;", REFUSED),
    ]


PROFILE = "mask 00000001\nfunction 0 0 void put(int64)\nmask 00000002\nfunction 0 0 int hidden(int64)\n"


def steps(cycle):
    """The kinds of a nest from the outside, with a `for` where there were too many operators since the last sign."""
    operators, braces = 0, 0
    for kind in itertools.cycle(cycle):
        if kind == "{" and braces == BRACES:
            kind = "for" if set(cycle) == {"{"} else None
        if kind is None:
            continue
        if kind in ("while", "do", "if") and operators == OPERATORS:
            yield "for"
            operators = 0
        yield kind
        braces += kind == "{"
        operators = {"for": 0, "{": 0, "else": 1}.get(kind, operators + 1)


def nested(cycle, most, bottom, place):
    """A section with so many statements around the bottom, or as many as there is room for; and how many they are."""
    head, tail = HEAD + place[0], place[1]
    room = MOST - 1 - len(head + "for(;;)" + bottom + tail)
    before, after = [], []
    for kind in steps(cycle):
        room -= len("".join(KINDS[kind]))
        if room < 0 or len(before) + 1 == most:
            break
        before.append(KINDS[kind][0])
        after.append(KINDS[kind][1])
    before.append("for(;;)")
    return head + "".join(before) + bottom + "".join(reversed(after)) + tail, len(before)


def session_of(cycle):
    """A session that builds each section of a nest, and what it is to answer."""
    lines, wanted = ["module m 00000001\n"], [OK]
    brackets = 60 - BRACES if "{" in cycle else 60
    for number, (bottom, answer) in enumerate(bottoms(brackets)):
        for most in (LEVELS - 1, MOST):
            text, levels = nested(cycle, most, bottom, PLACES[number % len(PLACES)])
            lines.append(f"section m 1\n{text}\nbuild m\n")
            wanted += [OK, answer if levels < LEVELS else MEMORY]
    return "".join(lines), wanted


def limit_to(stack):
    resource.setrlimit(resource.RLIMIT_STACK, (stack * 1024, stack * 1024))


def answers(program, session, stack):
    """The answers of asrun or asremote to a session that asks nothing, or how the process ended."""
    with tempfile.TemporaryDirectory() as folder:
        for name, text in (("profile", PROFILE), ("session", session)):
            with open(f"{folder}/{name}", "w", newline="\n") as out:
                out.write(text)
        words = [program, "--profile", f"{folder}/profile"]
        if os.path.basename(program) == "asrun":
            words += ["--session", f"{folder}/session"]
        with open(f"{folder}/session", "rb") as source:
            ran = subprocess.run(words, stdin=source, capture_output=True, preexec_fn=lambda: limit_to(stack), env={})
    if ran.returncode < 0:
        return [f"signal {-ran.returncode}"]
    lines = ran.stdout.decode("latin-1").splitlines()
    return [line for line in lines if re.match("ok|refused|fault|line", line)]


def tried(programs):
    """Each nest in each program at each size of the stack, with what is wrong with its answers; nothing where it is right."""
    cycles = [it for length in (1, 2, 3) for it in itertools.product(KINDS, repeat=length)]
    sessions = {cycle: session_of(cycle) for cycle in cycles}

    def run(one):
        cycle, program, stack = one
        session, wanted = sessions[cycle]
        found = answers(program, session, stack)
        if found == wanted:
            return one, None
        at = next((n for n, pair in enumerate(zip(found, wanted)) if pair[0] != pair[1]), min(len(found), len(wanted)))
        return one, f"answer {at}: {found[at:at + 1]}, where {wanted[at:at + 1]} is wanted"

    with ThreadPoolExecutor(os.cpu_count()) as pool:
        yield from pool.map(run, itertools.product(cycles, programs, STACKS))
