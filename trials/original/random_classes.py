#!/usr/bin/env python3
"""Runs random scripts of classes, handles and host objects with the AngelScript library and with asrun, and compares.

    trials/original/random_classes.py ASRUN [COUNT [SEED]]

Needs g++ and Debian's angelscript-dev. ASRUN is the executable of crates/asrun. Compared are the end of the build or of
the call, each call of the host with its object, arguments and answer, and the ends of the host's objects, in order. Prints
each script that goes otherwise, how many ended how, and in how many what was made happened.

The scripts (class_scripts.py) keep to what both languages mean alike (docs/COMING_FROM.md, "Different"). The
library gives up an object's fields, parameters, globals and what a fault leaves in another order, and collects objects of a
class with a handle to what others may derive from ("Ends of objects" there). So a script is of one of three kinds:
ordered    there is one handle at most among the fields of an object, the parameters of a function and the globals, and
           fields lead to final classes and to the host: all is compared in order, but the ends that a fault brings;
grouped    fields lead to final classes and to the host: the ends between two calls of the host are compared as a set;
collected  fields lead to any class or interface: the ends are compared as one set.
"""
import collections, itertools, os, re, subprocess, sys, tempfile
from concurrent.futures import ThreadPoolExecutor

from class_scripts import MARKS, Script

HERE = os.path.dirname(os.path.abspath(__file__))
PROFILE = """mask 00000001
type Counter 1
factory Counter 0 Counter@ f()
factory Counter 1 Counter@ f(int)
method Counter 0 void bump()
method Counter 1 int value() const
property Counter 0 int step
type Cell 2
factory Cell 0 Cell@ f(int)
factory Cell 1 Cell@ f(Cell@+, int)
method Cell 0 int get() const
method Cell 1 void set(int)
function 2 2 Cell@+ pick(Cell@+)
function 0 0 void print(int64)
function 0 1 int64 sum(int64, int64)
"""
STEP = "host a 5 "  # asked of a property, which is memory in the library
# scripts in a session, which takes 16 MiB at most
BATCH = 500
# how an exception of the library is called here
FAULTS = {"Null pointer access": "Null", "Divide by zero": "DivideByZero"}
# what is counted where one mark, or an end, directly follows another
AFTER = {
    "a call through a base class's handle reached an override": (9001, 9003),
    "a call through an interface's handle reached an override": (9002, 9003),
    "a host object ended with a block": ("end", 9006), "a host object ended at a break": (9007, "end"),
    "a host object ended at a continue": (9014, "end"), "a host object ended at an early return": (9008, "end"),
    "a host object ended as its handle was set to null": ("end", 9013),
    "two host objects ended one after the other": ("end", "end"),
}


def there(program, text):
    """What happens in a script of the library, and the errors of its build."""
    ran = subprocess.run([program], input=text, capture_output=True, text=True, timeout=60)
    errors = [line for line in ran.stderr.splitlines() if line.startswith("error")]
    lines = ran.stdout.splitlines()
    for at, line in enumerate(lines):
        if line == "refused" and any("Failed to initialize global variable" in error for error in errors):
            lines[at] = "refused InitFailed"
        if line.startswith("exception "):
            lines[at] = "fault " + FAULTS.get(line[10:], line[10:])
    return lines + ([f"status {ran.returncode}"] if ran.returncode else []), errors


def here(asrun, texts, room):
    """What happens in each of the scripts with asrun, all in one session, with the keys of objects counted from 0 in each."""
    profile, session = os.path.join(room, "profile"), os.path.join(room, "session")
    with open(profile, "w") as out:
        out.write(PROFILE)
    with open(session, "w") as out:
        out.write("budget 10000000\nmodule a 00000001\n")
        for text in texts:
            out.write(f"section a {text.count(chr(10))}\n{text}build a\ncall a () int64 m()\nbuild a\n")
    ran = subprocess.run([asrun, "--profile", profile, "--session", session], capture_output=True, text=True, timeout=600)
    lines = iter(ran.stdout.splitlines()[2:])
    made, ends = collections.Counter(), []
    for _ in texts:
        first = collections.Counter(made)
        next(lines)
        built, called, after = reply(lines), reply(lines), reply(lines)
        events = built[:-1] + called + after[:-1] if built[-1] == "ok" else built + after[:-1]
        made.update(line.split(" ")[3] for line in events if " made #" in line)
        ends.append([counted(line, first) for line in events if not line.startswith(STEP)])
    return ends


def reply(lines):
    taken = [next(lines)]
    while taken[-1].startswith(("host", "end", "error")):
        taken.append(next(lines))
    return taken


def counted(line, first):
    """The line with keys that begin at 0, and without which fault an initializer had, which the library does not say."""
    if line.startswith("refused InitFailed"):
        return "refused InitFailed"
    if not line.startswith(("host", "end")):
        return line
    driver = line.split(" ")[3 if line.startswith("host") else 1]
    return re.sub(r"#(\d+)", lambda key: f"#{int(key[1]) - first[driver]}", line)


def compared(lines, kind):
    """What is compared of a script of this kind."""
    ends = [line for line in lines if line.startswith("end")]
    if kind == "collected":
        return [line for line in lines if not line.startswith("end")] + sorted(ends)
    fault = any(line.startswith(("fault", "refused")) for line in lines)
    if kind == "ordered" and not fault:
        return lines
    groups, run = [], []
    for line in lines + [""]:
        if line.startswith("end"):
            run.append(line)
        else:
            groups += sorted(run) + [line]
            run = []
    return groups[:-1]


def happened(lines):
    """What happened in a script, of what is counted."""
    told = []
    for line in lines:
        mark = re.match(r"host a 12 0 - \((\d+)\)", line)
        told.append(int(mark[1]) if mark else line.split(" ")[0])
    pairs = set(zip(told, told[1:]))
    found = [what for what, mark in MARKS.items() if mark in told] + [what for what, pair in AFTER.items() if pair in pairs]
    ends = [line for line in lines if line.startswith(("ok", "fault", "refused"))]
    return found + ["ended: " + ("ok" if end.startswith("ok") else end) for end in ends]


def main():
    asrun = os.path.abspath(sys.argv[1])
    count = int(sys.argv[2]) if len(sys.argv) > 2 else 1000
    seed = int(sys.argv[3]) if len(sys.argv) > 3 else 1
    scripts = [Script(seed * 1_000_000 + at) for at in range(count)]
    texts = [script.text() for script in scripts]
    with tempfile.TemporaryDirectory() as room:
        program = os.path.join(room, "host")
        subprocess.run(["g++", "-O1", "-o", program, f"{HERE}/classes_host.cpp", "-langelscript", "-lpthread"], check=True)
        ours = [end for at in range(0, count, BATCH) for end in here(asrun, texts[at : at + BATCH], room)]
        with ThreadPoolExecutor(len(os.sched_getaffinity(0))) as pool:
            theirs = list(pool.map(lambda text: there(program, text), texts))
    seen, differ = collections.Counter(), 0
    for at, (script, own, (other, errors)) in enumerate(zip(scripts, ours, theirs)):
        one, two = compared(own, script.kind), compared(other, script.kind)
        if one == two:
            seen.update([script.kind] + happened(own))
            continue
        differ += 1
        print(f"--- script {at} of seed {seed}, {script.kind}\n{script.text()}\n    {'there':40}  here")
        for a, b in itertools.zip_longest(two, one, fillvalue=""):
            print(f"    {a:40}  {b}{'' if a == b else '   <--'}")
        print("".join(f"    {error}\n" for error in errors))
    for what, number in sorted(seen.items()):
        print(f"{what}: {number}")
    print(f"{count} scripts, {differ} differ")
    return differ > 0


if __name__ == "__main__":
    sys.exit(main())
