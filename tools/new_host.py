#!/usr/bin/env python3
"""Makes a host in Rattle to start from: a copy of crates/host_template under a name of its own.

    python3 tools/new_host.py NAME [OBJECT]

NAME is of lowercase letters, digits and `_`, and no crate's yet. The copy is crates/NAME, a program that gives scripts
objects of its own and runs one script; it has a line in crates.txt, and what it prints stands in crates/NAME/stdout.
Its objects are doors. With OBJECT, a name such as `Chest` or `OakTable`, all that is named after doors is named after
that: the script's type, the driver (`Chests`), its file (src/chests.rt), its specs and proofs. docs/RATTLE_HOST.md says
what to change. The status is 0 where it was made, else 2.
"""

import os
import re
import sys

TEMPLATE = "host_template"
OBJECT = "Door"
SAYS = """crates/{name} is made. In that folder:

    rt try      runs it, without a proof (some minutes); it should print what stands in stdout
    rt check    proves it, and first the crates below it that were not proved here yet (all of them take an hour and more)
    rt run      proves it, builds it as a program, and runs it

What is yours: src/main.rt says what scripts are offered and runs one, src/{objects}.rt is the driver behind it. Put what
it prints into stdout: `rt ci` compares. docs/RATTLE_HOST.md goes on from here.
"""


def crates_of(top):
    """The names of crates.txt, and its text."""
    text = text_of(f"{top}/crates.txt")
    return set(re.findall(r"^(\w+)(?= *\w*:)", text, re.M)), text


def why_not(name, names, top):
    """Why a crate can't have the name, or None."""
    if not re.fullmatch("[a-z][a-z0-9_]*", name) or name.startswith("ang_"):
        return "a name has lowercase letters, digits and _, begins with a letter, and not with ang_, as the engine's crates do"
    if name in names or os.path.exists(f"{top}/crates/{name}"):
        return f"there is a crate {name} already"
    return None


def why_not_of(thing, top):
    """Why the template's objects can't have the name, or None."""
    if not re.fullmatch("([A-Z][a-z0-9]+)+", thing):
        return "an object's name is of words that begin with a capital letter each, such as OakTable"
    taken = {word for path in files_of(f"{top}/crates/{TEMPLATE}") for word in re.findall(r"\w+", text_of(path))}
    clash = taken & {thing, f"{thing}s", lowercase(thing), f"{lowercase(thing)}s"}
    if thing != OBJECT and clash:
        return f"the template has the name {min(clash)} already"
    return None


def lowercase(thing):
    """The name as variables and files have it: oak_table of OakTable."""
    return re.sub("(?<!^)([A-Z])", r"_\1", thing).lower()


def files_of(folder):
    """The paths of all files in a folder, but those that were built."""
    for inside, folders, files in os.walk(folder):
        folders[:] = [it for it in folders if it != "out"]
        yield from (os.path.join(inside, it) for it in files)


def text_of(path):
    with open(path, encoding="utf-8") as file:
        return file.read()


def copied(top, name, thing):
    """Copies the files of the template, under the names."""

    def renamed(text):
        return text.replace(OBJECT, thing).replace(lowercase(OBJECT), lowercase(thing))

    template = f"{top}/crates/{TEMPLATE}"
    for path in files_of(template):
        to = f"{top}/crates/{name}/{renamed(os.path.relpath(path, template))}"
        os.makedirs(os.path.dirname(to), exist_ok=True)
        with open(to, "w", encoding="utf-8") as file:
            file.write(renamed(text_of(path)).replace(TEMPLATE, name))


def listed(text, name):
    """The text of crates.txt with the crate at its end."""
    line = re.search(f"^{TEMPLATE}:.*$", text, re.M).group()
    return text.rstrip("\n") + f"\n\n# A host of our own\n{line.replace(TEMPLATE, name)}\n"


def main():
    if len(sys.argv) not in (2, 3) or sys.argv[1].startswith("-"):
        print(__doc__)
        return 2
    top, name = os.path.dirname(os.path.dirname(os.path.realpath(__file__))), sys.argv[1]
    thing = sys.argv[2] if len(sys.argv) == 3 else OBJECT
    names, text = crates_of(top)
    refused = why_not(name, names, top) or why_not_of(thing, top)
    if refused:
        print(refused, file=sys.stderr)
        return 2
    copied(top, name, thing)
    with open(f"{top}/crates.txt", "w", encoding="utf-8") as file:
        file.write(listed(text, name))
    print(SAYS.format(name=name, objects=f"{lowercase(thing)}s"), end="")
    return 0


if __name__ == "__main__":
    sys.exit(main())
