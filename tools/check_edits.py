#!/usr/bin/env python3
"""Checks that each must-fail edit can still be applied.

    python3 tools/check_edits.py [CRATE..]

It reads crates/CRATE/must-fail/*.edit and trials/edits/CRATE/*.edit, of the crates that are named or of all, and prints a line
`EDIT: what is wrong` where one of these does not hold, by the gate's own rules:

- a line `file:` names a file below src/, specs/ or proofs/ of the crate, and at least one pair of lines `old:` and `new:` comes after it;
- the text of `old:` stands there exactly once, after the pairs before it were put in;
- the edit changes something, and no other edit of the crate changes the same in the same way.

It proves nothing: an edit that applies may not compile, or not be refused. It ends with the status 1 where something is wrong.
"""

import os
import sys
from glob import glob

TOP = os.path.dirname(os.path.dirname(os.path.abspath(__file__)))


def read(path):
    with open(path, encoding="utf-8") as file:
        return file.read()


def edited(edit, folder):
    """The texts of the files that an edit changes, by their path in the crate's folder, or a `ValueError` that says why there are none."""
    path, old, texts, before = "", "", {}, {}
    for line in read(edit).split("\n"):
        if line.startswith("file: "):
            path = line[len("file: ") :].strip()
            if not path.startswith(("src/", "specs/", "proofs/")) or os.path.normpath(path) != path or not os.path.isfile(f"{folder}/{path}"):
                raise ValueError(f"there is no file {path}")
            before[path] = read(f"{folder}/{path}")
            texts.setdefault(path, before[path])
        elif line.startswith("old: "):
            old = line[len("old: ") :]
        elif line.startswith("new:"):
            if not path or not old:
                raise ValueError("'new:' stands before 'file:' or 'old:'")
            if texts[path].count(old) != 1:
                raise ValueError(f"{path} has the text {texts[path].count(old)} times: {old.strip()}")
            texts[path], old = texts[path].replace(old, line[len("new:") :].removeprefix(" ")), ""
    if texts == before:
        raise ValueError("it changes nothing")
    return texts


def main():
    bad, wanted = 0, sys.argv[1:]
    for crate in wanted or sorted(os.listdir(f"{TOP}/crates")):
        folder, seen = f"{TOP}/crates/{crate}", {}
        for edit in sorted(glob(f"{folder}/must-fail/*.edit")) + sorted(glob(f"{TOP}/trials/edits/{crate}/*.edit")):
            name = os.path.relpath(edit, TOP)
            try:
                texts = tuple(sorted(edited(edit, folder).items()))
                if texts in seen:
                    raise ValueError(f"it does the same as {seen[texts]}")
                seen[texts] = name
            except ValueError as error:
                print(f"{name}: {error}")
                bad += 1
    for folder in glob(f"{TOP}/trials/edits/*/"):
        if not os.path.isdir(f"{TOP}/crates/{os.path.basename(folder[:-1])}"):
            print(f"{os.path.relpath(folder, TOP)}: there is no such crate")
            bad += 1
    return 1 if bad else 0


if __name__ == "__main__":
    sys.exit(main())
