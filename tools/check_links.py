#!/usr/bin/env python3
"""Checks what the pages of the repository refer to.

    python3 tools/check_links.py

It reads each .md file below the top, and prints a line `FILE:LINE: what is wrong` where one of these does not hold:

- a relative link `[text](path#anchor)` leads to a file or folder, and its anchor to a heading there, as GitHub names them;
- `docs/NAME.md, "Title"` names a page with that heading (or with a paragraph that begins with it in bold), and so does `("Title")`
  the page where it stands;
- no page for users names a crate of the engine (`ang_..`);
- a path that begins with a folder of the top or with the name of a crate is there. A `*` stands for any text, a component in
  capitals (`crates/NAME`) for any name, and what a build makes (`out`) is not looked for;
- docs/ARCHITECTURE.md has one row for each crate of crates.txt, and docs/CLAIMS.md says of each what is proved, once, under its name in bold.

It ends with the status 1 where something is wrong, and else with 0.
"""

import os
import re
import sys
from functools import cache
from glob import glob

TOP = os.path.dirname(os.path.dirname(os.path.abspath(__file__)))
FENCE = re.compile(r"^\s*(```|~~~)")
HEADING = re.compile(r"^#{1,6} +(.*?)(?: +#+)?$")
BOLD = re.compile(r"^(?:- |\d+\. )?\*\*(.+?)\*\*")
LINK = re.compile(r"\[[^\]]*\]\(([^()\s]+)(?: \"[^\"]*\")?\)")
REFERENCE = re.compile(r'([\w/]+\.md)(?:, | \(|: )((?:"[^"]+"(?:, | and )?)+)')
OWN_REFERENCE = re.compile(r'(?<!\.md )\((?:above, |below, )?("[A-Z][^"]*")\)')
PATH = re.compile(r"[\w.*-]+(?:/[\w.*-]+)+/?")
CRATE = re.compile(r"^(\w+)\b.*:")
INNER_CRATE = re.compile(r"\bang_\w+")
FOR_USERS = {"README.md", *(f"docs/{name}.md" for name in "START HOST LANGUAGE FORMATS COMING_FROM SECURITY CHANGES".split())}


def read(path):
    with open(path, encoding="utf-8") as file:
        return file.read()


def pages():
    """The .md files of the repository, without what builds leave behind."""
    for folder, inner, names in os.walk(TOP):
        inner[:] = sorted(name for name in inner if name not in ("out", "target") and not name.startswith("."))
        yield from (os.path.join(folder, name) for name in sorted(names) if name.endswith(".md"))


def lines_of(path):
    """The lines outside of fenced blocks, with their numbers."""
    is_fenced = False
    for number, line in enumerate(read(path).splitlines(), 1):
        if FENCE.match(line):
            is_fenced = not is_fenced
        elif not is_fenced:
            yield number, line


@cache
def titles_of(path):
    """What a reference to a page may name: its headings, and the bold words that begin a paragraph."""
    found = (HEADING.match(line) or BOLD.match(line) for _, line in lines_of(path))
    return {it.group(1).rstrip(".:").replace("`", "") for it in found if it}


def anchors_of(path):
    """The anchors of a page's headings: small letters, digits, `-` and `_`, where a second one of a name ends in `-1`."""
    seen = {}
    for _, line in lines_of(path):
        heading = HEADING.match(line)
        if heading:
            text = re.sub(r"\[([^\]]*)\]\([^)]*\)", r"\1", heading.group(1)).lower()
            anchor = re.sub(r"[^\w\- ]", "", text).replace(" ", "-")
            count = seen.get(anchor, 0)
            seen[anchor] = count + 1
            yield f"{anchor}-{count}" if count else anchor


def without_code(line):
    return re.sub(r"`[^`]*`", "", line)


def link_faults(page, line):
    for target in LINK.findall(without_code(line)):
        if re.match(r"[a-z]+:", target):
            continue
        path, _, anchor = target.partition("#")
        place = os.path.normpath(os.path.join(os.path.dirname(page), path)) if path else page
        if not os.path.exists(place):
            yield f"no file {target}"
        elif anchor and anchor not in anchors_of(place):
            yield f"no anchor {target}"


def reference_faults(page, line):
    named = [(os.path.join(TOP, path), titles) for path, titles in REFERENCE.findall(line)]
    for place, titles in named + [(page, title) for title in OWN_REFERENCE.findall(without_code(line))]:
        known = titles_of(place) if os.path.isfile(place) else set()
        missing = (title for title in re.findall(r'"[^"]+"', titles) if title[1:-1] not in known)
        yield from (f"no heading {title} in {os.path.relpath(place, TOP)}" for title in missing)


def is_told(path, first_names):
    """Whether a path says by its first component where it begins, and names no file that a build makes."""
    parts = path.split("/")
    return parts[0] in first_names and "out" not in parts


def path_faults(page, line, crates):
    first_names = {name for name in os.listdir(TOP) if os.path.isdir(os.path.join(TOP, name))} | crates
    for path in PATH.findall(line):
        path = path.rstrip(".")
        if not is_told(path, first_names):
            continue
        pattern = "/".join("*" if re.fullmatch(r"[A-Z]+", part) and part != "HANDLES" else part for part in path.split("/"))
        places = (os.path.join(base, pattern) for base in (TOP, os.path.join(TOP, "crates"), os.path.dirname(page)))
        if not any(glob(place) for place in places):
            yield f"no path {path}"


def name_faults(page, line):
    """Where a page for users names a crate of the engine."""
    if os.path.relpath(page, TOP) in FOR_USERS:
        yield from (f"{name} stands in a page for users" for name in INNER_CRATE.findall(line))


def crate_faults(crates):
    """Where a crate is not described just once."""
    rows = [it.group(1) for it in re.finditer(r"^\| `(\w+)` \|", read(f"{TOP}/docs/ARCHITECTURE.md"), re.M)]
    heads = [name for name in re.findall(r"\*\*`(\w+)`\*\*", read(f"{TOP}/docs/CLAIMS.md")) if name in crates]
    for page, names in (("docs/ARCHITECTURE.md", rows), ("docs/CLAIMS.md", heads)):
        for crate in sorted(crates | set(names)):
            if names.count(crate) != (crate in crates):
                yield f"{page}:1: `{crate}` stands there {names.count(crate)} times"


def main():
    crates = {it.group(1) for it in map(CRATE.match, read(f"{TOP}/crates.txt").splitlines()) if it}
    faults = list(crate_faults(crates))
    for page in pages():
        for number, line in lines_of(page):
            found = [*link_faults(page, line), *reference_faults(page, line), *name_faults(page, line)]
            found += path_faults(page, line, crates)
            faults += [f"{os.path.relpath(page, TOP)}:{number}: {fault}" for fault in found]
    print("\n".join(faults) if faults else "all that is referred to is there")
    return 1 if faults else 0


if __name__ == "__main__":
    sys.exit(main())
