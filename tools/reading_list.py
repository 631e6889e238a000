#!/usr/bin/env python3
"""Lists what a reader of the main theorems has to read, in reading order, and counts its lines.

    python3 tools/reading_list.py [--files] [--conversation] [--by-laws] [PLACE ..]

It begins at the contracts of `Engine::apply`, `Engine::discard` and `session`, with `--conversation` also at that of `converse` and at the
laws of a conversation; or at those that are named, each PLACE as `ang_engine/src/engine.rt:Engine::apply`. From there it goes name by name:
to the definitions of specs/ that a clause cites, to those that they cite, and so on. Where one names a type of Rust, by `specs.declared` or
in a function's head, it goes to the `struct` or `enum`, to the value that an `impl Model` gives it in contracts, and of a `trait` to all
clauses. With `--by-laws` a law stands for a definition of which it says what counts: by a grammar what a parser gives, by relations which
candidate is picked, what a profile declares (not which one is refused), that places of statements mean nothing, that `IsSound` is met. It
prints

- each contract, with how many lines it reaches, and how many of them none before it does;
- each file, crates as in crates.txt, and in a crate what is cited before what cites it, with how many lines of it are reached and, without
  `--files`, with the names: `LINE NAME (LINES)`;
- how many lines there are of definitions and of source types, and the libraries of the kit, with how many of their names are cited.

Comments, blank lines, attributes and `use` lines don't count. Types that no definition names, and only fields of others have, are counted
apart. Where a name can't be resolved, a line `FILE:LINE: ..` says so, and the status is 1, else 0.
"""

import argparse
import os
import sys
import textwrap

sys.dont_write_bytecode = True
from cited import TOP, cited_by, crates, known, own_or_used, rust_file  # noqa: E402

CONTRACTS = ("ang_engine/src/engine.rt:Engine::apply", "ang_engine/src/engine.rt:Engine::discard", "asrun_session/src/whole.rt:session")
CONVERSATION = ("asremote/src/conversation.rt:converse", "asremote/src/laws.rt:a_session_turn_by_turn", "asremote/src/laws.rt:numbers_stay")
DECLARED = "declared_type_alone declared_property declared_method declared_function declared_factory".split()
# What need not be read where a law is, by its place: the law says of it what counts.
LAWS = {
    "ang_parse/specs/Answers.antt:script_of": "ang_parse/src/laws.rt:one_answer",
    **{f"ang_decl/specs/Parsed.antt:{name}": "ang_decl/src/laws.rt:one_answer" for name in DECLARED},
    "ang_types/specs/Best.antt:best_of": "ang_types/src/laws.rt:best_says",
    "ang_check_stmt/specs/Positions.antt:inner_positions": "ang_source/src/laws.rt:places_mean_nothing",
    "ang_check/specs/Positions.antt:constructor_positions": "ang_source/src/laws.rt:places_mean_nothing",
    "ang_engine/specs/Sound.antt:IsSound": "ang_alike/src/in_turn.rt:commands_in_turn",
    "asrun_session/specs/Whole.antt:start_of": "asrun_session/src/laws.rt:starts_are_declared",
}


class Closure:
    """What some contracts reach: items, each with those that it cites, and names of the kit by their library."""

    def __init__(self, contracts, laws):
        self.cites, self.kit, left = {}, {}, list(contracts)
        while left:
            item = left.pop()
            if item not in self.cites:
                law = laws.get(f"{item.file.path}:{item.name}")
                self.cites[item] = [contract_at(law)] if law else self.own(cited_by(item))
                left += self.cites[item]

    def own(self, targets):
        """The items among what is cited. What is the kit's is noted."""
        found = {}
        for whose, where, name in targets:
            if whose == "kit":
                self.kit.setdefault(where, set()).add(name)
            else:
                found[where.items[name]] = None
        return list(found)

    def faults(self):
        return sorted({fault for item in self.cites for fault in item.file.faults})


def by_fields(closure):
    """The types that only fields of reached types have."""
    found, left = {}, list(closure.cites)
    while left:
        item = left.pop()
        targets = [target for name, number in item.fields for target in known(item, number, name, own_or_used(item, name))]
        more = [where.items[name] for whose, where, name in targets if whose == "own"]
        more = [it for it in more if it not in found and it not in closure.cites]
        found.update((it, None) for it in more)
        left += more
    return found


def count(items, folder):
    """How many lines the items in files of this folder have; those of the head of a section once."""
    return len({(it.file.path, line) for it in items if f"/{folder}/" in it.file.path for line in it.lines})


def in_order(closure):
    """The files, so that what is cited stands before what cites it."""
    needs = {}
    for item, cited in closure.cites.items():
        needs.setdefault(item.file.path, set()).update(it.file.path for it in cited)
    order = {}

    def visit(path, around):
        if path not in order and path not in around:
            for below in sorted(needs[path], key=rank):
                visit(below, (*around, path))
            order[path] = None

    for path in sorted(needs, key=rank):
        visit(path, ())
    return order


def rank(path):
    """Crates as in crates.txt; in a crate types of Rust stand first."""
    crate, folder, _ = path.split("/", 2)
    return crates().index(crate), folder != "src", path


def contract_at(place):
    path, _, name = place.partition(":")
    if not os.path.exists(f"{TOP}/crates/{path}") or name not in rust_file(path).items:
        sys.exit(f"there is no {name} in crates/{path}")
    return rust_file(path).items[name]


def print_contracts(contracts, laws):
    before = set()
    for item in contracts:
        reached = set(Closure([item], laws).cites) - set(contracts)
        specs, types = count(reached, "specs"), count(reached, "src")
        print(f"{item.name}, crates/{item.file.path}:{item.line}, {len(item.lines)} lines")
        print(f"    reaches {specs:,} lines of definitions and {types:,} of source types,", end=" ")
        print(f"{specs - count(reached & before, 'specs'):,} and {types - count(reached & before, 'src'):,} of them anew")
        before |= reached


def print_files(closure, reached, with_names):
    for path in in_order(closure):
        items = sorted((it for it in reached if it.file.path == path), key=lambda it: it.line)
        if items:
            print(f"{count(items, path.split('/')[1]):5,} crates/{path}")
        if items and with_names:
            names = ", ".join(f"{it.line}\0{it.name}\0({len(it.lines)})" for it in items)
            print(textwrap.fill(names, 140, initial_indent=" " * 8, subsequent_indent=" " * 8, break_on_hyphens=False).replace("\0", " "))


def print_counts(closure, reached):
    files = {it.file.path for it in reached if "/specs/" in it.file.path}
    print(f"\ndefinitions: {count(reached, 'specs'):,} lines, in {len(files)} files")
    print(f"source types: {count(reached, 'src'):,} lines, and {count(by_fields(closure), 'src'):,} of types that only fields have")
    for library, names in sorted(closure.kit.items()):
        print(f"the kit's {library}: {len(names)} names")


def options():
    reader = argparse.ArgumentParser(description=__doc__, formatter_class=argparse.RawDescriptionHelpFormatter)
    reader.add_argument("--files", action="store_true")
    reader.add_argument("--conversation", action="store_true")
    reader.add_argument("--by-laws", action="store_true")
    reader.add_argument("places", nargs="*", metavar="PLACE")
    return reader.parse_intermixed_args()


def main():
    chosen = options()
    contracts = [contract_at(it) for it in chosen.places or CONTRACTS + CONVERSATION * chosen.conversation]
    laws = LAWS if chosen.by_laws else {}
    closure = Closure(contracts, laws)
    reached = set(closure.cites) - set(contracts)
    print_contracts(contracts, laws)
    print()
    print_files(closure, reached, not chosen.files)
    print_counts(closure, reached)
    faults = closure.faults()
    print(*faults, sep="\n", end="\n" if faults else "")
    return 1 if faults else 0


if __name__ == "__main__":
    sys.exit(main())
