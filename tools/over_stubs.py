#!/usr/bin/env python3
"""Checks a crate before what is below it is proved.

    python3 tools/over_stubs.py CRATE [FLAG..]

Runs `rattle check --allow-holes` on crates/CRATE with the flags (`--only FUNCTION`, say), over the library of each crate below that
was proved on this machine before, on the same files, and over a stub of each other one. A stub has the types, definitions, contracts and
lemma files of its crate, of its functions those that CRATE names, for a body a loop and for a proof a hole. So `depends on a hole in` a
stub's function is as good as proved, and nothing that is printed is a verdict: `rt ci` alone gives one. Stubs are written below
crates/CRATE/out, which is never committed. docs/PROVING.md says when this helps.

It finds the kit by `rt doc`. What was proved before it takes from `rt ci`, by the kit's own functions as `rattle-kit-13f` has them, or, where
`rt ci` keeps nothing (`rattle-kit-13b`), from tools/kept.py.
"""

import os
import re
import shutil
import subprocess
import sys

sys.dont_write_bytecode = True
from kit import KIT, of_kit  # noqa: E402

WORD = re.compile(r"[A-Za-z_][A-Za-z0-9_]*")
CLAUSES = {"requires", "ensures", "ghost", "measure"}
TACTIC = re.compile(r"#\[tactic\((?:[^()]|\((?:[^()]|\([^()]*\))*\))*\)\]\n?")
CYCLE_OF_FUNCTION = re.compile(r"#\[cycle\([^()]*\)\]\s*(?=(?:#\[[^\]]*\]\s*|///[^\n]*\n\s*)*(?:pub(?:\(crate\))? )?fn )")
HOLE = "use Rattle.{crate}.proofs.{path}.Statement.{{statement}}\n\npub {name}_spec : {{M : Type 1}} → statement M\n{name}_spec = ?\n"


# ---- Rattle's text


def past_token(text, at):
    """The place after the comment, literal or character at a place of code."""
    for mark, end in (("//", "\n"), ("/*", "*/")):
        if text.startswith(mark, at):
            found = text.find(end, at)
            return len(text) if found < 0 else found + len(end)
    if text[at] == '"':
        at += 1
        while text[at] != '"':
            at += 2 if text[at] == "\\" else 1
        return at + 1
    char = re.compile(r"'(\\.[^']*|[^'\\])'").match(text, at)
    return char.end() if char else at + 1


def past_brackets(text, at, is_clause=False):
    """The place after the bracket that closes the one at a place, in code, or in a clause, which is antt's text."""
    pairs = {"{": "}", "(": ")"}
    first, last, depth = text[at], pairs[text[at]], 0
    while True:
        depth += (text[at] == first) - (text[at] == last)
        if not depth:
            return at + 1
        at = at + 1 if is_clause else past_token(text, at)


def past_generics(text, at):
    """The place after `<..>`, if that stands there."""
    depth = 0
    while text[at] == "<" or depth:
        depth += (text[at] == "<") - (text[at] == ">" and text[at - 1] != "-")
        at += 1
    return at


def body_of(text, at):
    """The place of a function's body, from the end of its parameters on, or None where it has none."""
    while text[at] not in "{;":
        word = WORD.match(text, at)
        if not word:
            at = past_token(text, at)
        elif word.group() in CLAUSES:
            at = past_brackets(text, text.index("{", word.end()), is_clause=True)
        else:
            at = word.end()
    return at if text[at] == "{" else None


def start_of(text, line):
    """The place where the docs and attributes of the item on a line begin."""
    while line > 0:
        before = text.rfind("\n", 0, line - 1) + 1
        if not text[before:line].lstrip().startswith(("#[", "///")):
            return line
        line = before
    return line


class Stubbed:
    """A file of code as its stub has it: `functions` are those that stay, by type and name, and `gone` the names of the others.

    Public functions stay that are `wanted`, and of those that are `called` by what a type has of a trait the private ones too: `calls`
    has the words of that.
    """

    def __init__(self, text, wanted, called=()):
        self.text, self.wanted, self.called = TACTIC.sub("", text), wanted, called
        self.functions, self.gone, self.changes, self.calls = [], set(), [], set()
        self.scan()
        for first, last, new in sorted(self.changes, reverse=True):
            self.text = self.text[:first] + new + self.text[last:]
        self.text = CYCLE_OF_FUNCTION.sub("", self.text)

    def scan(self):
        text, at, impls = self.text, 0, []
        while at < len(text):
            while impls and at >= impls[-1][0]:
                impls.pop()
            word = WORD.match(text, at)
            if not word or (at and re.match(r"[A-Za-z0-9_']", text[at - 1])):
                at = past_token(text, at)
            elif word.group() == "ghost":
                at = self.past_ghost(word.end())
            elif word.group() in ("impl", "trait"):
                at = self.into_impl(word, impls)
            elif word.group() == "fn":
                at = self.function(word, impls)
            else:
                at = word.end()

    def past_ghost(self, at):
        while self.text[at] not in ";{":
            at += 1
        if self.text[at] == ";":
            return at + 1
        end = past_brackets(self.text, at, is_clause=True)
        return self.text.index(";", end) + 1 if self.text[at - 1] == "." else end

    def into_impl(self, word, impls):
        """Goes into an impl of a type's own; a trait and what a type has of it stay as they are."""
        body = self.text.index("{", word.end())
        head = self.text[past_generics(self.text, word.end()) : body].strip()
        is_model = " Model for " in head
        end = past_brackets(self.text, body, is_clause=is_model)
        if word.group() == "trait" or re.search(r"\bfor\b", head):
            self.calls.update(WORD.findall(self.text[body:end]) if word.group() == "impl" and not is_model else [])
            return end
        impls.append((end, WORD.match(head).group()))
        return body + 1

    def function(self, word, impls):
        text = self.text
        name = WORD.match(text, word.end() + 1)
        if not name:
            return word.end()
        at = past_brackets(text, text.index("(", past_generics(text, name.end())))
        body = body_of(text, at)
        if body is None:
            return at
        end = past_brackets(text, body)
        line = text.rfind("\n", 0, word.start()) + 1
        is_public = text[line : word.start()].strip().startswith("pub")
        if name.group() in self.called or (is_public and name.group() in self.wanted):
            self.changes.append((body, end, "{ loop {} }"))
            self.functions.append((impls[-1][1] if impls else None, name.group()))
        else:
            self.changes.append((start_of(text, line), end, ""))
            if not impls:
                self.gone.add(name.group())
        return end


def without_names(text, gone, modules):
    """The text without uses of functions that are gone."""

    def is_gone(path):
        parts = path.split(" as ")[0].strip().split("::")
        return parts[-1] in gone and not (parts[-1] in modules and parts[:-1] == ["crate"])

    def kept(use):
        head, path = use.groups()
        if "{" not in path:
            return "" if is_gone(path) else use.group()
        front, names = path.rstrip("}").split("{", 1)
        left = [it.strip() for it in names.split(",") if it.strip() and not is_gone(front + it.strip())]
        return f"{head}{front}{{{', '.join(left)}}};\n" if left else ""

    return re.sub(r"^((?:pub )?use )([^;]*);\n", kept, text, flags=re.M)


# ---- stubs of crates


def files_of(folder):
    return [f"{at}/{name}" for at, _, names in os.walk(folder) for name in names]


def read(path):
    with open(path, encoding="utf-8") as file:
        return file.read()


def write(path, text):
    os.makedirs(os.path.dirname(path), exist_ok=True)
    with open(path, "w", encoding="utf-8") as file:
        file.write(text)


def module_of(path, src):
    parts = os.path.relpath(path, src)[: -len(".rt")].split("/")
    return parts[:-1] if parts[-1] in ("lib", "mod") else parts


def calls_of(crate):
    """The words of what the crate's types have of traits, which a stub leaves as it is."""
    return set().union(*[Stubbed(read(path), set()).calls for path in files_of(f"{crate.folder}/src") if path.endswith(".rt")])


def write_stub(crate, folder, wanted, called, gone):
    """Writes the stub of a crate; `gone` has the names of functions that the stubs below are without, and gets this one's."""
    src, to = f"{crate.folder}/src", f"{folder}/{crate.name}"
    code = {path: read(path) for path in files_of(src) if path.endswith(".rt")}
    types = re.compile(r"^\s*(?:pub )?(?:struct|enum) (\w+)", re.M)
    homes = {name: module_of(path, src) for path, text in code.items() for name in types.findall(text)}
    stubs = {path: Stubbed(text, wanted, called) for path, text in code.items()}
    stay = {name for stub in stubs.values() for owner, name in stub.functions if not owner}
    gone[crate.name] = {name for stub in stubs.values() for name in stub.gone} - stay
    missing = set().union(*[gone.get(it.name, set()) for it in [crate, *crate.deps]]) - stay
    modules = {name for stub in stubs.values() for name in re.findall(r"\bmod (\w+)", stub.text)}
    for path, stub in stubs.items():
        write(f"{to}/src/{os.path.relpath(path, src)}", without_names(stub.text, missing, modules))
        for owner, name in stub.functions:
            parts = [*(homes[owner] if owner in homes else module_of(path, src)), *([owner] if owner else []), name]
            hole = HOLE.format(crate=crate.name, path=".".join(parts), name=name)
            write(f"{to}/proofs/{'/'.join(parts)}/Proof.antt", hole)
    for part in ("specs", "proofs"):
        for path in files_of(f"{crate.folder}/{part}"):
            place = os.path.relpath(path, crate.folder)
            is_of_function = part == "proofs" and os.path.basename(path) in ("Answers.antt", "Invariants.antt", "Proof.antt")
            if not is_of_function or re.search(r"/[^/+]+\+[^/]*/", place):
                write(f"{to}/{place}", read(path))


def words_in(crate):
    paths = [path for part in ("src", "specs", "proofs") for path in files_of(f"{crate.folder}/{part}")]
    return {word for path in paths for word in [*WORD.findall(read(path)), *path.split("/")]}


# ---- the check


def takes_library(crate, kept, rt):
    """Whether the crate's library is there, or `rt ci` kept one of the same files, which is then taken."""
    key, marked = kept.key(crate), f"{crate.folder}/out/rlib/of_rt_ci"
    is_there = os.path.isdir(crate.rlib) and rt.rtlib.text_of(marked) == key
    if not is_there and os.path.isdir(kept.place(crate, False, key)):
        rt.clear(f"{crate.folder}/out/rlib")
        is_there = kept.give(crate, False, key)
        if is_there:
            write(marked, key)
    if is_there:
        kept.is_built(crate)
    return is_there


def words_for(crate, lacking, stubs):
    of_kit = {"core", "std", *[it for dep in [crate, *crate.below()] for it in dep.of_kit]}
    words = ["--crate-name", crate.name, "src/main.rt" if crate.is_program else "src/lib.rt"]
    words += ["-L", f"dependency={KIT}/rlibs"]
    for name in sorted(of_kit):
        words += ["--extern", f"{name}={KIT}/rlibs/{name}.rlib"] * os.path.isdir(f"{KIT}/rlibs/{name}.rlib")
    for dep in crate.below():
        if dep in lacking:
            uses = dict.fromkeys(["core", "std", *dep.of_kit, *[it.name for it in dep.deps]])
            words += ["--lib", f"{dep.name}:{','.join(uses)}={stubs}/{dep.name}/src/lib.rt"]
        else:
            words += ["--extern", f"{dep.name}={dep.rlib}", "-L", f"dependency={os.path.dirname(dep.rlib)}"]
    words += ["--antt-project", f"{KIT}/rattle/logic/antt-project.json", "--logic-built", f"{KIT}/logic_built"]
    return [*words, "--links", f"{crate.name}="]


def kept_by_rt(rt, top, name):
    """The crate, and those below it whose libraries no earlier `rt ci` kept."""
    rt.Crate.allowed = rt.handles_of(top)
    crates = rt.crates_of(top)
    crate = crate_named(name, crates)
    kept, lacking = rt.Kept(crates), []
    for dep in crate.below():
        if any(it in lacking for it in dep.below()) or not takes_library(dep, kept, rt):
            lacking.append(dep)
    return crate, lacking


def kept_by_us(name):
    """The crate, and those below it whose libraries tools/kept.py has not."""
    import kept

    crate = crate_named(name, kept.crates_here())
    return crate, kept.lacking(crate.below())


def crate_named(name, crates):
    return next((it for it in crates if it.name == name), None) or sys.exit(f"crates.txt has no {name}")


def main():
    if len(sys.argv) < 2:
        sys.exit(__doc__)
    top = os.path.dirname(os.path.dirname(os.path.realpath(__file__)))
    os.chdir(top)
    rt = of_kit("rt_of_the_kit", "rt")
    crate, lacking = kept_by_rt(rt, top, sys.argv[1]) if hasattr(rt, "Kept") else kept_by_us(sys.argv[1])
    print("over stubs of:", " ".join(it.name for it in lacking) or "none", flush=True)
    stubs, wanted, gone = f"{crate.folder}/out/stubs", words_in(crate), {}
    called = set().union(*[calls_of(it) for it in lacking])
    shutil.rmtree(stubs, ignore_errors=True)
    for dep in lacking:
        write_stub(dep, stubs, wanted if dep in crate.deps else set(), called, gone)
    os.makedirs(f"{crate.folder}/out/over_stubs", exist_ok=True)
    words = [*words_for(crate, lacking, stubs), "--allow-holes", "--incremental", "out/over_stubs", *sys.argv[2:]]
    return subprocess.run([rt.rtlib.RATTLE, "check", *words], cwd=crate.folder).returncode


if __name__ == "__main__":
    sys.exit(main())
