"""What the definitions, the types and the contracts of the crates cite, name by name, for `reading_list.py`.

It reads the text alone, in the forms in which this repository is written: each definition of specs/ is `pub`, each name comes by a `use`,
and `rt fmt` has laid out the lines. A name that is bound within a clause cites nothing in all of it.
"""

import os
import re
from functools import cache

TOP = os.path.dirname(os.path.dirname(os.path.abspath(__file__)))
# What needs no `use` line in antt, and in Rust.
ANTT_OWN = set("Type Unit tt absurd IsProp Prim _ × → ⊥ ¬ = : λ let in do record data where unfolding module mutual abbrev pub".split())
RUST_OWN = set("Self Vec Option Some None Result Ok Err Box String Fn FnMut FnOnce Drop Clone Copy".split())
# The constructors of the kit that begin with no capital.
CASES = set("zero suc pos negsuc true false refl []".split())
ATOM = r'(?:[^\s(){}.;,@"«»]+|«[^»]*»)'
TOKEN = re.compile(rf'"(?:[^"\\]|\\.)*"|\.?{ATOM}(?:\.{ATOM})*|[(){{}}.;,@]')
TYPED = re.compile(r"(?<=[({;] )((?:[^\s(){}.;,@\":=→×]+ )+)(?=: )")
DEFINITION = re.compile(rf"(?:unfoldable |abbrev )?pub (record |data )?({ATOM})")
RUST_TYPE = re.compile(r"(?:pub(?:\(\w+\))? )?(struct|enum|trait|type) (\w+)")
OPENING, CLOSING = set("({["), set(")}]")


class Item:
    """A definition, a type of Rust or a contract: its lines by number, and its clauses, each a list of tokens with their lines."""

    def __init__(self, file, name, line):
        self.file, self.name, self.line = file, name, line
        self.lines, self.clauses, self.bound, self.uses, self.types, self.fields = set(), [], set(), file.uses, [], []


class File:
    """A file of specs/ or src/: its items, the constructors among them with their types, what its `use` lines bring in, and what is wrong."""

    def __init__(self, path):
        self.path, self.crate = path, path.split("/")[0]
        self.items, self.cases, self.uses, self.rust_uses, self.faults = {}, {}, {}, {}, []


def lines_of(path):
    """The lines of a file that say something, with their numbers, without comments."""
    mark = "//" if path.endswith(".rt") else "--"
    with open(f"{TOP}/crates/{path}", encoding="utf-8") as file:
        for number, line in enumerate(file, 1):
            code = re.sub(rf'("(?:[^"\\]|\\.)*")|(?:^|(?<=\s)){mark}.*', lambda it: it.group(1) or "", line.rstrip("\n")).rstrip()
            if code:
                yield number, code


def tokens_of(lines):
    """The tokens of some lines, each with its line's number."""
    return [(token, number) for number, code in lines for token in TOKEN.findall(code)]


def indent_of(code):
    return len(code) - len(code.lstrip())


# ---- what names stand for


def brought_in(statement):
    """What a `use` of antt brings in, without the word: pairs of a name and of where it leads, a module and a name in it or None."""
    module, _, names = statement.partition(".{")
    if names:
        for name in names.rstrip("}; ").split(","):
            old, _, new = name.strip().partition(" as ")
            yield new or old, (module.strip(), old)
    else:
        module, _, new = statement.rstrip(";").partition(" as ")
        yield new or module.rpartition(".")[2], (module.strip(), None)


def flat(statement, before=()):
    """What a `use` of Rust brings in: pairs of a name and a path, as a tuple."""
    head, braced, rest = statement.partition("{")
    path = (*before, *(part for part in head.strip().split("::") if part))
    if not braced:
        last, _, new = path[-1].partition(" as ")
        yield new or last, (*path[:-1], last)
        return
    depth, start = 0, 0
    inner = rest.rpartition("}")[0] + ","
    for at, sign in enumerate(inner):
        depth += (sign == "{") - (sign == "}")
        if sign == "," and not depth:
            if inner[start:at].strip():
                yield from flat(inner[start:at], path)
            start = at + 1


@cache
def crates():
    """The crates of the repository, in the order of crates.txt."""
    with open(f"{TOP}/crates.txt", encoding="utf-8") as file:
        return [it.group(1) for it in re.finditer(r"^(\w+)\b.*:", file.read(), re.M)]


def given(module, name):
    """What a name of a module of antt is: a file with the name of an item, the kit's library with the name, or None."""
    parts = module.split(".")
    if parts[0] != "Rattle" or parts[1] not in crates():
        return "kit", parts[1] if parts[0] == "Rattle" else parts[0], f"{module}.{name}"
    if parts[3] == "declared":
        return rust_given((parts[1], *of_type(parts[4:], name)))
    file = antt_file("/".join(parts[1:]) + ".antt")
    if name in file.items or name in file.cases:
        return "own", file, file.cases.get(name, name)
    return None


def of_type(inner, name):
    """The path of the type of Rust from which antt has a name: the type, one of its variants, or (a type that holds itself) the type without
    recursion, `TYPE-F`, and the walk over it, `fold-TYPE`."""
    modules = [part for part in inner if not part[0].isupper()]
    is_made = inner[-1] in ("TheOpen", "TheFolds")
    return *modules, name.removeprefix("fold-").removesuffix("-F") if is_made else inner[len(modules)]


def rust_given(path):
    """The same of a path of Rust, which begins with a crate."""
    if path[0] not in crates():
        return "kit", path[0], "::".join(path)
    inner = "/".join(path[1:-1]) or "lib"
    if not os.path.exists(f"{TOP}/crates/{path[0]}/src/{inner}.rt"):
        return None
    file = rust_file(f"{path[0]}/src/{inner}.rt")
    if path[-1] in file.items:
        return "own", file, path[-1]
    leads = file.rust_uses.get(path[-1])
    return rust_given(absolute(leads, file)) if leads else None


def absolute(path, file):
    if path[0] == "crate":
        return (file.crate, *path[1:])
    is_inner = path[0] not in crates() and os.path.exists(f"{TOP}/crates/{file.crate}/src/{path[0]}.rt")
    return (file.crate, *path) if is_inner else path


# ---- files of antt


@cache
def antt_file(path):
    file = File(path)
    lines = list(lines_of(path))
    for _, code in lines:
        if code.startswith("use "):
            file.uses.update(brought_in(code[4:]))
    take_section(file, [it for it in lines if not it[1].startswith(("use ", "pub mod "))], 0, [])
    return file


def groups(lines, indent):
    """Lines by what begins at this indentation, with the deeper ones and the closing brackets behind it."""
    found = []
    for number, code in lines:
        if indent_of(code) == indent and not code.lstrip().startswith((*CLOSING, "unfolding ")):
            found.append([])
        found[-1].append((number, code))
    return found


def take_section(file, lines, indent, around):
    """Takes up the definitions at this indentation. `around` has the lines that open the sections in which they stand."""
    item, fixity = None, []
    for group in groups(lines, indent):
        code = group[0][1].lstrip()
        if code.startswith("infix"):
            fixity = group
        elif code.startswith("module _"):
            head = until_where(group)
            take_section(file, group[len(head) :], indent + 2, around + head)
        elif re.match(r"(abbrev )?mutual$", code):
            take_section(file, group[1:], indent + 2, around + group[:1])
        elif DEFINITION.match(code) or item is None:
            item, fixity = defined(file, group, fixity, around), []
        else:
            item.lines.update(number for number, _ in group)
            item.clauses.append(tokens_of(group))


def until_where(group):
    ends = [at for at, (_, code) in enumerate(group) if code.endswith(" where")]
    return group[: ends[0] + 1]


def defined(file, group, fixity, around):
    """The definition that begins with these lines; of a record or a type of cases these are all."""
    match = DEFINITION.match(group[0][1].lstrip())
    if not match:
        raise SystemExit(f"crates/{file.path}:{group[0][0]}: not understood")
    kind, name = match.groups()
    item = file.items[name] = Item(file, name, group[0][0])
    item.lines.update(number for number, _ in [*around, *fixity, *group])
    first = tokens_of(group)
    item.clauses.append(first[[token for token, _ in first].index(name) + 1 :])
    item.clauses.append(tokens_of(around))
    item.bound.update(typed_names(tokens_of(around)))
    if kind:
        labels = labels_of(group)
        item.bound.update(labels)
        if kind == "data ":
            file.cases.update((label, name) for label in labels)
    return item


def labels_of(group):
    """The fields of a record, or the constructors of a type."""
    inner = group[len(until_where(group)) :]
    least = min((indent_of(code) for _, code in inner), default=0)
    heads = (re.match(rf"(?:pub )?({ATOM}(?: {ATOM})*) :", code.lstrip()) for _, code in inner if indent_of(code) == least)
    return [name.strip("«»") for head in heads if head for name in head.group(1).split()]


# ---- names that are bound


def is_name(token):
    return token[0] not in "(){}.;,@\":=→×↦|←" and not token[0].isdigit()


def typed_names(tokens):
    """The names before a colon, behind a bracket or a semicolon: those of `(x y : A)`, and of fields."""
    text = " ".join(token for token, _ in tokens)
    return [name for names in TYPED.findall(text) for name in names.split()]


def until(words, start, end):
    """The words from one on up to a given one outside of brackets, or to the first bracket that closes those around it."""
    depth = 0
    for at in range(start, len(words)):
        if not depth and words[at] == end:
            return words[start:at]
        depth += (words[at] in OPENING) - (words[at] in CLOSING)
        if depth < 0:
            return None
    return None


def without_types(words):
    """A pattern without what stands behind its colons."""
    depth, behind = 0, None
    for word in words:
        depth += (word in OPENING) - (word in CLOSING)
        if behind is not None and depth < behind:
            behind = None
        if word == ":" and behind is None:
            behind = depth
        if behind is None:
            yield word


def patterns_in(words):
    """The words in which names are bound by `λ`, `let` and `←`."""
    for at, word in enumerate(words):
        if word == "λ":
            yield until(words, at + 1, ".") or []
        elif word == "let":
            yield until(words, at + 1, "=") or []
        elif word == "←":
            yield words[at - 1 : at]


def bound_in(item, tokens, is_first):
    """The names that a clause binds, on its left side and within."""
    words = [token for token, _ in tokens]
    sides = list(patterns_in(words))
    if not is_first:
        sides.append(until(words, 0, "=") or [])
    names = {word for side in sides for word in without_types(side) if is_name(word) and not is_case(item, word)}
    return {name.strip("«»") for name in names.union(typed_names(tokens), item.bound)} - {item.name}


def is_case(item, word):
    """Whether a word in a pattern is a constructor, and so binds nothing."""
    name = plain(item, word)
    if "." in word or name in CASES or name in item.file.cases:
        return True
    module, old = item.uses.get(name, ("", None))
    target = old and given(module, old)
    if not target:
        return False
    if target[0] == "kit":
        return old[0].isupper() or "◌" in old
    return ".TheVariants" in module or old in target[1].cases


# ---- files of Rust


@cache
def rust_file(path):
    file = File(path)
    lines = [it for it in lines_of(path) if not it[1].lstrip().startswith("#")]
    outer = "\n".join(code for _, code in lines if not code.lstrip().startswith("ghost "))
    for statement in re.findall(r"^(?:pub )?use ([^;]+);", outer, re.M):
        file.rust_uses.update(flat(statement.replace("\n", " ")))
    for block in groups(lines, 0):
        file.uses.update(ghost_uses(block[:1]))
        take_block(file, block)
    return file


def ghost_uses(lines):
    found = (re.match(r"\s*ghost use (.*)", code) for _, code in lines)
    return {new: lead for it in found if it for new, lead in brought_in(it.group(1))}


def take_block(file, block):
    """Takes up a type with its fields, a trait with its clauses, or what an `impl` says."""
    number, head = block[0]
    is_type = RUST_TYPE.match(head)
    names_of = re.match(r"impl(?:<.*?>)? (?:(\w+) for )?(\w+)", head)
    if is_type:
        item = file.items[is_type.group(2)] = Item(file, is_type.group(2), number)
        item.lines.update(number for number, _ in block)
        item.fields = field_names(block, is_type.group(1))
        if is_type.group(1) == "trait":
            item.types, item.fields = [it for it in rust_names(block) if it[0] in file.rust_uses], []
            item.bound.update(re.findall(r"(\w+):", text_of(block)) + ["self", "result", "Self"])
            item.clauses += clauses_in(block)
    elif names_of and names_of.group(1) == "Model":
        take_model(file.items[names_of.group(2)], block)
    elif names_of or re.match(r"(pub )?fn ", head):
        take_functions(file, block, f"{names_of.group(2)}::" if names_of and not names_of.group(1) else "")


def text_of(lines):
    return "\n".join(code for _, code in lines)


def rust_names(lines):
    """The names of types in lines of Rust, each with its line. (Parameters are single capitals here.)"""
    return [(name, number) for number, code in lines for name in re.findall(r"\b[A-Z]\w+", code) if name not in RUST_OWN]


def field_names(block, kind):
    """The types of a type's fields, without the names of the type and of its variants."""
    lines = [(block[0][0], RUST_TYPE.sub("", block[0][1])), *block[1:]]
    if kind == "enum":
        lines = [(number, re.sub(r"^    \w+", "", code)) for number, code in lines]
    return rust_names(lines)


def take_model(item, block):
    """What contracts see of a type: the value of its model, in the place of its fields."""
    starts = [at for at, (_, code) in enumerate(block) if code.startswith("    ghost ")]
    pieces = [block[start:end] for start, end in zip(starts, [*starts[1:], len(block) - 1])]
    value = next((it for it in pieces if it[0][1].startswith("    ghost Value")), [])
    item.lines = {item.line} | {number for number, _ in value}
    item.clauses.append(tokens_of(value)[2:])
    item.uses = item.file.uses | ghost_uses(block)
    item.bound.update(re.findall(r"\b[A-Z]\b", text_of(block[:1])))
    item.fields = []


def take_functions(file, block, owner):
    uses = file.uses | ghost_uses(block)
    indent = 4 if owner else 0
    for group in groups([it for it in block[bool(owner) :] if indent_of(it[1]) >= indent], indent):
        match = re.match(r"\s*(?:pub(?:\(\w+\))? )?fn (\w+)", group[0][1])
        if match:
            item = file.items[owner + match.group(1)] = Item(file, owner + match.group(1), group[0][0])
            item.uses = uses
            take_contract(item, group)


def take_contract(item, group):
    """The head and the clauses of a function. (Its body stands behind them, from a line `{` on.)"""
    clauses = [at for at, (_, code) in enumerate(group) if re.match(r"\s*(requires|ensures) ", code)]
    head = group[: clauses[0]] if clauses else group
    item.lines.update(number for number, _ in group)
    item.clauses = clauses_in(group)
    item.bound.update(re.findall(r"(\w+):", text_of(head)) + ["self", "result"])
    item.types = rust_names(head) + [(name, number) for number, code in group for name in re.findall(r"⟦<dyn (\w+)", code)]


def clauses_in(lines):
    """The clauses that stand at `requires`, `ensures` and `ghost` in some lines."""
    found, depth = [], 0
    for number, code in lines:
        match = None if depth else re.match(r"\s*(?:requires|ensures|ghost)\b[^{]*", code)
        if match and not code.lstrip().startswith("ghost use"):
            found.append([])
            code = code[match.end() :]
        if match or depth:
            code = re.sub(r"⟦[^⟧]*⟧", "", code)
            found[-1] += tokens_of([(number, code)])
            depth += code.count("{") - code.count("}")
    return found


# ---- what an item cites


def plain(item, word):
    """A name as it is declared, where the word is part of an operator or an escaped name."""
    if word in item.uses or word in item.file.items:
        return word
    return operators_of(item).get(word.strip("◌"), word.strip("«»"))


def operators_of(item):
    names = [name for name in (*item.uses, *item.file.items) if "◌" in name]
    found = {part: name for name in names for part in name.split("◌") if part}
    return found | {"←": found.get(">>=", "←")}


def cited_by(item):
    """What an item cites, each as `given` says it."""
    for at, tokens in enumerate(item.clauses):
        bound = bound_in(item, tokens, at == 0 or item.file.path.endswith(".rt"))
        for place, (word, number) in enumerate(tokens):
            if is_cited(tokens, place):
                yield from looked_up(item, word, number, bound)
    for name, number in item.types:
        yield from known(item, number, name, own_or_used(item, name))


def is_cited(tokens, at):
    """Whether a token may cite something, being no sign, number, text, field or label."""
    word = tokens[at][0]
    if word[0] in "(){}.;,@\"" or word[0].isdigit() or word == "=":
        return False
    is_label = tokens[at - 1][0] in ("{", ";") and [it[0] for it in tokens[at + 1 : at + 2]] == ["="]
    return not (at and is_label)


def looked_up(item, word, number, bound):
    """What a word cites: nothing where it is bound, or where it is the item's own name."""
    head, _, rest = word.partition(".")
    name = plain(item, head)
    module, old = item.uses.get(name, ("", None))
    in_module = rest and module and not old and given(module, rest.partition(".")[0].strip("«»"))
    if in_module:
        return [in_module]
    if name in bound or name == item.name or (name in ANTT_OWN and name not in item.uses):
        return []
    return known(item, number, word, own_or_used(item, name))


def own_or_used(item, name):
    """What a name that nothing binds stands for where the item is."""
    file = item.file
    if name in file.items or name in file.cases:
        return "own", file, file.cases.get(name, name)
    module, old = item.uses.get(name, ("", None))
    if old:
        return given(module, old)
    return rust_given(absolute(file.rust_uses[name], file)) if name in file.rust_uses else None


def known(item, number, word, target):
    """What was found, which is what it has to be."""
    if not target:
        item.file.faults.append(f"crates/{item.file.path}:{number}: {word} is not known")
    return [target] if target else []
