"""Profiles as files: what a host registers, for the client, with the numbers of entries and drivers that the file says."""

import re
from typing import Any, Callable, Dict, List, NamedTuple

from bustlebrick import Entry, Profile

FORMS = {
    "mask": r"([0-9a-fA-F]{8})",
    "type": r"([^ ]+) ([0-9]{1,10})",
    "factory": r"([^ ]+) ([0-9]{1,10}) (.+)",
    "method": r"([^ ]+) ([0-9]{1,10}) (.+)",
    "property": r"([^ ]+) ([0-9]{1,10}) (.+)",
    "function": r"([0-9]{1,10}) ([0-9]{1,10}) (.+)",
    "posted": r"([0-9]{1,10}) ([0-9]{1,10}) (.+)",
    "global": r"([0-9]{1,10}) ([0-9]{1,10}) (.+)",
    "enum": r"([^ ]+)",
    "value": r"([^ ]+) ([^ ]+) (-?[0-9]{1,10})",
    "blank": r"",
    "group": r"([^ ]+)",
    "endgroup": r"",
    "limit": r"(events|slots|objects) ([0-9]{1,19})",
}
WANTED = {
    "mask": "mask MASK, of eight hexadecimal digits",
    "type": "type NAME DRIVER",
    "factory": "factory TYPE F DECLARATION",
    "method": "method TYPE F DECLARATION",
    "property": "property TYPE F DECLARATION",
    "function": "function DRIVER F DECLARATION",
    "posted": "posted DRIVER F DECLARATION, of a function without a result",
    "global": "global DRIVER F DECLARATION",
    "enum": "enum NAME",
    "value": "value ENUM NAME NUMBER",
    "blank": "blank",
    "group": "group NAME",
    "endgroup": "endgroup",
    "limit": "limit events, slots or objects, and a number",
}
ASKED = {
    "factory": ["make"],
    "method": ["call"],
    "function": ["call"],
    "posted": ["call"],
    "property": ["read", "write"],
    "global": ["read", "write"],
}


class BadProfile(Exception):
    """A line of a profile that is not taken."""

    def __init__(self, line: int, message: str) -> None:
        super().__init__(message)
        self.line = line


class Registered(NamedTuple):
    """What a host call is of: the word of its line, its type's or driver's name, its declaration, and names from that."""
    word: str
    owner: str
    declaration: str
    name: str
    result: str


class Read(NamedTuple):
    """A profile that was read: for the client, with its limits and the texts of its lines."""
    profile: Profile
    limits: Dict[str, int]
    lines: List[str]


Answering = Callable[[str, Registered], Callable[..., Any]]  # the callable for a kind of asking and what is registered


def read_profile(text: str, answering: Answering) -> Read:
    """The profile of a text, answered by what `answering` gives."""
    read = Read(Profile(), {}, [it[:-1] if it.endswith("\r") else it for it in text.split("\n")])
    drivers = [0]
    for number, line in enumerate(read.lines, 1):
        if line and not line.startswith("#"):
            word, fields = _fields(number, line)
            _add(read, word, fields, answering)
            drivers.append(read.profile.drivers - 1)
    read.profile.drivers = min(max(drivers) + 1, 64)
    return read


def _fields(number: int, line: str) -> Any:
    word, _, rest = line.partition(" ")
    if word not in FORMS:
        raise BadProfile(number, f"'{word}' begins no line of a profile; these do: {', '.join(FORMS)}")
    found = re.fullmatch(FORMS[word], rest)
    if not found or (not FORMS[word] and line != word):
        raise BadProfile(number, f"wanted here: {WANTED[word]}")
    return word, found.groups()


def _add(read: Read, word: str, fields: Any, answering: Answering) -> None:
    profile = read.profile
    if word == "mask":
        profile.mask = int(fields[0], 16)
    elif word == "limit":
        read.limits[fields[0]] = int(fields[1])
    elif word == "type":
        profile.drivers = int(fields[1])
        profile.type(fields[0])
    elif word == "enum":
        profile.enum(fields[0])
    elif word == "value":
        profile.value(fields[0], fields[1], int(fields[2]))
    elif word == "blank":
        profile.entries.append(_blank(profile.mask))
    elif word == "group":
        profile.begin_group(fields[0])
    elif word == "endgroup":
        profile.end_group()
    else:
        _add_asked(profile, word, fields, answering)


def _blank(mask: int) -> Entry:
    return Entry(mask, "blank", "blank", "", {})


def blank_out(profile: Profile, name: str) -> None:
    """Makes blanks of the entries of a group that was removed."""
    for number in profile.groups().get(name, ()):
        profile.entries[number] = _blank(profile.entries[number].mask)


def _add_asked(profile: Profile, word: str, fields: Any, answering: Answering) -> None:
    owner, declaration = fields[0], plain(fields[2])
    registered = Registered(word, owner, declaration, name_of(declaration), result_of(declaration))
    profile.add(f"{word} {owner}", declaration, **{kind: answering(kind, registered) for kind in ASKED[word]})
    if owner.isdigit():
        profile.drivers = max(profile.drivers, min(int(owner), 63) + 1)


def plain(declaration: str) -> str:
    """A declaration without comments, with single spaces. Of one that is nothing else it is the beginning, which is refused."""
    bare = re.sub(r"/\*.*?(?:\*/|\Z)|//.*", " ", declaration, flags=re.DOTALL)
    return " ".join(bare.split()) or declaration[:80]


def name_of(declaration: str) -> str:
    """The name that a declaration declares."""
    words = re.findall(r"\w+", declaration.partition("(")[0])
    return words[-1] if words else ""


def result_of(declaration: str) -> str:
    """The type of a declaration's result or property, without `const`."""
    front = declaration.partition("(")[0].rstrip()
    name = name_of(front)
    return re.sub(r"\bconst\b|\s|\+", "", front[: len(front) - len(name)] if name and front.endswith(name) else front)


def told(entry: Entry) -> str:
    """An entry as people are told of it."""
    word, *rest = entry.line.split(" ")
    if word in ("factory", "method", "property"):
        return f"{entry.declaration} of the type {rest[0]}"
    if word == "value":
        return f"{rest[0]}::{rest[1]}"
    return f"{word} {rest[0]}" if word in ("type", "enum") else entry.declaration


def name_in(entry: Entry) -> str:
    """The name by which scripts use an entry."""
    word, *rest = entry.line.split(" ")
    if word == "factory":
        return rest[0]
    return rest[1] if word == "value" else name_of(entry.declaration)


def seen(profile: Profile, mask: int) -> List[Entry]:
    """The entries that a module of a mask sees: those of which it meets all masks."""
    return [it for it, masks in zip(profile.entries, masks_of(profile)) if masks and all(mask & other for other in masks)]


def masks_of(profile: Profile) -> List[List[int]]:
    """The masks that a module has to meet to see each entry: its own, and that of each type that it names. A blank has none."""
    types = {it.declaration: it.mask for it in profile.entries if it.line.startswith(("type ", "enum "))}
    named = [[types[name] for name in _types_in(it) if name in types] for it in profile.entries]
    return [[it.mask, *masks] if it.line != "blank" else [] for it, masks in zip(profile.entries, named)]


def _types_in(entry: Entry) -> List[str]:
    """The types that an entry names: that of which it is, and those of its declaration."""
    word, *rest = entry.line.split(" ")
    if word in ("type", "enum", "blank"):
        return []
    parts = re.split(r"[(,]", plain(entry.declaration).partition(")")[0]) if word != "value" else []
    return sorted({*re.findall(r"^(?:const )?(\w+)", "\n".join(parts).replace("\n ", "\n"), re.MULTILINE), rest[0]})
