"""Hints beside an error: what a mask hides, what the language leaves out, what there is instead."""

import difflib
import os
import re
from typing import Dict, Iterator, List, NamedTuple, Sequence

from bustlebrick import BuildError, Denial, Entry, Place
from playing import declared, profiles
from playing.sentences import HELP
from playing.sources import Source, printable

FLOATS = "there are no floats: count in a smaller unit, as 150 hundredths in place of 1.5"
STRINGS = "there are no strings: a text stands only after 'from'; take numbers, or a function of the host for each text"
ARRAYS = "there are no arrays and no templates: an object of the host, such as an IntList, can hold a number of values"
NAMESPACES = "there are no namespaces: take longer names, or several modules"
ENUMERATIONS = "scripts declare no enumerations: the host registers them, or write 'const int A = 0;'"
DEFAULTS = "there are no default arguments: write an overload that calls the other one"
LONG = 32  # letters of a name, beyond which none is looked for that is like it
MOST_COMPARED = 60  # names
RESERVED = r"(this|super|cast|class|interface|import|from|private|protected|final|override|is|and|or|xor|not|in|out|inout)\b"


class LeftOut(NamedTuple):
    """A form that the language leaves out: the error that it gives, what stands before and from the place, and the hint."""
    kind: str
    before: str
    after: str
    hint: str


LEFT_OUT = [
    LeftOut("BadNumber", "", r"\d+(\.|[eE][+-]?\d|[fF]\b)", FLOATS),
    LeftOut("BadNumber", "", r"\d+\b", "the largest number is 18446744073709551615"),
    LeftOut("BadNumber", "", r"", "a number does not run into a letter, a digit or '_'; 0x, 0o, 0b and 0d want digits of their base"),
    LeftOut("BadByte", "", r"'", "there are no characters, and no texts in single quotes: write the number"),
    LeftOut("BadByte", "", r"[\[\]]", ARRAYS),
    LeftOut("BadByte", "", r"\"", "a text ends on its line, has printable ASCII without a backslash, and stands only after 'from'"),
    LeftOut("BadByte", "", r"#", "there is no preprocessor; // and /* */ are comments"),
    LeftOut("BadByte", "", r"[^\x00-\x7e]|\x7f", "outside of comments a script is ASCII"),
    LeftOut("BadByte", "", r"[\x00-\x1f]", "a control character stands here"),
    LeftOut("Syntax", "", r"(float|double)\b|\.\d", FLOATS),
    LeftOut("Syntax", "", r"\"", STRINGS),
    LeftOut("Syntax", "", r"enum\b", ENUMERATIONS),
    LeftOut("Syntax", "", r"typedef\b", "there are no typedefs: write the type itself"),
    LeftOut("Syntax", "", r"funcdef\b", "there are no funcdefs: take an interface with one method"),
    LeftOut("Syntax", "", r"namespace\b", NAMESPACES),
    LeftOut("Syntax", "", r"mixin\b", "there are no mixins: take a base class"),
    LeftOut("Syntax", "", r"auto\b", "there is no auto: write the type"),
    LeftOut("Syntax", "", r"(switch|case|default)\b", "there is no switch: write if and else if"),
    LeftOut("Syntax", r"\btry\s*$", r"\{", "there is no try: test before, as 'a !is null' or 'b != 0'; a fault ends the run"),
    LeftOut("Syntax", r"\w\s*$", r"<", ARRAYS),
    LeftOut("Syntax", r"\([^(){};]*\w\s*$", r"=", DEFAULTS),
    LeftOut("Syntax", r"[{};][\w@\s,]+$", r"=", "fields have no initializers: a constructor gives them values"),
    LeftOut("Syntax", r"[(,]\s*\w+\s*$", r":", "there are no named arguments: write them in order"),
    LeftOut("Syntax", r"\*$", r"\*", "there is no '**': multiply, or write a function with a loop"),
    LeftOut("Syntax", "", r"~", "there are no destructors: write a method, and call it"),
    LeftOut("Syntax", "", r"super\b", "super(..) is the first statement of a constructor"),
    LeftOut("Syntax", "", r"::", "'::' stands after the name of a class or an enumeration"),
    LeftOut("Syntax", r"@\s*$", r"\+", "'@+' is for declarations of the host: write '@'"),
    LeftOut("Syntax", r"[\w)]\s*$", r"\}", "a ';' may be missing before it"),
    LeftOut("Syntax", r"[\w)]\s*\n\s*$", r"", "a ';' may be missing at the end of a line above"),
    LeftOut("Syntax", r"[\w@]\s+$", RESERVED, "this word is reserved, and can't be a name"),
    LeftOut("UnknownType", "", r"[sS]tring\b", STRINGS),
    LeftOut("UnknownType", "", r"(array|Array|dictionary|[lL]ist)\b", ARRAYS),
]


class Known:
    """What hints are made from: what the module sees, its sections and their functions, and the denials of its build."""

    def __init__(self, seen: Sequence[Entry], sources: Sequence[Source], denials: Sequence[Denial]) -> None:
        self.sources = sources
        self.functions = declared.functions(it.text for it in sources)
        self.seen: Dict[str, List[Entry]] = {}
        for entry in seen:
            self.seen.setdefault(profiles.name_in(entry), []).append(entry)
        self.names = {*self.seen, *(it.name for it in self.functions)}
        self.denials: Dict[Place, List[Denial]] = {}
        for denial in denials:
            self.denials.setdefault(denial.place, []).append(denial)


def hints(known: Known, error: BuildError) -> List[str]:
    """All hints for an error, the surest first."""
    found = [*_hidden(known, error), *_left_out(known, error), *_candidates(known, error), *_alike(known, error)]
    return found + ([HELP[error.kind]] if error.kind in HELP else [])


def hidden(known: Known, error: BuildError) -> List[Dict[str, str]]:
    """What the module's mask hides of what was meant at an error's place: each entry, its mask, and the module's."""
    return [
        {"entry": printable(profiles.told(it.entry)), "mask": f"{it.entry.mask:08x}", "module_mask": f"{it.module_mask:08x}"}
        for it in known.denials.get(error.place, [])
    ]


def _hidden(known: Known, error: BuildError) -> Iterator[str]:
    for it in hidden(known, error):
        yield f"registered under {it['mask']}; this module's mask is {it['module_mask']}: {it['entry']}"


def _left_out(known: Known, error: BuildError) -> Iterator[str]:
    if error.kind not in ("BadNumber", "BadByte", "Syntax", "UnknownType"):
        return
    before, after = known.sources[error.place.section].around(error.place.line, error.place.column)
    for it in LEFT_OUT:
        if it.kind == error.kind and re.match(it.after, after) and re.search(it.before, before):
            yield it.hint
            return


def _candidates(known: Known, error: BuildError) -> Iterator[str]:
    """What has the name of a call that fits nothing, or too much; and what of the host a name is taken by."""
    if error.kind not in ("NoMatch", "Ambiguous", "Duplicate"):
        return
    own = [it for it in known.functions if it.name == error.name and error.kind != "Duplicate"]
    told = [f"the script has {it.declaration}" for it in own]
    told += [f"the host has {profiles.told(it)}" for it in known.seen.get(error.name, [])]
    yield from map(printable, told[:5])


def _alike(known: Known, error: BuildError) -> Iterator[str]:
    if error.kind not in ("UnknownName", "UnknownType") or len(error.name) > LONG:
        return
    names = [it for it in known.names if it[:1].lower() == error.name[:1].lower() and abs(len(it) - len(error.name)) < 3]
    names.sort(key=lambda it: (-len(os.path.commonprefix([it, error.name])), it))
    near = difflib.get_close_matches(error.name, set(names[:MOST_COMPARED]) - {error.name}, 1, 0.7)
    if near:
        yield f"did you mean '{near[0]}'?"
