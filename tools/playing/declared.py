"""Functions that a script declares, found by their form, and calls of them."""

import re
from typing import Iterable, List, Match, NamedTuple

HIDING = re.compile(r"//[^\n]*|/\*.*?(?:\*/|\Z)|\"[^\"\n]*\"", re.DOTALL)
FUNCTION = re.compile(r"\b((?:const\s+)?[A-Za-z_]\w*(?:\s*@\s*(?:const\b\s*)?|\s+))([A-Za-z_]\w*)\s*\(([^()]*)\)\s*\{")
EXPORTER = re.compile(r'\bfrom\s*"([^"\n]*)"')
WITH_VALUES = re.compile(r"\(([^()]*)\) ?(.*\(.*\))")
SHORT = re.compile(r"([A-Za-z_]\w*) ?\((.*)\)")


class Declared(NamedTuple):
    """A function of a script."""
    name: str
    declaration: str
    parameters: List[str]

    @property
    def is_callable(self) -> bool:
        """Whether it can be called from outside."""
        return not re.search("[@&]", self.declaration)


class Imported(NamedTuple):
    """A function that a script imports, and the text after `from`."""
    declaration: str
    exporter: str


class Called(NamedTuple):
    """What the engine is told of a call: the values, and the declaration."""
    values: str
    declaration: str


class NotCalled(Exception):
    """A call that can't be made of a text. The text says why."""


def bare(text: str) -> str:
    """A script with spaces in the place of comments and texts."""
    return HIDING.sub(_blank, text)


def _blank(found: Match[str]) -> str:
    return re.sub(r"[^\n]", " ", found[0])


def functions(texts: Iterable[str]) -> List[Declared]:
    """The functions of a script's sections, without methods."""
    found = []
    for text in map(bare, texts):
        for match in FUNCTION.finditer(text):
            if text.count("{", 0, match.start()) == text.count("}", 0, match.start()):
                found.append(_declared(*match.groups()))
    return found


def _declared(result: str, name: str, listed: str) -> Declared:
    parameters = [" ".join(it.split()) for it in listed.split(",") if it.strip() not in ("", "void")]
    result = re.sub(r"\s+(?=@)", "", " ".join(result.split()))
    return Declared(name, f"{result} {name}({', '.join(parameters)})", parameters)


def listed(declaration: str) -> Declared:
    """A function of which the engine gave the declaration."""
    front, _, inside = declaration.partition("(")
    parameters = [it.strip() for it in inside.rpartition(")")[0].split(",") if it.strip() not in ("", "void")]
    return Declared(re.findall(r"\w+", front)[-1], declaration, parameters)


def form_of(declaration: str) -> List[str]:
    """The words and signs of a declaration without the names of its parameters."""
    front, *parameters = re.split("[(,)]", bare(declaration))
    kinds = {"const", "in", "out", "inout"}
    form = re.findall(r"\w+|[^\w\s]", front)
    for words in (re.findall(r"\w+|[^\w\s]", it) for it in parameters):
        types = [it for it in words if it.isidentifier() and it not in kinds]
        form += [",", *(words[:-1] if len(types) > 1 else words)]
    return form


def exporters(texts: Iterable[str]) -> List[str]:
    """The modules that a script's sections name after `from`, in the order of the imports' numbers."""
    without_comments = (HIDING.sub(lambda it: it[0] if it[0][0] == '"' else _blank(it), text) for text in texts)
    return [name for text in without_comments for name in EXPORTER.findall(text)]


def is_whole(text: str) -> bool:
    """Whether what was typed can be a section: each bracket is closed, and the last token ends a declaration."""
    if any(it[0].startswith("/*") and not (it[0].endswith("*/") and len(it[0]) > 3) for it in HIDING.finditer(text)):
        return False
    text = bare(text).strip()
    return text[-1:] in (";", "}") and all(text.count(a) <= text.count(b) for a, b in ("()", "{}"))


def call_of(text: str, known: List[Declared]) -> Called:
    """The call that a text means: `int main()`, `(2,40) int64 sum(int64, int64)` or `sum(2, 40)`."""
    text = " ".join(text.split())
    found = WITH_VALUES.fullmatch(text)
    if found:
        return Called(found[1].replace(" ", ""), found[2])
    found = SHORT.fullmatch(text)
    return _short_call(found[1], found[2], known) if found else Called("", text)


def _short_call(name: str, listed: str, known: List[Declared]) -> Called:
    values = [it.strip() for it in listed.split(",") if it.strip()]
    named = [it for it in known if it.name == name]
    fitting = [it for it in named if len(it.parameters) == len(values)]
    if len(fitting) == 1:
        return Called(",".join(map(value_for, values, fitting[0].parameters)), fitting[0].declaration)
    listed = "; ".join(it.declaration for it in fitting or named or known)
    if fitting:
        raise NotCalled(f"several functions are called '{name}', write the values before one of them: {listed}")
    number = f"'{name}' with {len(values)} parameters" if named else f"'{name}'"
    raise NotCalled(f"the script has no function {number}" + (f"; it has {listed}" if listed else ""))


def value_for(text: str, parameter: str) -> str:
    """A value as the engine wants it for a parameter: unsigned ones end in u."""
    unsigned = re.match(r"(const )?uint", parameter) and text.isdigit()
    return f"{text}u" if unsigned else text.replace(" ", "")
