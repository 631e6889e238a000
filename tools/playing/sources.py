"""The text of a section, and how a place in it is shown."""

import codecs
import re
import unicodedata
from itertools import accumulate
from typing import List, NamedTuple, Tuple

MOST_BYTES = 65_536  # of a section; with one more the engine says that it is too long
TAB = 4
BROAD = 100  # columns that are shown of a line
LEFT = 60  # of these, the most in front of a caret
NEAR = 500  # bytes that hints look at, on both sides of a place


def _one_byte_each(error: UnicodeError) -> Tuple[str, int]:
    """DEL in the place of each byte that is no UTF-8. To the engine it is as bad a byte, and columns stay the same."""
    assert isinstance(error, UnicodeDecodeError)
    return "\x7f" * (error.end - error.start), error.end


codecs.register_error("one_byte_each", _one_byte_each)


class Shown(NamedTuple):
    """A line as it is shown, and how many columns stand in front of the caret."""
    text: str
    caret: int


class Source:
    """A section: a file, or what was typed."""

    def __init__(self, name: str, data: bytes, path: str = "") -> None:
        self.name, self.path = name, path
        self._data = data[: MOST_BYTES + 1]
        self._lines = self._data.split(b"\n")
        self._starts = [0, *accumulate(len(it) + 1 for it in self._lines)]

    @property
    def text(self) -> str:
        """What the engine is given."""
        return self._data.decode("utf-8", "one_byte_each")

    def line(self, number: int) -> bytes:
        """A line without its end, counted from 1. One that isn't there is empty."""
        return self._lines[number - 1].rstrip(b"\r") if 0 < number <= len(self._lines) else b""

    def around(self, line: int, column: int) -> Tuple[str, str]:
        """Some text in front of a place, and some from there on."""
        at = self._starts[line - 1] + column - 1
        return _decoded(self._data[max(0, at - NEAR) : at]), _decoded(self._data[at : at + NEAR])

    def text_at(self, line: int, column: int) -> str:
        """The text in quotes that begins at a place."""
        found = re.match(rb'"[^"\n]*"', self.line(line)[column - 1 :])
        return _decoded(found[0]) if found else ""

    def characters_before(self, line: int, column: int) -> int:
        """How many characters stand on the line in front of a column of bytes."""
        return len(_decoded(self.line(line)[: column - 1]))

    def shown(self, line: int, column: int) -> Shown:
        """The line of a place, with tabs as spaces, control characters replaced, and cut where it is long."""
        before, caret = _columns(_decoded(self.line(line)[: column - 1]), 0)
        after, _ = _columns(_decoded(self.line(line)[column - 1 :]), caret)
        return _cut(before, after, caret)

    def bad_text(self) -> List[int]:
        """The line, the column and the value of the first byte that is no UTF-8, if there is one."""
        try:
            self._data.decode("utf-8")
        except UnicodeDecodeError as error:
            before = self._data[: error.start]
            return [before.count(b"\n") + 1, len(before) - before.rfind(b"\n"), self._data[error.start]]
        return []


def _decoded(data: bytes) -> str:
    return data.decode("utf-8", "one_byte_each")


def _columns(text: str, at: int) -> Tuple[List[str], int]:
    """The characters of a text as they are shown from a column on, and the column after them."""
    shown = []
    for character in text:
        shown.append(_character(character, at))
        at += breadth(shown[-1])
    return shown, at


def _character(character: str, at: int) -> str:
    if character == "\t":
        return " " * (TAB - at % TAB)
    if character == "\ufeff":
        return ""
    return "\ufffd" if unicodedata.category(character)[0] == "C" else character


def breadth(text: str) -> int:
    """How many columns of a terminal a text takes."""
    return sum(_breadth_of(character) for character in text)


def _breadth_of(character: str) -> int:
    if unicodedata.category(character) in ("Mn", "Me"):
        return 0
    return 2 if unicodedata.east_asian_width(character) in "WF" else 1


def _cut(before: List[str], after: List[str], caret: int) -> Shown:
    """The line around its caret."""
    first = 0
    while caret > LEFT:
        caret -= breadth(before[first])
        first += 1
    mark = "\u2026" if first else ""
    text, left = "", BROAD - caret
    for character in after:
        left -= breadth(character)
        if left < 0:
            text += "\u2026"
            break
        text += character
    return Shown(mark + "".join(before[first:]) + text, caret + len(mark))


def printable(text: str) -> str:
    """A text on one line, without what would steer a terminal."""
    return "".join("\ufffd" if unicodedata.category(it)[0] == "C" else it for it in text)
