"""The errors and denials of a build, as a page shows them at their places."""

import re
from itertools import accumulate
from typing import Any, Dict, List, Sequence, Tuple

from bustlebrick import BuildError, Denial, Place, Profile
from playing import profiles
from playing.hints import Known, hints
from playing.sentences import error_sentence
from playing.sources import Source, printable

MOST_SHOWN = 200  # errors of a build
MARKED = re.compile(r'\w+|"[^"\n]*"|.', re.DOTALL)


class Section:
    """A section's text, in which places are found in the units by which browsers count."""

    def __init__(self, text: str) -> None:
        self._lines = text.encode().split(b"\n")
        self._starts = [0, *accumulate(_units(it) + 1 for it in self._lines)]

    def marked(self, place: Place) -> Tuple[int, int]:
        """Where the word at a place begins and ends."""
        if not 0 < place.line <= len(self._lines):
            return self._starts[-1] - 1, self._starts[-1] - 1
        line = self._lines[place.line - 1]
        start = self._starts[place.line - 1] + _units(line[: place.column - 1])
        found = MARKED.match(line[place.column - 1 :].decode("utf-8", "replace"))
        return start, start + (_units(found[0].encode()) if found else 0)

    def within(self, place: Place) -> Tuple[int, int]:
        """How much of its line stands in front of the word at a place, and the word's length."""
        start, end = self.marked(place)
        return start - self._starts[min(place.line, len(self._lines)) - 1], end - start

    def line(self, number: int) -> str:
        """A line without its end. One that isn't there is empty."""
        return self._lines[number - 1].decode().rstrip("\r") if 0 < number <= len(self._lines) else ""


def _units(data: bytes) -> int:
    return len(data.decode("utf-8", "ignore").encode("utf-16-le")) // 2


def explained(profile: Profile, mask: int, texts: Sequence[str], lines: Sequence[str]) -> List[Dict[str, Any]]:
    """What the lines of a build's reply say of its sections."""
    errors = [_error(it) for it in lines if it.startswith("error ")]
    if not errors:
        return []  # what the module sees is much work to find in a long profile
    denials = [_denial(profile, it) for it in lines if it.startswith("denied ")]
    sources = [Source(f"section {number}", it.encode()) for number, it in enumerate(texts)]
    known, sections = Known(profiles.seen(profile, mask), sources, denials), [Section(it) for it in texts]
    numbers = {id(it): number for number, it in enumerate(profile.entries)}
    return [_shown(known, sections, numbers, it) for it in errors[:MOST_SHOWN]]


def _shown(known: Known, sections: List[Section], numbers: Dict[int, int], error: BuildError) -> Dict[str, Any]:
    denials = known.denials.get(error.place, [])
    start, end = sections[error.place.section].marked(error.place)
    return {
        **error.place._asdict(), "start": start, "end": end, "kind": error.kind, "name": error.name,
        "message": printable(error_sentence(error.kind, error.name)), "hints": hints(known, error)[len(denials) :],
        "denials": [_told(it, numbers[id(it.entry)]) for it in denials],
    }


def _told(denial: Denial, number: int) -> Dict[str, Any]:
    told = printable(profiles.told(denial.entry))
    return {"entry": number, "told": told, "mask": denial.entry.mask, "module_mask": denial.module_mask}


def _error(line: str) -> BuildError:
    _, kind, place, name = line.split(" ", 3)
    return BuildError(kind, _place(place), name)


def _denial(profile: Profile, line: str) -> Denial:
    _, place, entry, _, mask = line.split(" ")
    return Denial(_place(place), profile.entries[int(entry)], int(mask, 16))


def _place(text: str) -> Place:
    return Place(*map(int, text.split(":")))
