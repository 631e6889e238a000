"""Traces of faults: which functions of scripts were running, at which lines of which sections."""

import re
from itertools import groupby
from typing import Callable, Dict, Iterable, Iterator, List, NamedTuple, Optional, Sequence, Tuple

from bustlebrick import Frame, Place
from playing.explained import Section

AT = re.compile(r"at ([^ ]+) (.+) (\d+:\d+:\d+) (\d+:\d+:\d+|-)")
MOST_SOURCE = 200  # characters of a line


class Level(NamedTuple):
    """Calls of one function at one place, of which each made the next one."""
    frame: Frame
    times: int

    @property
    def place(self) -> Place:
        """The place of the statement; where that is not known, of the function's name."""
        return self.frame.place or self.frame.declared


def frames(lines: Iterable[str]) -> List[Frame]:
    """The frames of the lines that answer `trace`, innermost first."""
    found = (AT.fullmatch(it) for it in lines)
    return [Frame(it[1], it[2], _place(it[3]), None if it[4] == "-" else _place(it[4])) for it in found if it]


def levels(trace: Iterable[Frame]) -> List[Level]:
    """The frames, where those that are alike and follow one another are one."""
    return [Level(frame, len(list(alike))) for frame, alike in groupby(trace)]


def shown(trace: Sequence[Frame], texts_of: Callable[[str], Sequence[str]]) -> List[Dict[str, object]]:
    """The levels of a trace as a page shows them. `texts_of` gives the sections that a module was built of."""
    sections: Dict[Tuple[str, int], Optional[Section]] = {}
    return [_shown(it, _section(sections, texts_of, it)) for it in levels(trace)]


def _section(known: Dict[Tuple[str, int], Optional[Section]], texts_of: Callable[[str], Sequence[str]], it: Level) -> Optional[Section]:
    key = it.frame.module, it.place.section
    if key not in known:
        texts = texts_of(key[0])
        known[key] = Section(texts[key[1]]) if key[1] < len(texts) else None
    return known[key]


def _shown(it: Level, section: Optional[Section]) -> Dict[str, object]:
    before, size = section.within(it.place) if section else (0, 0)
    return {
        "module": it.frame.module, "name": it.frame.name, **it.place._asdict(), "known": it.frame.place is not None,
        "times": it.times, "before": before, "size": size,
        "source": section.line(it.place.line)[:MOST_SOURCE] if section else "",
    }


def told(trace: Iterable[Frame], source_of: Callable[[Level], Tuple[str, str]]) -> Iterator[Dict[str, object]]:
    """The levels of a trace as the terminal is told them. `source_of` gives a section's name, and the line."""
    for it in levels(trace):
        file, source = source_of(it)
        yield {
            "module": it.frame.module, "name": it.frame.name, "file": file, "line": it.place.line, "column": it.place.column,
            "known": it.frame.place is not None, "source": source, "times": it.times,
        }


def _place(text: str) -> Place:
    return Place(*map(int, text.split(":")))
