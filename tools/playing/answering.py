"""What answers the host calls of a page, as lines: drivers as asrun has them, or 0, false, null and new objects."""

import re
from typing import Any, Dict, List

from bustlebrick import UNSIGNED
from playing.profiles import ASKED, FORMS, plain, result_of
from playing.sample_drivers import Drivers

LIKE_ASRUN, PLAIN = "asrun", "plain"
DRIVERS_OF_ASRUN = 3
RENUMBERED = re.compile(rf"((?:{'|'.join(ASKED)}) [^ ]+) [0-9]{{1,10}} (.+)")


class LikeAsrun:
    """The drivers of asrun. What they don't know is their fault 1."""

    def __init__(self, profile: str) -> None:
        self.profile = profile
        self._drivers = Drivers()

    def answer(self, line: str) -> str:
        """The answer to a host call."""
        return self._drivers.answer(line)

    def replied(self, lines: List[str]) -> None:
        """A command has ended, with this reply."""
        self._drivers.replied(lines)


class Plain:
    """Answers all host calls, whatever is registered. The engine is given the profile with the numbers of entries as `F`,
    so that a host call tells its entry."""

    def __init__(self, profile: str) -> None:
        self._results: Dict[int, str] = {}
        lines, number = [], 0
        for line in profile.split("\n"):
            word = line.rstrip("\r").partition(" ")[0]
            found = RENUMBERED.match(line)
            if found:
                line = f"{found[1]} {number} {found[2]}"
                self._results[number] = result_of(plain(found[2]))
            number += word in FORMS and word not in ("mask", "group", "endgroup", "limit")
            lines.append(line)
        self.profile = "\n".join(lines)
        self._made = 0

    def answer(self, line: str) -> str:
        """The answer to a host call."""
        _, _, kind, number, _, _ = line.split(" ")
        if kind == "make":
            self._made += 1
            return f"made #{self._made}"
        return "void" if kind == "write" else _plain(self._results[int(number)])

    def replied(self, lines: List[str]) -> None:
        """A command has ended. There is nothing to let go of."""


def _plain(result: str) -> str:
    """The answer with a value of that type."""
    if result in ("void", "bool"):
        return {"void": "void", "bool": "false"}[result]
    if "@" in result:
        return "null"
    return "0u" if result in UNSIGNED else "0"


ANSWERING: Dict[str, Any] = {LIKE_ASRUN: LikeAsrun, PLAIN: Plain}
