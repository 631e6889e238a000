"""An engine as a process that is given a profile as a text, with bounds on what it may take."""

import re
from tempfile import NamedTemporaryFile
from typing import Any, List, NamedTuple

from bustlebrick import Conversation, EngineLost

MEMORY = 1 << 30  # bytes
MOST_LINES = 100_000  # of a reply
STARTED = 'ulimit -v "$0" && exec "$@" 2>/dev/null'
LIMITS = {"events": 10_000, "slots": 100_000, "objects": 1_000}


class Said(NamedTuple):
    """The lines of a reply."""
    lines: List[str]

    @property
    def outcome(self) -> str:
        return self.lines[-1] if self.lines else ""


class Process:
    """An engine, whose host calls `answering` answers; it is told of each reply too. A command has `timeout` seconds, and a
    longer one is a `CommandTimeout`, which is an `EngineLost`."""

    def __init__(self, program: str, profile: str, drivers: int, answering: Any, timeout: float) -> None:
        self.timeout, self._answering = timeout, answering
        with NamedTemporaryFile("w", encoding="utf-8", newline="") as file:
            file.write(profile)
            file.flush()
            words = ["/bin/sh", "-c", STARTED, str(MEMORY >> 10), program, "--profile", file.name, "--drivers", str(drivers)]
            self._talk = Conversation(words, answering.answer)
            self._said("")

    def command(self, text: str) -> Said:
        """Does a command of a session."""
        said = Said(self._said(f"{text}\n"))
        self._answering.replied(said.lines)
        return said

    def told(self, text: str) -> List[str]:
        """The lines that answer a question between commands, without the last one. Where it is refused there are none."""
        lines = self._said(f"{text}\n")
        return lines[:-1] if lines[-1:] == ["ok"] else []

    def _said(self, text: str) -> List[str]:
        lines: List[str] = []

        def hear(line: str) -> None:
            lines.append(line)
            if len(lines) > MOST_LINES:
                raise EngineLost(f"the reply had more than {MOST_LINES} lines")

        try:
            self._talk.tell(text, self.timeout, hear)
        except EngineLost as lost:
            lost.said = lines
            raise
        return lines

    def kill(self) -> None:
        """Ends it whatever it does, also while another thread waits for a reply."""
        self._talk.process.kill()
        self._talk.process.wait()

    close = kill


def with_limits(profile: str) -> str:
    """The profile with a limit of each kind. Lines that are added stand at its end."""
    text = profile if profile.endswith("\n") or not profile else f"{profile}\n"
    named = re.findall(r"^limit (\w+) ", text, re.MULTILINE)
    return text + "".join(f"limit {name} {most}\n" for name, most in LIMITS.items() if name not in named)
