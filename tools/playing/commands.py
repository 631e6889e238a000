"""Commands of a session as texts: those that a session has, and what tools/play.py --web keeps beside them in comments."""

import re
from typing import Dict, Iterator, List, NamedTuple, Tuple

NAME = r"[^ \n]+"
FORMS = {
    "module": rf"({NAME}) ([0-9a-fA-F]{{8}})",
    "mask": rf"({NAME}) ([0-9a-fA-F]{{8}})",
    "section": rf"({NAME}) ([0-9]{{1,10}})",
    "build": rf"({NAME})",
    "bind": rf"({NAME}) ([0-9]{{1,10}}) ({NAME}) (.+)",
    "unbind": rf"({NAME}) ([0-9]{{1,10}})",
    "call": rf"({NAME}) (\([^ ]*\)) (.+)",
    "discard": rf"({NAME})",
    "remove": rf"({NAME})",
    "budget": r"([0-9]{1,10})",
}
DRAFT = re.compile(rf"#draft ({NAME}) ([0-9]{{1,10}})")
DRAFTED = "#|"  # in front of each line of a draft
ANSWERS = re.compile(r"#answers (\w+)")


class BadSession(Exception):
    """A line of a session that is not taken."""

    def __init__(self, line: int, message: str) -> None:
        super().__init__(message)
        self.line = line


class Written(NamedTuple):
    """A session that was read: its commands, the sections that were only edited so far, and how host calls are answered."""
    commands: List[str]
    drafts: Dict[str, List[str]]
    answers: str


def read_session(text: str) -> Written:
    """The session of a text."""
    answers = ANSWERS.match(text)
    written = Written([], {}, answers[1] if answers else "")
    lines = iter(enumerate(_lines(text), 1))
    for number, line in lines:
        draft = DRAFT.fullmatch(line)
        if draft:
            taken = _taken(number, lines, int(draft[2]))
            written.drafts.setdefault(draft[1], []).append("".join(it[len(DRAFTED):] + "\n" for it in taken))
        elif line and not line.startswith("#"):
            written.commands.append(_command(number, line, lines))
    return written


def _lines(text: str) -> List[str]:
    lines = text.split("\n")
    return lines if lines[-1] else lines[:-1]


def _command(number: int, line: str, lines: Iterator[Tuple[int, str]]) -> str:
    line = line[:-1] if line.endswith("\r") else line
    word, fields = fields_of(line)
    if not fields:
        raise BadSession(number, f"this is no line of a session; their words are {', '.join(FORMS)}")
    return "\n".join([line, *_taken(number, lines, int(fields[1]))]) if word == "section" else line


def _taken(number: int, lines: Iterator[Tuple[int, str]], count: int) -> List[str]:
    taken = []
    while len(taken) < count:
        following = next(lines, None)
        if following is None:
            raise BadSession(number, f"fewer than {count} lines come after it")
        taken.append(following[1])
    return taken


def fields_of(command: str) -> Tuple[str, Tuple[str, ...]]:
    """The word of a command and its fields, which are none where it is of no form."""
    word, _, rest = command.partition("\n")[0].partition(" ")
    found = re.fullmatch(FORMS.get(word, r"(?!)"), rest)
    return word, found.groups() if found else ()


def text_of(command: str) -> str:
    """The script that a command adds."""
    return command.partition("\n")[2] + "\n" if "\n" in command else ""


def section(name: str, text: str) -> str:
    """The command that adds a section."""
    text = text[:-1] if text.endswith("\n") else text
    return f"section {name} {text.count(chr(10)) + 1}\n{text}"


def draft(name: str, text: str) -> str:
    """The comment that keeps a section which was only edited."""
    lines = _lines(text) or [""]
    return "\n".join([f"#draft {name} {len(lines)}", *(DRAFTED + it for it in lines)])
