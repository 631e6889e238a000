"""Prints what happens, for people or as lines of JSON. Each happening has a kind and fields, the same for both."""

import json
import os
import sys
from typing import Any, Dict, Iterator

from playing.sources import printable

RED, GREEN, YELLOW, BLUE, BOLD, GREY = "31", "32", "33", "34", "1", "90"
MOST_LEVELS = 20  # of a stack
Fields = Dict[str, Any]


def wants_colour(stream: Any) -> bool:
    """Whether a stream is a terminal that shows colours."""
    return stream.isatty() and "NO_COLOR" not in os.environ and os.environ.get("TERM") != "dumb"


class Json:
    """A JSON object on a line for each happening."""

    def tell(self, happening: str, **fields: Any) -> None:
        print(json.dumps({"event": happening, **fields}), flush=True)


class Text:
    """Lines for people."""

    def __init__(self, colour: bool) -> None:
        self._colour = colour

    def tell(self, happening: str, **fields: Any) -> None:
        fields = {name: printable(it) if isinstance(it, str) else it for name, it in fields.items()}
        for line in getattr(self, f"_{happening}")(fields):
            print(line, flush=True)

    def _in(self, colour: str, text: str) -> str:
        return f"\x1b[{colour}m{text}\x1b[0m" if self._colour else text

    def _error(self, it: Fields) -> Iterator[str]:
        place = f"{it['file']}:{it['line']}:{it['column']}"
        yield f"{self._in(BOLD, place)}: {self._in(RED, 'error')}: {it['message']} [{it['kind']}]"
        number = f"{it['line']:5}"
        yield f"{self._in(GREY, number + ' |')} {it['source']}".rstrip()
        yield f"{self._in(GREY, '      |')} {' ' * it['caret']}{self._in(RED, '^')}"
        for hint in it["hints"]:
            yield f"      {self._in(BLUE, 'hint')}: {hint}"

    def _host(self, it: Fields) -> Iterator[str]:
        answer = f" -> {it['value']}" if "value" in it else ""
        answer = f" raised {it['raised']}" if "raised" in it else answer
        default = self._in(GREY, "  (not in the host file)") if it["default"] else ""
        yield f"{self._in(BLUE, '  host')} {it['call']}{answer}{default}"

    def _end(self, it: Fields) -> Iterator[str]:
        yield f"{self._in(GREY, '  end ')} {it['object']}"

    def _built(self, it: Fields) -> Iterator[str]:
        yield f"{it['module']}: {self._in(GREEN, 'built')} under the mask {it['mask']}"

    def _result(self, it: Fields) -> Iterator[str]:
        value = f" = {it['value']}" if it["value"] else ""
        yield f"{it['call']}{value}: {self._in(GREEN, 'ok')}{_ticks(it)}"

    def _fault(self, it: Fields) -> Iterator[str]:
        yield f"{it['call']}: {self._in(RED, 'fault ' + it['fault'])}: {it['message']}{_ticks(it)}"
        yield from self._besides(it)

    def _refused(self, it: Fields) -> Iterator[str]:
        yield f"{it['what']}: {self._in(RED, 'refused')}: {it['message']} [{it['refusal']}]"
        yield from self._besides(it)

    def _besides(self, it: Fields) -> Iterator[str]:
        """Where a fault stood, and why it came."""
        for level in it["trace"][:MOST_LEVELS]:
            yield from self._level(level)
        if len(it["trace"]) > MOST_LEVELS:
            yield f"      and {len(it['trace']) - MOST_LEVELS} more"
        for key in ("cause", "held"):
            if it.get(key):
                yield f"      {self._in(BLUE, key)}: {it[key]}"

    def _level(self, it: Fields) -> Iterator[str]:
        place = f"{printable(it['file'])}:{it['line']}:{it['column']}"
        times = f", {it['times']} times" if it["times"] > 1 else ""
        where = "" if it["known"] else ", declared"
        yield f"      {self._in(BLUE, 'at')} {it['module']} {it['name']}{times}{where} {self._in(BOLD, place)}: {it['source']}"

    def _wrong(self, it: Fields) -> Iterator[str]:
        yield f"{self._in(BOLD, it['where'])}: {self._in(RED, 'error')}: {it['message']}"
        if it.get("source"):
            yield f"      {it['source']}"

    def _note(self, it: Fields) -> Iterator[str]:
        yield f"{self._in(YELLOW, 'note')}: {it['message']}"

    def _line(self, it: Fields) -> Iterator[str]:
        yield it["text"]


def _ticks(it: Fields) -> str:
    ticks = it.get("ticks")
    if ticks is None:
        return ""
    return f", {ticks} tick{'' if ticks == 1 else 's'}"


def printer(as_json: bool) -> Any:
    """Prints to standard output, whatever that can hold."""
    sys.stdout.reconfigure(errors="backslashreplace")  # type: ignore[union-attr]
    return Json() if as_json else Text(wants_colour(sys.stdout))
