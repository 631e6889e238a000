"""The shell: sections that are typed in, and commands that begin with a colon."""

import os
import re
import select
import sys
from typing import Any, Callable, Dict, Iterable, List, Optional, Tuple

from bustlebrick import EngineLost, Refused
from playing import profiles
from playing.answers import BadHost
from playing.declared import Declared, NotCalled, call_of, is_whole
from playing.sentences import refusal_sentence
from playing.sources import Source, printable
from playing.stage import CantStart, Part, Stage

BIND = re.compile(r"(?:import )?(\d+|[^()]+\([^()]*\)) (?:from )?\"?([^ \";()]+)\"?(?: ([^()]+\([^()]*\)))?;?")
HELP = """\
What does not begin with a colon is script: it is added to the module, which is built anew, once all brackets are closed.
:call CALL                 int main(), sum(2, 40), or (2,40) int64 sum(int64, int64)
:mask MASK                 gives the module a mask, of up to eight hexadecimal digits, and builds it
:module NAME [MASK]        goes on with this module, and makes it where there is none
:imports                   what the module imports, with numbers, and what that is bound to
:bind IMPORT FROM [DECL]   binds an import, named by its declaration or number, to a function of the module FROM: to that
                           of the same declaration, or to DECL. As :bind int next(int) other
:load FILE                 adds a file to the module, and builds it
:reload                    reads the profile, the host file and all scripts again; modules are built and bound anew
:clear                     drops the module's sections
:discard                   ends the module
:remove GROUP              takes the entries of a group of the profile away
:events                    the events of the last command, as lines of docs/FORMATS.md
:functions                 what can be called
:profile                   what is registered, and what of it the module sees
:budget TICKS              the ticks that each later build and call may take
:limits [NAME=NUMBER ..]   what scripts hold and may hold; none takes a limit off
:help, :quit"""


class Lines:
    """Lines that are typed. While it waits it asks, twice a second, whether to go on otherwise."""

    def __init__(self, prompts: bool, waits: Optional[Callable[[], bool]]) -> None:
        self._prompts, self._waits, self._rest = prompts, waits, b""
        if prompts and not waits:
            import readline  # noqa: F401  (input() edits lines then)

    def next(self, prompt: str) -> Optional[str]:
        """The next line, or None at the end."""
        if self._prompts and not self._waits:
            try:
                return input(prompt)
            except EOFError:
                return None
        self._show(prompt)
        while b"\n" not in self._rest:
            while self._waits and not select.select([0], [], [], 0.5)[0]:
                if self._waits():
                    self._show(prompt)
            data = os.read(0, 1 << 16)
            if not data:
                return self._last()
            self._rest += data
        line, _, self._rest = self._rest.partition(b"\n")
        return line.decode("utf-8", "surrogateescape")

    def _last(self) -> Optional[str]:
        line, self._rest = self._rest, b""
        return line.decode("utf-8", "surrogateescape") if line else None

    def _show(self, prompt: str) -> None:
        if self._prompts:
            print(prompt, end="", flush=True)


class Shell:
    """A stage, the module that is gone on with, and what is typed of a section."""

    def __init__(self, stage: Stage, name: str) -> None:
        self.stage, self.name, self.tell = stage, name, stage.tell
        self._typed: List[str] = []
        self._count = 0
        self._times = self._changed_at()

    @property
    def part(self) -> Part:
        if self.name not in self.stage.parts:
            raise ValueError(f"there is no module '{self.name}': make it by :module")
        return self.stage.parts[self.name]

    def functions(self) -> List[Declared]:
        return self.stage.functions(self.name) if self.part else []

    def run(self, watch: bool) -> None:
        """Takes lines until they end, or `:quit` does it."""
        lines = Lines(sys.stdin.isatty() and sys.stdout.isatty(), self.reload_changed if watch else None)
        while True:
            try:
                line = lines.next("... " if self._typed else f"{self.name}> ")
            except KeyboardInterrupt:
                print()
                self._typed.clear()
                continue
            if line is None or (line.strip() == ":quit" and not self._typed):
                return
            self._safely(lambda: self._take(line or "", watch))

    def _safely(self, work: Callable[[], Any]) -> None:
        """Does something, and has another engine if that ended this one."""
        try:
            work()
        except KeyboardInterrupt:
            self.tell("note", message="stopped; another engine has the modules now, built anew")
            self.stage.revive()
        except EngineLost as lost:
            self.tell("note", message=f"{lost}; another engine has the modules now, built anew")
            self.stage.revive()
        except OSError as error:
            self.tell("note", message=f"{error.filename}: {error.strerror}" if error.filename is not None else str(error))
        except Refused as refused:
            self.tell("note", message=f"{refusal_sentence(str(refused))} [{refused}]")
        except (NotCalled, ValueError, BadHost) as error:
            self.tell("note", message=printable(str(error)))

    def _take(self, line: str, watch: bool) -> None:
        if watch and not self._typed:
            self.reload_changed()
        if line.startswith(":") and not self._typed:
            self._command(line)
            return
        self._typed.append(line)
        text = "\n".join(self._typed)
        if is_whole(text) or not line.strip():
            self._typed.clear()
            if text.strip():
                self._add(text)

    def _add(self, text: str) -> None:
        self._count += 1
        data = (text + "\n").encode("utf-8", "surrogateescape")
        self._build_with(Source(f"typed {self._count}", data))

    def _build_with(self, source: Source) -> None:
        """Adds a section. Where the build is refused the module is built without it."""
        before = self.part.sources
        self.part.sources = [*before, source]
        if not self.stage.build(self.name) and self.part.sources:
            self.part.sources = before
            self.tell("note", message=f"without {source.name}:")
            self.stage.build(self.name)

    # ---- commands

    def _command(self, line: str) -> None:
        word, _, rest = line[1:].strip().partition(" ")
        known: Dict[str, Callable[[str], Any]] = {
            "call": self._call, "mask": self._mask, "module": self._module, "imports": self._imports, "bind": self._bind,
            "load": self._load, "reload": self._reload, "clear": self._clear, "discard": self._discard, "remove": self._remove,
            "events": self._events, "functions": self._functions, "profile": self._profile, "budget": self._budget,
            "limits": self._limits, "help": self._help,
        }
        if word in known:
            known[word](rest.strip())
        else:
            self.tell("note", message=f"there is no command ':{word}'; :help has them")

    def _call(self, text: str) -> None:
        self.stage.call(self.name, call_of(text, self.functions()))

    def _mask(self, text: str) -> None:
        if self.stage.mask(self.name, mask_of(text)):
            self.stage.build(self.name)

    def _module(self, text: str) -> None:
        name, _, mask = text.partition(" ")
        if name in self.stage.parts or self.stage.module(name, mask_of(mask or "1")):
            self.name = name

    def _bind(self, text: str) -> None:
        found = BIND.fullmatch(" ".join(text.split()))
        if not found:
            raise ValueError("wanted: :bind IMPORT FROM [DECLARATION], as :bind int next(int) other, or :bind 0 other")
        self.stage.bind(self.name, found[1], found[2], found[3] or "")

    def _imports(self, _: str) -> None:
        bound = self.part.bound
        imports = enumerate(self.stage.imports(self.name))
        told = [f"{number} {it}: {_bound_to(bound.get(it))}" for number, it in imports]
        self._lines(told or ["there are none"])

    def _load(self, text: str) -> None:
        self._build_with(read_source(text))
        self._times = self._changed_at()

    def _reload(self, _: str) -> None:
        """Begins anew with the files as they are now."""
        parts = self.stage.parts
        for part in parts.values():
            part.sources = [read_source(it.path) if it.path else it for it in part.sources]
        try:
            stage = Stage(self.stage.options, self.tell)
        except CantStart:
            return
        self.stage.close()
        self.stage = stage
        stage.take(parts)
        self._times = self._changed_at()

    def _clear(self, _: str) -> None:
        self.part.sources = []
        self.stage.build(self.name)

    def _discard(self, _: str) -> None:
        if self.part and self.stage.discard(self.name):
            self.name = next(iter(self.stage.parts), self.name)

    def _remove(self, text: str) -> None:
        if self.stage.remove(text):
            self.tell("note", message=f"the entries of the group {text} are gone")

    def _events(self, _: str) -> None:
        self._lines(self.stage.events or ["there were none"])

    def _functions(self, _: str) -> None:
        self._lines([it.declaration for it in self.functions()] or ["there are none"])

    def _profile(self, _: str) -> None:
        profile = self.stage.engine.profile
        seen = set(map(id, profiles.seen(profile, self.part.mask)))
        for entry in profile.entries:
            hidden = "" if id(entry) in seen else "  (hidden)"
            self.tell("line", text=f"{entry.mask:08x} {profiles.told(entry)}{hidden}")

    def _budget(self, text: str) -> None:
        if not text.isdigit():
            raise ValueError("wanted: :budget TICKS, a number")
        self.stage.set_budget(int(text))

    def _limits(self, text: str) -> None:
        limits = self.stage.set_limits(dict(map(_limit, text.split())))
        used = self.stage.engine.used()._asdict()
        for name, most in limits.items():
            held = f", {used[name]} held" if name in used else ""
            self.tell("line", text=f"{name}: {'no limit' if most is None else most}{held}")

    def _help(self, _: str) -> None:
        self._lines(HELP.split("\n"))

    def _lines(self, lines: Iterable[str]) -> None:
        for line in lines:
            self.tell("line", text=line)

    # ---- files that change

    def _changed_at(self) -> Dict[str, Optional[int]]:
        options = self.stage.options
        scripts = [it.path for part in self.stage.parts.values() for it in part.sources]
        return changed_at([options.profile, options.host, *scripts])

    def reload_changed(self) -> bool:
        """Reloads where a file has changed, and tells whether it did."""
        times = self._changed_at()
        if times == self._times:
            return False
        self._times = times
        self.tell("note", message="a file has changed")
        self._safely(lambda: self._reload(""))
        return True


def changed_at(paths: Iterable[Optional[str]]) -> Dict[str, Optional[int]]:
    """When files were last written; None of one that isn't there."""
    return {path: _time_of(path) for path in paths if path}


def _time_of(path: str) -> Optional[int]:
    try:
        return os.stat(path).st_mtime_ns
    except OSError:
        return None


def _bound_to(to: Optional[Tuple[str, str]]) -> str:
    return f"{to[1]} of {to[0]}" if to else "not bound"


def _limit(text: str) -> Tuple[str, Optional[int]]:
    name, _, most = text.partition("=")
    if name not in ("events", "slots", "objects") or not (most.isdigit() or most == "none"):
        raise ValueError("wanted: events, slots or objects, =, and a number or none")
    return name, None if most == "none" else int(most)


def mask_of(text: str) -> int:
    """A mask of up to eight hexadecimal digits."""
    if not re.fullmatch(r"(0x)?[0-9a-fA-F]{1,8}", text):
        raise ValueError(f"'{text}' is no mask: wanted are up to eight hexadecimal digits")
    return int(text, 16)


def read_source(path: str) -> Source:
    """A file of script, as much of it as tells that it is too long."""
    with open(path, "rb") as file:
        return Source(path, file.read(65_537), path)
