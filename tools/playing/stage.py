"""An engine with its profile and modules: what is told to it, what comes back, and how it is begun anew."""

import inspect
import re
import signal
from contextlib import contextmanager
from typing import Any, Callable, Dict, Iterator, List, NamedTuple, Optional, Tuple

from bustlebrick import BuildError, Conversation, Engine, EngineLost, Held, Refused, Reply
from playing import profiles
from playing.answers import Host, host_file
from playing.declared import Called, Declared, form_of, functions, listed
from playing.hints import Known, hidden, hints
from playing.sentences import error_sentence, fault_sentence, refusal_sentence
from playing.sources import Source, printable
from playing.traces import Level, told

PROGRAM = inspect.signature(Engine).parameters["program"].default


class CantStart(Exception):
    """There is no engine to play on."""


class Options(NamedTuple):
    """What is played on."""
    program: Optional[str]
    profile: Optional[str]
    host: Optional[str]
    budget: int
    timeout: float


class Part:
    """A module: its mask, its sections, and the imports that were bound."""

    def __init__(self, mask: int) -> None:
        self.mask, self.built_mask = mask, mask
        self.sources: List[Source] = []
        self.built: List[Source] = []  # by the last build, whether that was refused or not
        self.bound: Dict[str, Tuple[str, str]] = {}  # by the declarations of the imports


class Stage:
    """An engine, and the modules that were made in it."""

    def __init__(self, options: Options, tell: Callable[..., None]) -> None:
        self.options, self.tell = options, tell
        self.parts: Dict[str, Part] = {}
        self.events: List[str] = []  # of the last command
        self.budget = options.budget
        self._keys: Dict[str, str] = {}
        names = host_file(options.host) if options.host else {}
        self._host = Host(names, options.host or "", tell)
        self._text = read_profile_text(options.profile) if options.profile else ""
        self._read = self._profile(self._host.answering)
        self._limits: Dict[str, Any] = dict(self._read.limits)
        self.engine = self._engine(self._read)
        self._begin()

    @property
    def path(self) -> str:
        return self.options.profile or ""

    def _profile(self, answering: profiles.Answering) -> profiles.Read:
        try:
            return profiles.read_profile(self._text, answering)
        except profiles.BadProfile as bad:
            self._tell_line(bad.line, str(bad))
            raise CantStart from bad

    def _tell_line(self, line: int, message: str) -> None:
        source = self._text.split("\n")[line - 1].rstrip("\r") if line else ""
        self.tell("wrong", where=f"{self.path}:{line}" if line else self.path, message=message, source=source)

    def _engine(self, read: profiles.Read) -> Engine:
        program = self.options.program or PROGRAM
        try:
            with _deaf_to_interrupts():
                return Engine(read.profile, program, self.options.timeout, **self._limits)
        except Refused as refused:
            self._tell_refused_line(program, refused)
        except OSError as error:
            self.tell("wrong", where=program, message=f"the engine can't be started ({error.strerror}): name it by --engine")
        except EngineLost as lost:
            self.tell("wrong", where=program, message=f"this does not answer as an engine: {lost}")
        except ValueError as error:
            self.tell("wrong", where=self.path or program, message=str(error))
        raise CantStart

    def _tell_refused_line(self, program: str, refused: Refused) -> None:
        """Has the engine read the file itself, since that says the line."""
        line, word = 0, str(refused).partition(":")[0]
        words = [program, "--profile", self.path, "--drivers", "64"]
        try:
            Conversation(words, lambda line: "void").say("", self.options.timeout)
        except EngineLost as lost:
            found = re.match(r"profile (\d+) (\w+)", "".join(lost.said))
            if found:
                line, word = int(found[1]), found[2]
        self._tell_line(line, f"{refusal_sentence(word)} [{word}]")

    def _begin(self) -> None:
        self._keys = {}
        self._host.restart()
        self.told(f"budget {self.budget}")

    def told(self, text: str) -> Reply:
        """Does a command, and tells which objects ended."""
        self._host.begin()
        reply = self.engine.command(text)
        self.events = reply.events
        self._tell_ends(reply.events)
        return reply

    def done(self, what: str, text: str) -> bool:
        """Does a command that has no events, and tells if it is refused."""
        reply = self.told(text)
        if not reply.ok:
            self._tell_refused(what, reply)
        return reply.ok

    def _tell_ends(self, events: List[str]) -> None:
        made = iter(self._host.made)
        for event in events:
            found = re.search(r" (?:made (#\d+)|end \d+ (#\d+))$", f" {event}")
            if found and found[1]:
                self._keys[found[1]] = next(made, found[1])
            elif found:
                self.tell("end", object=self._keys.pop(found[2], found[2]))

    def _tell_refused(self, what: str, reply: Reply) -> None:
        refusal = reply.outcome.partition(" ")[2]
        held = self._held(reply) if refusal.endswith("Memory") else None
        message = refusal_sentence(refusal)
        trace = self._trace() if refusal.startswith("InitFailed") else []
        self.tell("refused", what=what, refusal=refusal, message=message, trace=trace, cause=self._cause(reply), held=held)

    def _trace(self) -> List[Dict[str, Any]]:
        """What was running when the last command ended with a fault."""
        return list(told(self.engine.trace(), self._source_of))

    def _source_of(self, level: Level) -> Tuple[str, str]:
        """The name of the section of a level, and its line as it is shown."""
        built, place = self.parts[level.frame.module].built, level.place
        if place.section >= len(built):
            return f"section {place.section}", ""
        return built[place.section].name, built[place.section].shown(place.line, place.column).text.strip()

    def _held(self, reply: Reply) -> str:
        used = self.engine.used()
        return str(Held(len(reply.events) + used.objects, used, self.engine.limits()))

    def _cause(self, reply: Reply) -> Optional[str]:
        return self._host.raised() or (str(reply.cause) if reply.cause else None)

    # ---- modules

    def module(self, name: str, mask: int) -> bool:
        """Makes a module, without scripts."""
        if not self.done(f"module {name}", f"module {_field(name)} {mask:08x}"):
            return False
        self.parts[name] = Part(mask)
        return True

    def mask(self, name: str, mask: int) -> bool:
        """Gives a module a mask for its next build."""
        if not self.done(f"mask {name}", f"mask {_field(name)} {mask:08x}"):
            return False
        self.parts[name].mask = mask
        return True

    def build(self, name: str) -> bool:
        """Builds a module of its sections."""
        part = self.parts[name]
        for source in part.sources:
            if not self.done(source.name, section_text(name, source.text)):
                self._drop_waiting(name)
                return False
        self._forget_bindings(name)
        part.built_mask, part.built = part.mask, part.sources
        reply = self.told(f"build {name}")
        if reply.ok:
            self.tell("built", module=name, mask=f"{part.mask:08x}", functions=[it.declaration for it in self.functions(name)])
        else:
            self._tell_errors(part, reply)
            self._tell_refused(name, reply)
        return reply.ok

    def functions(self, name: str) -> List[Declared]:
        """The functions of a module: those that it was built with, or else those that its sections seem to have."""
        try:
            lines = self.engine.told(f"list {_field(name)}")
        except Refused:
            return functions(it.text for it in self.parts[name].sources)
        return [listed(it.partition(" ")[2]) for it in lines if it.startswith("function ")]

    def _drop_waiting(self, name: str) -> None:
        """Makes a module anew, so that none of its sections wait."""
        self._forget_bindings(name)
        self.told(f"discard {name}")
        self.told(f"module {name} {self.parts[name].mask:08x}")

    def _forget_bindings(self, name: str) -> None:
        self.parts[name].bound.clear()
        for part in self.parts.values():
            part.bound = {imported: to for imported, to in part.bound.items() if to[0] != name}

    def _tell_errors(self, part: Part, reply: Reply) -> None:
        known = Known(profiles.seen(self.engine.profile, part.mask), part.sources, reply.denials)
        for source in part.sources:
            if source.bad_text():
                line, column, byte = source.bad_text()
                self.tell("note", message=f"{source.name} is not UTF-8: line {line}, column {column} has the byte 0x{byte:02x}")
        for error in reply.errors:
            self._tell_error(known, error)

    def _tell_error(self, known: Known, error: BuildError) -> None:
        source, place = known.sources[error.place.section], error.place
        name = source.text_at(place.line, place.column) or error.name  # a reply's line can't hold a text with spaces
        shown = source.shown(place.line, place.column)
        self.tell(
            "error", file=source.name, line=place.line, column=place.column,
            character=source.characters_before(place.line, place.column), kind=error.kind, name=name,
            message=error_sentence(error.kind, name), hints=hints(known, error), denials=hidden(known, error),
            source=shown.text, caret=shown.caret,
        )

    def imports(self, name: str) -> List[str]:
        """The declarations of a module's imports, in the order of their numbers."""
        lines = self.engine.told(f"list {_field(name)}")
        return [it.split(" ", 2)[2] for it in lines if it.startswith("import ")]

    def bind(self, name: str, imported: str, exporter: str, declaration: str = "") -> bool:
        """Binds a module's import, of this number or declaration, to a function of another module: to that of the import's
        declaration, if no other is named."""
        try:
            number, own = self._import(name, imported)
        except Refused as refused:
            self._tell_refused(f"bind {imported}", Reply(f"refused {refused}", [], [], [], None))
            return False
        to = " ".join(declaration.split()) or own
        if not self.done(f"bind {own}", f"bind {_field(name)} {number} {_field(exporter)} {to}"):
            return False
        self.parts[name].bound[own] = (exporter, to)
        self.tell("note", message=f"{name}'s import {number}, {own}, is bound to {to} of {exporter}")
        return True

    def _import(self, name: str, imported: str) -> Tuple[int, str]:
        """The number and the declaration of an import that is named by either."""
        for number, own in enumerate(self.imports(name)):
            if imported == str(number) or form_of(own) == form_of(imported):
                return number, own
        raise Refused("NoImport")

    def discard(self, name: str) -> bool:
        """Ends a module."""
        if not self.done(f"discard {name}", f"discard {_field(name)}"):
            return False
        self._forget_bindings(name)
        del self.parts[name]
        return True

    def remove(self, name: str) -> bool:
        """Takes the entries of a group away."""
        if not self.done(f"remove {name}", f"remove {_field(name)}"):
            return False
        profiles.blank_out(self.engine.profile, name)
        return True

    # ---- calls

    def call(self, name: str, called: Called) -> bool:
        """Calls a function of a module."""
        values = f"({called.values})"
        reply = self.told(f"call {_field(name)} {values} {called.declaration}")
        what = called.declaration + (f" with {values}" if called.values else "")
        word, _, rest = reply.outcome.partition(" ")
        if word == "ok":
            self.tell("result", call=what, value=rest, ticks=self.engine.used().ticks)
        elif word == "fault":
            held = self._held(reply) if rest == "Memory" else None
            self.tell(
                "fault", call=what, fault=rest, message=fault_sentence(rest), ticks=self.engine.used().ticks, trace=self._trace(),
                cause=self._cause(reply), held=held,
            )
        else:
            self._tell_refused(what, reply)
            self._tell_functions(name, rest)
        return word == "ok"

    def _tell_functions(self, name: str, refusal: str) -> None:
        """What could have been called, where there is no such function."""
        known = self.functions(name) if name in self.parts and refusal == "NoFunction" else []
        if known:
            self.tell("note", message=f"the script has {printable('; '.join(it.declaration for it in known))}")

    # ---- the engine

    def set_budget(self, ticks: int) -> None:
        if self.done("budget", f"budget {ticks}"):
            self.budget = ticks

    def set_limits(self, given: Dict[str, Optional[int]]) -> Dict[str, Optional[int]]:
        """Sets limits that are named, and gives all. What no engine should have is a ValueError."""
        return dict(self.engine.limits(**given)._asdict())

    def revive(self) -> None:
        """Starts another engine, with the same modules, built and bound anew."""
        parts, self.parts = self.parts, {}
        with _deaf_to_interrupts():
            self.engine.restart()
        self._begin()
        self.take(parts)

    def take(self, parts: Dict[str, Part]) -> None:
        """Makes the modules of another stage, builds and binds them."""
        bound = [(name, imported, *to) for name, part in parts.items() for imported, to in part.bound.items()]
        for name, part in parts.items():
            if self.module(name, part.mask):
                self.parts[name].sources = part.sources
                self.build(name)
        for name, imported, exporter, declaration in bound:
            self.bind(name, imported, exporter, declaration)

    def close(self) -> None:
        self.engine.close()


def section_text(name: str, text: str) -> str:
    """The command that adds a section."""
    text = text[:-1] if text.endswith("\n") else text
    return f"section {_field(name)} {text.count(chr(10)) + 1}\n{text}"


def _field(text: str) -> str:
    if not re.fullmatch(r"[^\s]+", text):
        raise ValueError(f"'{printable(text)}' is no name of a module")
    return text


def read_profile_text(path: str) -> str:
    """A file of registrations, as much of it as an engine takes."""
    with open(path, encoding="utf-8", newline="") as file:
        return file.read(1 << 20)


@contextmanager
def _deaf_to_interrupts() -> Iterator[None]:
    """A process that is started meanwhile is left alone by Ctrl-C, which is for this one."""
    before = signal.signal(signal.SIGINT, signal.SIG_IGN)
    try:
        yield
    finally:
        signal.signal(signal.SIGINT, before)
