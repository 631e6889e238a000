"""Runs scripts in a Bustlebrick engine, a child process or a library in this one, and answers what they ask.

A `Profile` says what scripts may use, and which callables answer. An `Engine` runs with that profile, and a `Module` in
it holds scripts, which see what the module's mask shows them::

    profile = Profile()
    profile.function("int64 sum(int64, int64)", lambda a, b: a + b)
    with Engine(profile) as engine:
        game = engine.module("game", mask=1)
        game.section("int64 twice(int64 n) { return sum(n, n); }")
        print(game.build().outcome, game.call("int64 twice(int64)", 21))

An engine is for one thread at a time, and a callable may not use the engine that asks it.
"""

from __future__ import annotations

import ctypes
import os
import re
import select
import struct
import subprocess
import tempfile
import time
from contextlib import AbstractContextManager, contextmanager
from functools import lru_cache
from itertools import repeat
from operator import attrgetter, index
from typing import Any, Callable, Dict, Iterable, Iterator, List, NamedTuple, Optional, Sequence, Set, Tuple, Union

__version__ = "0.1.0"

Asked = Callable[..., Any]
LINE, FIELD, GROUP, MASK, NUMBER = "[^\n]+", "[^ \n]+", "[^ \r\n]+", "[0-9a-f]{8}", "[0-9]{1,10}"
HEAD = re.compile("section [^ ]+ ([0-9]{1,10})")
NOTED = re.compile("(section|build|check|discard|remove) ([^ \r\n]+)")
LIKE_HEAD = re.compile("[^a-z]*section", re.ASCII | re.IGNORECASE)  # what follows such a line could be a script's text
MOST_COMMAND = 16_777_216  # bytes
MOST_WAIT = 2**31 - 1  # milliseconds, of one `poll`
UNEXPECTED = 1  # the number of a script's fault where a callable raised something else than `Fault`
KEPT = 4_294_967_280  # from here on, numbers of faults are the engine's own
MOST = 2**63 - 1  # as a limit: none
MOST_SOURCE = 200  # characters of a line
CONTROL = re.compile("[\x00-\x1f\x7f]")
UNCHANGED: Any = object()
MADE_KEY = " made #"  # before the key, in an event


class Fault(Exception):
    """Raised by a callable: the script that asked ends with the fault ``Host NUMBER``."""

    def __init__(self, number: int) -> None:
        if not 0 <= index(number) < KEPT:
            raise ValueError(f"a host's fault is a number from 0 to {KEPT - 1}, and not {number}")
        self.number = int(number)


class Refused(Exception):
    """A command was not done, or a profile not taken. The text is the refusal, as ``NoFunction``."""


class Limits(NamedTuple):
    """The most that there may be; None is no limit. README.md, one folder up, says what these hold."""
    events: Optional[int] = 10_000  # that a reply lists, with one for the end of each object that is alive
    slots: Optional[int] = 100_000  # of objects of scripts' classes: one for each object, and one for each field
    objects: Optional[int] = 1_000  # of the host, that scripts hold


class Used(NamedTuple):
    """What scripts hold: the slots of objects of their classes, and how many objects of the host; and the ticks that the
    last build or call took."""
    slots: int
    objects: int
    ticks: int = 0


class Held(NamedTuple):
    """What there was once a call had ended with the fault ``Memory``, and the limits.

    The events are those of the reply, and one for the end of each object that is alive. What only variables of the call
    held is given up by then, and not counted.
    """
    events: int
    used: Used
    limits: Limits

    def __str__(self) -> str:
        parts = zip((self.events, self.used.slots, self.used.objects), self.limits, Limits._fields)
        return ", ".join(f"{it} {name}" if most is None else f"{it} of {most} {name}" for it, most, name in parts)


# A place in the scripts of a build: sections count from 0, lines and columns from 1.
Place = NamedTuple("Place", [("section", int), ("line", int), ("column", int)])


class Frame(NamedTuple):
    """A function of a script that was running when a call ended with a fault.

    The name is ``f``, ``C::f`` of a method or constructor, or ``global g`` of the global whose initializer it is.
    `declared` is the place of the name, and `place` that of the statement, where it is known. `source` is the line of
    this place as it was when the call ended, or None where no `Module.section` added it. It has at most 200 characters:
    of a longer line those from the place on, or the last.
    """
    module: str
    name: str
    declared: Place
    place: Optional[Place]
    source: Optional[str] = None

    def __str__(self) -> str:
        """As ``player attack 0:3:5: return 10 / n;``. Control characters of the source are spaces in it."""
        at = "{} {} {}:{}:{}".format(self.module, self.name, *(self.place or self.declared))
        shown = CONTROL.sub(" ", self.source or "").strip(" ")
        return f"{at}: {shown}" if shown else at


class ScriptFault(Exception):
    """A call ended with a fault, as ``Host 7``. The cause is what a callable raised, if one did.

    The text is the fault. That of ``Memory``, which comes of a limit too, goes on with what there was and the limits. The
    trace is what was running, innermost first, and empty where there was no memory to keep it.
    """

    def __init__(self, fault: str, held: Optional[Held] = None, trace: Sequence[Frame] = ()) -> None:
        super().__init__(f"{fault}: {held}" if held else fault)
        self.fault, self.held, self.trace = fault, held, list(trace)

    def stack(self) -> List[str]:
        """A line for each frame of the trace, as ``player attack 0:3:5: return 10 / n;``."""
        return list(map(str, self.trace))


class EngineLost(Exception):
    """The engine ended or was killed, and said this last. `Engine.restart` makes another one."""

    def __init__(self, message: str, said: Sequence[str] = ()) -> None:
        super().__init__(message)
        self.said = said


class CommandTimeout(EngineLost):
    """A command took longer than the timeout, and the engine was killed."""


class BuildError(NamedTuple):
    """An error of a build. The name is ``-`` where there is none."""
    kind: str
    place: Place
    name: str


class Denial(NamedTuple):
    """What was refused at this place would have meant this entry of the profile, which the module's mask hides."""
    place: Place
    entry: Entry
    module_mask: int


class Reply(NamedTuple):
    """What the engine answered to a command. The cause is what a callable raised meanwhile, if one did.

    The events are what scripts asked and which objects ended, in order: the lines ``host ..`` and ``end ..``.
    """

    outcome: str
    events: List[str]
    errors: List[BuildError]
    denials: List[Denial]
    cause: Optional[Exception]

    @property
    def ok(self) -> bool:
        """Whether the command was done."""
        return self.outcome.partition(" ")[0] == "ok"


class Form(NamedTuple):
    """The form of an answer, of which a number is the rest: its text, and what bustlebrick.h calls it and its value."""
    text: str
    kind: int
    value: int = 0


Answer = Tuple[Form, int]
VOID, MADE, NOTHING, FAULT = Form("void", 0), Form("made #{}", 2), Form("nothing", 3), Form("fault {}", 4)
MEMORY = Form("memory", 5)
INT, UINT, FALSE, TRUE = Form("{}", 1, 0), Form("{}u", 1, 1), Form("false", 1, 2), Form("true", 1, 2)
KEY, NULL = Form("#{}", 1, 3), Form("null", 1, 4)


class Conversation:
    """The lines to and from an engine's process. `answer` is given each line ``ask ..``, and gives its answer; and each line
    ``post ..``, to which nothing is said. Where there is a `post`, it is given these instead."""

    def __init__(
        self, words: Sequence[str], answer: Callable[[str], str], post: Optional[Callable[[str], object]] = None
    ) -> None:
        self._answer, self._post = answer, post or answer
        self._lines: List[str] = []  # read and not looked at, the last one first
        self._rest = b""
        self.busy = False
        self.process = subprocess.Popen(words, stdin=subprocess.PIPE, stdout=subprocess.PIPE, bufsize=0)
        self.pid: Optional[int] = self.process.pid
        assert self.process.stdin and self.process.stdout
        self._input, self._output = self.process.stdin, self.process.stdout
        os.set_blocking(self._input.fileno(), False)

    def say(self, text: str, timeout: float) -> List[str]:
        """Sends a command, and gives the lines of its reply, without ``done``."""
        reply: List[str] = []
        try:
            self.tell(text, timeout, reply.append)
        except EngineLost as lost:
            lost.said = reply
            raise
        return reply

    def tell(self, text: str, timeout: float, hear: Callable[[str], None]) -> None:
        """Sends a command, and has each line of its reply heard, without ``done``."""
        if self.is_closed:
            raise EngineLost(GONE)
        if self.busy:
            raise RuntimeError(IN_CALLABLE)
        self.busy, self._deadline, data = True, time.monotonic() + timeout, text.encode()
        try:
            self._send(data)
            while (line := self._line()) != "done":
                if line is None:
                    raise EngineLost(f"the engine ended with the status {self.close(timeout)}")
                if line.startswith("ask "):
                    answer = self._answer(line)
                    _left(self._deadline)
                    self._send(answer.encode() + b"\n")
                elif line.startswith("post "):
                    self._post(line)
                else:
                    hear(line)
        except BaseException:
            self.close(0)  # half a command can't be gone on with
            raise
        finally:
            self.busy = False

    @property
    def is_closed(self) -> bool:
        """Whether the engine has ended."""
        return self._output.closed

    def close(self, timeout: float) -> int:
        """Ends the input, so that the process ends, and kills it if it doesn't. Gives its status."""
        self._input.close()
        try:
            return self.process.wait(timeout)
        except subprocess.TimeoutExpired:
            self.process.kill()
            return self.process.wait()
        finally:
            self._output.close()

    def _line(self) -> Optional[str]:
        while not self._lines:
            self._wait(self._output.fileno(), select.POLLIN)
            data = os.read(self._output.fileno(), 1 << 16)
            if not data:
                return None
            whole, end, self._rest = (self._rest + data).rpartition(b"\n")
            self._lines = whole.decode().split("\n")[::-1] if end else []
        _left(self._deadline)
        return self._lines.pop()

    def _send(self, data: bytes) -> None:
        while data:
            try:
                data = data[os.write(self._input.fileno(), data) :]
            except BlockingIOError:
                self._wait(self._input.fileno(), select.POLLOUT)
            except BrokenPipeError:
                return  # what the engine said last is still to be read

    def _wait(self, file: int, event: int) -> None:
        poll = select.poll()
        poll.register(file, event)
        while not poll.poll(min(_left(self._deadline) * 1000, MOST_WAIT)):
            pass  # either it is late, or there was more time than one wait can take


GONE, LATE = "there is no engine any more", "a command took longer than the timeout"
IN_CALLABLE = "a callable may not use the engine that asks it"


def _left(deadline: float) -> float:
    """The seconds up to a deadline, if there are any."""
    left = deadline - time.monotonic()
    if left <= 0:
        raise CommandTimeout(LATE)
    return left


class Options(ctypes.Structure):
    """`bb_options` of bustlebrick.h."""
    _fields_ = [
        ("profile", ctypes.c_char_p),
        ("profile_bytes", ctypes.c_size_t),
        ("drivers", ctypes.c_uint32),
        ("budget", ctypes.c_uint64),
        ("stack_bytes", ctypes.c_size_t),
        ("memory_bytes", ctypes.c_size_t),
        ("host", ctypes.c_void_p),
        ("data", ctypes.c_void_p),
    ]


DONE, ASKS, ENDED, BUSY, THREAD = range(5)  # bb_state
ASK, ANSWER = struct.Struct("=II I??2xQQQ"), struct.Struct("=III4xQ")  # bb_ask, bb_answer
POSTS = struct.Struct("=IIQQQ")  # bb_posts
KINDS = ("make", "call", "read", "write")


@lru_cache(None)
def _loaded(path: str) -> Any:
    """The library at a path, or None where there is none that can be loaded."""
    try:
        library = ctypes.CDLL(path, use_errno=True)
    except OSError:
        return None
    pointer, size = ctypes.c_void_p, ctypes.c_size_t
    types: Dict[str, Tuple[Any, List[Any]]] = {
        "bb_version": (ctypes.c_char_p, []),
        "bb_new": (pointer, [ctypes.POINTER(Options)]),
        "bb_begin": (ctypes.c_int, [pointer, ctypes.c_char_p, size]),
        "bb_asked": (pointer, [pointer]),
        "bb_resume": (ctypes.c_int, [pointer, pointer]),
        "bb_take_posts": (pointer, [pointer, ctypes.POINTER(size)]),
        "bb_reply": (pointer, [pointer, ctypes.POINTER(size)]),
        "bb_state_of": (ctypes.c_int, [pointer]),
        "bb_status": (ctypes.c_int, [pointer]),
        "bb_set_timeout": (None, [pointer, ctypes.c_uint64]),
        "bb_end": (ctypes.c_int, [pointer]),
        "bb_free": (ctypes.c_int, [pointer]),
    }
    for name, (result, arguments) in types.items():
        getattr(library, name).restype, getattr(library, name).argtypes = result, arguments
    version = library.bb_version().decode()
    if version.split(" ")[1] != __version__:
        raise EngineLost(f"{path} is {version}, and this client {__version__}")
    return library


class InProcess:
    """An engine of the library, in the place of a `Conversation`. `answer` is given the kind of an ask, its number, whether
    an object is asked, its key, and where the values stand. `post` is given the number of a posted function, how many calls
    of it there are, where their values stand, one behind the other, and by when they are to be done."""

    pid = None

    def __init__(
        self, library: Any, profile: str, drivers: int, memory: int, answer: Callable[..., Answer], post: Callable[..., None]
    ) -> None:
        self._library, self._answer, self._post, self.busy = library, answer, post, False
        data = profile.encode()
        self._engine = library.bb_new(Options(data, len(data), drivers, 0, 0, memory, None, None))
        if not self._engine:
            raise EngineLost(f"no engine could be made: {os.strerror(ctypes.get_errno())}")
        self._seconds = 0.0  # that a command may take
        self._given = ctypes.create_string_buffer(ANSWER.size)
        self._ask: Any = None  # the bytes of asks, and of their values: all of them have one place
        self._values: Any = None

    def tell(self, text: str, timeout: float, hear: Callable[[str], None]) -> None:
        """Does a command, and has each line of its reply heard. Where the text is empty it is the engine's start."""
        if self.is_closed:
            raise EngineLost(GONE)
        if self.busy:
            raise RuntimeError(IN_CALLABLE)
        deadline, data = time.monotonic() + timeout, text.encode()
        if timeout != self._seconds:
            self._library.bb_set_timeout(self._engine, max(1, int(min(timeout, 1e9) * 1000)))
            self._seconds = timeout
        self.busy = True
        try:
            self._do(data, deadline)
            self._hear(hear, deadline)
            if self._library.bb_state_of(self._engine) != DONE:
                raise EngineLost(f"the engine ended with the status {self.close(timeout)}")
        except BaseException:
            self.close(timeout)
            raise
        finally:
            self.busy = False

    @property
    def is_closed(self) -> bool:
        """Whether the engine has ended."""
        return not self._engine

    def close(self, timeout: float) -> int:
        """Ends the engine. Gives the status that its process would have."""
        if not self._engine:
            return 0
        engine, self._engine = self._engine, None
        self._library.bb_end(engine)
        status = int(self._library.bb_status(engine))
        self._library.bb_free(engine)
        return status

    def __del__(self) -> None:
        if getattr(self, "_engine", None):
            self.close(0)

    def _do(self, data: bytes, deadline: float) -> None:
        library, engine, answer, given = self._library, self._engine, self._answer, self._given
        resume, now, read, write = library.bb_resume, time.monotonic, ASK.unpack_from, ANSWER.pack_into
        given_at = ctypes.addressof(given)
        state = library.bb_begin(engine, data, len(data)) if data else library.bb_state_of(engine)
        if state == ASKS and self._ask is None:
            self._find_asks()
        ask, values = self._ask, self._values
        while state == ASKS:
            kind, _, number, has_object, is_posted, key, _, _ = read(ask)
            if is_posted:
                self._take_posts(deadline)
                state = resume(engine, None)
                continue
            form, number = answer(KINDS[kind], number, has_object, key, values)
            if now() >= deadline:
                raise CommandTimeout(LATE)
            write(given, 0, form.kind, number if form is FAULT else 0, form.value, number & MASK_64)
            state = resume(engine, given_at)
        if state == THREAD:
            raise RuntimeError("an engine is for the thread that made it")

    def _take_posts(self, deadline: float) -> None:
        count = ctypes.c_size_t()
        at = self._library.bb_take_posts(self._engine, count)
        if not at:
            raise MemoryError
        for _, number, calls, _, values in POSTS.iter_unpack(ctypes.string_at(at, count.value * POSTS.size)):
            self._post(number, calls, values, deadline)

    def _find_asks(self) -> None:
        at = self._library.bb_asked(self._engine)
        self._ask = (ctypes.c_char * ASK.size).from_address(at)
        self._values = (ctypes.c_char * (MOST_VALUES * VALUE_BYTES)).from_address(ASK.unpack_from(self._ask)[-1])

    def _hear(self, hear: Callable[[str], None], deadline: float) -> None:
        size = ctypes.c_size_t()
        at = self._library.bb_reply(self._engine, size)
        now = time.monotonic
        for line in ctypes.string_at(at, size.value).decode().split("\n")[:-1]:
            hear(line)
            if now() >= deadline:
                raise CommandTimeout(LATE)
        _left(deadline)


MOST_VALUES, VALUE_BYTES = 32, 16  # of an ask, and of a bb_value
MASK_64 = 2**64 - 1


class Entry(NamedTuple):
    """A registration: its mask and line, what it declares, its type's word, and what is called for a kind of ask."""
    mask: int
    line: str
    declaration: str
    type: str
    asked: Dict[str, Asked]


class Profile:
    """What scripts may use. A registration has the `mask` that is set when it is made."""

    def __init__(self) -> None:
        self.mask = 1
        self.entries: List[Entry] = []
        self.drivers = 1
        self._ends: Dict[int, List[str]] = {}  # the lines that begin and end groups, by the number of the next entry

    def type(self, name: str) -> Type:
        """A type of host objects, which are any Python objects."""
        self.entries.append(Entry(self.mask, f"type {_checked(name)} {self.drivers}", name, "", {}))
        self.drivers += 1
        return Type(self, name, self.drivers - 1)

    def enum(self, name: str, **values: int) -> None:
        """An enumeration and its values, which callables see as ``int``: ``enum("Color", RED=1, BLUE=-2)``."""
        self.entries.append(Entry(self.mask, f"enum {_checked(name)}", name, "", {}))
        for value, number in values.items():
            self.value(name, value, number)

    def value(self, enum: str, name: str, number: int) -> None:
        """One value more of an enumeration. It has the enumeration's mask."""
        mask = next((it.mask for it in self.entries if it.line == f"enum {enum}"), self.mask)
        line = f"value {_checked(enum)} {_checked(name)} {index(number):d}"
        self.entries.append(Entry(mask, line, name, "", {}))

    def function(self, declaration: str, call: Asked) -> None:
        """A function without objects: ``function("int64 sum(int64, int64)", operator.add)``."""
        self.add("function 0", declaration, call=call)

    def posted(self, declaration: str, call: Asked) -> None:
        """A ``void`` function without objects that is posted: the script goes on at once, before `call` has run. What that
        raises is the reply's cause, and no fault of the script."""
        self.add("posted 0", declaration, call=call)

    def global_property(self, declaration: str, get: Asked, set: Optional[Asked] = None) -> None:
        """A global property. Without `set` it is to be declared ``const``."""
        self.add("global 0", declaration, read=get, **({"write": set} if set else {}))

    def add(self, words: str, declaration: str, **asked: Asked) -> None:
        """A line of the profile, in which the entry's number is the driver's own too."""
        line = f"{words} {len(self.entries)} {_checked(declaration)}"
        self.entries.append(Entry(self.mask, line, declaration, _types(declaration)[0], asked))

    @contextmanager
    def group(self, name: str) -> Iterator[Profile]:
        """What is registered within belongs to the group, and `Engine.remove_group` takes it away together. An exception ends
        the group too::

            with profile.group("weather"):
                profile.function("int wind()", wind)
        """
        self.begin_group(name)
        try:
            yield self
        finally:
            self.end_group()

    def begin_group(self, name: str) -> None:
        """Begins a group, where `with` does not serve: what is registered up to `end_group` belongs to it."""
        self._ends.setdefault(len(self.entries), []).append(f"group {_checked(name, GROUP)}")

    def end_group(self) -> None:
        """Ends the group."""
        self._ends.setdefault(len(self.entries), []).append("endgroup")

    def groups(self) -> Dict[str, range]:
        """The numbers of the entries of each group that was ended."""
        groups, name, first = {}, "", 0
        for number, lines in self._ends.items():
            for line in lines:
                if line == "endgroup":
                    groups[name] = range(first, number)
                name, first = line.partition(" ")[2], number
        return groups

    def lines(self, removed: Set[str]) -> Iterator[Tuple[str, str]]:
        """The lines of the profile, each with what it declares. Of the groups that were removed blanks are left."""
        is_removed = False
        for number in range(len(self.entries) + 1):
            for line in self._ends.get(number, ()):
                was_removed, name = is_removed, line.partition(" ")[2]
                is_removed = name in removed
                if not (is_removed or was_removed):
                    yield line, name
            entry = self.entries[number] if number < len(self.entries) else None
            if entry and is_removed:
                yield "blank", entry.declaration
            elif entry:
                yield f"mask {entry.mask:08x}", entry.declaration
                yield entry.line, entry.declaration


class Type(NamedTuple):
    """A type of host objects."""
    profile: Profile
    name: str
    driver: int

    def factory(self, declaration: str, make: Asked) -> None:
        """What makes a new object, or gives None: ``factory("Npc@ f(int)", Npc)``."""
        self.profile.add(f"factory {self.name}", declaration, make=make)

    def method(self, declaration: str, call: Asked) -> None:
        """A method. The callable is given the object first."""
        self.profile.add(f"method {self.name}", declaration, call=call)

    def property(self, declaration: str) -> None:
        """A property, which is the objects' attribute of that name."""
        name = declaration.split()[-1]
        asked: Dict[str, Asked] = {"read": attrgetter(name), "write": lambda it, value: setattr(it, name, value)}
        self.profile.add(f"property {self.name}", declaration, **asked)

    def function(self, declaration: str, call: Asked) -> None:
        """A function with objects of this type. One that it gives is one that scripts hold."""
        self.profile.add(f"function {self.driver}", declaration, call=call)

    def posted(self, declaration: str, call: Asked) -> None:
        """A ``void`` function with objects of this type that is posted, as `Profile.posted`."""
        self.profile.add(f"posted {self.driver}", declaration, call=call)


class Sections:
    """The texts of a module's sections: those that wait, and those of its last build. One that a line added is None."""

    def __init__(self) -> None:
        self.waiting: List[Optional[str]] = []
        self.built: List[Optional[str]] = []

    def follow(self, word: str, outcome: str) -> None:
        """Follows a command of that word. What has errors is not kept, since no fault comes to it."""
        if word == "section" and outcome == "ok":
            self.waiting.append(None)
        elif word == "build" and outcome.startswith(("ok", "refused InitFailed ")):
            self.built, self.waiting = self.waiting, []
        elif word == "build" and outcome in ("refused BuildErrors", "refused BuildMemory"):
            self.built, self.waiting = [], []
        elif word == "check" and outcome == "refused BuildErrors":
            self.waiting = []

    def lines(self, number: int) -> List[str]:
        """The lines of a section of the last build, and none of one whose text is unknown."""
        text = self.built[number] if number < len(self.built) else None
        return [] if text is None else text.split("\n")


class Engine(AbstractContextManager["Engine"]):
    """An engine with a profile. It is a process of `program`, the path of ``asremote``; or, where `library` is the path of
    a libbustlebrick.so that is there, it is in this process.

    `timeout` is the seconds that a command may take, with those of the callables. It doesn't end a callable. `memory` is
    the most bytes of memory that the engine may have. The limits on what there may be are those of `Limits`, where none
    are given; None is no limit.
    """

    def __init__(
        self,
        profile: Profile,
        program: str = "asremote",
        timeout: float = 10.0,
        events: Optional[int] = Limits().events,
        slots: Optional[int] = Limits().slots,
        objects: Optional[int] = Limits().objects,
        memory: Optional[int] = None,
        library: Optional[str] = None,
    ) -> None:
        self.profile, self.program, self.timeout, self.memory = profile, program, timeout, memory
        self.ticks: Optional[int] = None
        self._limits = _fit(Limits(events, slots, objects), 0)
        self._removed: Set[str] = set()  # names of groups
        self._library = _loaded(library) if library else None
        self._start()

    def _start(self) -> None:
        self.objects: Dict[int, Any] = {}  # what scripts hold, by key
        self.events: List[str] = []  # of the last command: what scripts asked, and which objects ended
        self._keys: Dict[int, Dict[int, None]] = {}  # of each object that scripts hold, by its id
        self._sections: Dict[str, Sections] = {}  # of each module, by its name
        self._made = 0
        self._starts = getattr(self, "_starts", 0) + 1  # numbers of prepared calls are those of one start
        self._cause: Optional[Exception] = None
        limits = [_limit(name, most) for name, most in self._limits._asdict().items()]
        lines = [*self.profile.lines(self._removed), *zip(limits, limits)]
        said: List[str] = []
        try:
            self._talk = self._talking("".join(f"{line}\n" for line, _ in lines), said)
        except EngineLost as lost:
            found = re.match(r"profile (\d+) (.*)", "".join(said))
            if found:
                raise Refused(f"{found[2]}: {lines[int(found[1]) - 1][1]}") from lost
            raise

    def _talking(self, profile: str, said: List[str]) -> Union[Conversation, InProcess]:
        """An engine with the text of a profile, and what it says at its start."""
        self._posted = dict(self._posted_heads())
        if self._library:
            layouts = {kind: [_layout(it, kind) for it in self.profile.entries] for kind in KINDS}
            self._readers = {kind: [(it.unpack_from, has_handles) for it, has_handles in layouts[kind]] for kind in KINDS}
            self._posted_layouts = layouts["call"]
            drivers, memory = self.profile.drivers, self.memory or 0
            talk = InProcess(self._library, profile, drivers, memory, self._answer_values, self._post_values)
            talk.tell("", self.timeout, said.append)
            return talk
        with tempfile.NamedTemporaryFile("w") as file:
            file.write(profile)
            file.flush()
            words = [self.program, "--profile", file.name, "--drivers", str(self.profile.drivers)]
            if self.memory is not None:
                words = ["/bin/sh", "-c", 'ulimit -v "$0" && exec "$@"', str(self.memory >> 10), *words]
            conversation = Conversation(words, self._answer_line, self._post_line)
            conversation.tell("", self.timeout, said.append)
            return conversation

    @property
    def pid(self) -> Optional[int]:
        """The number of the engine's process, and None where it is in this one."""
        return self._talk.pid

    def restart(self) -> None:
        """Ends the engine, and starts another one with the same profile, budget and limits.

        The modules are gone: they have to be made, built and bound anew. All objects are given up. Groups that were
        removed stay so.
        """
        self.close()
        self._start()
        if self.ticks is not None:
            self.budget(self.ticks)

    def close(self, *_: object) -> None:
        """Ends the engine. All objects are given up."""
        if self._talk.busy:
            raise RuntimeError(IN_CALLABLE)
        self._talk.close(self.timeout)
        self._give_up()

    __exit__ = close

    def budget(self, ticks: int) -> None:
        """Sets the ticks that each later build and call may take."""
        self.done(f"budget {_checked(str(ticks), NUMBER)}")
        self.ticks = ticks

    def limits(self, events: Any = UNCHANGED, slots: Any = UNCHANGED, objects: Any = UNCHANGED) -> Limits:
        """Sets those limits that are named, each a number or None for no limit, and gives all of them.

        One below what scripts hold ends nothing, and lets nothing grow. What no engine should have is a ValueError.
        """
        given = {"events": events, "slots": slots, "objects": objects}
        given = {name: most for name, most in given.items() if most is not UNCHANGED}
        limits = _fit(self._limits._replace(**given), len(self.objects))
        for name, most in given.items():
            self.done(_limit(name, most))
        self._limits = limits
        return limits

    def used(self) -> Used:
        """What scripts hold, and the ticks that the last build or call took."""
        told = dict(line.split(" ", 1) for line in self.told("used"))
        return Used(*(int(told[name]) for name in Used._fields))

    def trace(self) -> List[Frame]:
        """What was running when the last build or call ended with a fault, innermost first. None after any other end."""
        lines = self.told("trace")

        @lru_cache(None)  # so that each section is split once
        def lines_of(module: str, section: int) -> List[str]:
            return self._sections[module].lines(section) if module in self._sections else []

        return [it._replace(source=_source(it, lines_of)) for it in map(_frame, lines)]

    def remove_group(self, name: str) -> None:
        """Takes the entries of a group of the profile away: later builds don't see them. Raises `Refused`: as ``InUse`` while
        a built module, or an entry outside the group, uses one of them, and as ``NoGroup`` where there is none."""
        self.done(f"remove {_checked(name, GROUP)}")

    def told(self, text: str) -> List[str]:
        """The lines that answer a question of one line, as ``used``, without ``ok``. It is no command: the last one stays
        that before it. Raises `Refused` where there is no answer."""
        lines: List[str] = []
        self._tell(f"{_checked(text)}\n", lines.append)
        self._note(text, lines[-1])
        if lines[-1] != "ok":
            raise Refused(lines[-1].partition(" ")[2])
        return lines[:-1]

    def module(self, name: str, mask: int) -> Module:
        """Makes a module, without scripts."""
        self.done(f"module {_checked(name, FIELD)} {_checked(f'{mask:08x}', MASK)}")
        return Module(self, name)

    def done(self, text: str) -> str:
        """Does a command, and gives the value after ``ok``. Raises what it ended with if that is another word."""
        reply = self.command(text)
        word, _, rest = reply.outcome.partition(" ")
        if word == "fault":
            trace, held = self.trace(), self._held(reply) if rest == "Memory" else None
            raise ScriptFault(rest, held, trace) from reply.cause
        if word != "ok":
            raise Refused(rest)
        return rest

    def command(self, text: str) -> Reply:
        """Does a command: a line of a session, with those of its section. Another text is a ValueError."""
        text, self._cause, made = _command(text), None, self._made
        outcome = ""  # a comment has none
        self.events, errors, denials = [], [], []
        add_event = self.events.append

        def hear(line: str) -> None:
            nonlocal outcome
            outcome = line
            if line.startswith("host "):  # as most lines do
                add_event(line)
                return
            word, _, rest = line.partition(" ")
            if word == "end":
                add_event(line)
                self._ended(int(rest.partition("#")[2]))
            elif word == "error":
                kind, place, name = rest.split(" ", 2)
                errors.append(BuildError(kind, _place(place), name))
            elif word == "denied":
                at, entry, _, mask = rest.split(" ")
                denials.append(Denial(_place(at), self.profile.entries[int(entry)], int(mask, 16)))

        self._tell(text, hear)
        self._note(text, outcome)
        if self._made > made:
            self._end_unlisted(made + 1)
        return Reply(outcome, self.events, errors, denials, self._cause)

    def _tell(self, text: str, hear: Callable[[str], None]) -> None:
        try:
            self._talk.tell(text, self.timeout, hear)
        finally:
            if self._talk.is_closed:
                self._give_up()

    def _note(self, text: str, outcome: str) -> None:
        """Notes what a command made of the sections of its module, and which group is removed."""
        found = NOTED.match(text)
        if not found:
            return
        word, name = found.groups()
        if word == "remove" and outcome == "ok":
            self._removed.add(name)
        elif word == "discard" and outcome == "ok":
            self._sections.pop(name, None)
        elif word == "section" and outcome == "ok":
            self._sections.setdefault(name, Sections()).follow(word, outcome)
        elif name in self._sections:
            self._sections[name].follow(word, outcome)

    def _give_up(self) -> None:
        """Gives up all objects and texts, of an engine that has ended."""
        self.objects, self._keys, self._sections = {}, {}, {}

    def _held(self, reply: Reply) -> Held:
        used = self.used()
        return Held(len(reply.events) + used.objects, used, self._limits)

    def _posted_heads(self) -> Iterator[Tuple[str, Callable[[str], object]]]:
        """Of each function that is posted, how its lines begin, and what is given the rest, behind the parenthesis."""
        for number, entry in enumerate(self.profile.entries):
            if entry.line.startswith("posted "):
                driver = entry.line.split(" ")[1]
                reads = [self._reader_of(it) for it in _types(entry.declaration)[1:] if it not in ("", "void")]
                yield f"post {driver} call {number} - ", _poster(entry.asked["call"], reads)

    def _reader_of(self, word: str) -> Callable[[str], Any]:
        """What reads the text of a value of the type of that word."""
        if "@" in word:
            return lambda text: None if text == "null" else self.objects[int(text[1:])]
        if word == "bool":
            return lambda text: text == "true"
        return (lambda text: int(text[:-1])) if word in UNSIGNED else int

    def _post_line(self, line: str) -> None:
        """Calls what a line ``post ..`` is for."""
        head, _, values = line.partition("(")
        try:
            self._posted[head](values)
        except Exception as error:
            self._cause = error

    def _post_values(self, number: int, calls: int, at: int, deadline: float) -> None:
        """Calls what is posted, so many times."""
        call, now = self.profile.entries[number].asked["call"], time.monotonic
        for given in self._posted_values(number, calls, at):
            try:
                call(*given)
            except Exception as error:
                self._cause = error
            if now() >= deadline:
                raise CommandTimeout(LATE)

    def _posted_values(self, number: int, calls: int, at: int) -> Iterable[Sequence[Any]]:
        """The values of each call of a posted function, as they stand in a library."""
        values, has_handles = self._posted_layouts[number]
        if not values.size:
            return repeat((), calls)
        given = values.iter_unpack(ctypes.string_at(at, calls * values.size))
        return map(tuple, map(self._with_objects, given)) if has_handles else given

    def _answer_line(self, line: str) -> str:
        _, _, kind, number, key, values = line.split(" ")
        texts = [it for it in (key, *values[1:-1].split(",")) if it not in ("-", "")]
        given = [self.objects[int(it[1:])] if it[0] == "#" else _value(it) for it in texts]
        form, rest = self._answer(kind, int(number), given)
        return form.text.format(rest)

    def _answer_values(self, kind: str, number: int, has_object: bool, key: int, values: Any) -> Answer:
        read, has_handles = self._readers[kind][number]
        given = read(values)
        if has_handles:
            given = tuple(self._with_objects(given))
        return self._answer(kind, number, (self.objects[key], *given) if has_object else given)

    def _with_objects(self, given: Sequence[Any]) -> Iterator[Any]:
        """The values, of which a handle is an empty ``bytes``, its kind and its key."""
        values = iter(given)
        for it in values:
            if isinstance(it, bytes):
                kind, key = next(values), next(values)
                yield self.objects[key] if kind == KEY.value else None
            else:
                yield it

    def _answer(self, kind: str, number: int, given: Sequence[Any]) -> Answer:
        entry = self.profile.entries[number]
        try:
            result = entry.asked[kind](*given)
            if kind == "make":
                return self._made_key(result)
            if kind == "write" or entry.type == "void":
                return VOID, 0
            if "@" in entry.type:
                return (NULL, 0) if result is None else (KEY, self._key(result))
            return _formed(result, entry.type)
        except MemoryError as error:
            self._cause = error
            return MEMORY, 0
        except Exception as error:
            self._cause = error
            return FAULT, error.number if isinstance(error, Fault) else UNEXPECTED

    def _key(self, it: Any) -> int:
        keys = self._keys.get(id(it))
        if not keys:
            raise ValueError("a function gives objects that scripts hold")
        return next(iter(keys))

    def _made_key(self, it: Any) -> Answer:
        if it is None:
            return NOTHING, 0
        self._made += 1  # keys are not used again
        self.objects[self._made] = it
        self._keys.setdefault(id(it), {})[self._made] = None
        return MADE, self._made

    def _end_unlisted(self, first: int) -> None:
        """Gives up what was made from that key on and is in no event: the engine had no memory to take it."""
        listed = {line.rpartition(MADE_KEY)[2] for line in self.events if MADE_KEY in line}
        for key in range(first, self._made + 1):
            if str(key) not in listed:
                self._ended(key)

    def _ended(self, key: int) -> None:
        it = id(self.objects.pop(key))
        del self._keys[it][key]
        if not self._keys[it]:
            del self._keys[it]


class Module(NamedTuple):
    """A module of an engine. All commands but a build raise `Refused` where they are not done."""
    engine: Engine
    name: str

    def set_mask(self, mask: int) -> None:
        """Gives it another mask, which acts from the next build on."""
        self.engine.done(f"mask {self.name} {_checked(f'{mask:08x}', MASK)}")

    def section(self, text: str) -> None:
        """Adds a section of script for the next build. The text is kept for the traces of faults."""
        whole = text if text.endswith("\n") else f"{text}\n"
        self.engine.done(f"section {self.name} {whole.count(chr(10))}\n{whole}")
        self.engine._sections[self.name].waiting[-1] = text

    def build(self) -> Reply:
        """Builds the sections that wait. The reply says whether that was done, and the errors and denials if not."""
        return self.engine.command(f"build {self.name}")

    def check(self) -> Reply:
        """Says what a build of the sections that wait would say, and builds nothing. Sections with errors wait no more, as
        after a build; others wait still, and a build can follow."""
        return self.engine.command(f"check {self.name}")

    def functions(self) -> List[str]:
        """The declarations of the functions that it was built with, in the order of its text."""
        return self._listed("function ")

    def globals(self) -> List[str]:
        """The declarations of its global variables."""
        return self._listed("global ")

    def imports(self) -> List[str]:
        """The declarations of its imports: the place of one is its number."""
        return [line.partition(" ")[2] for line in self._listed("import ")]

    def bind(self, imported: Union[int, str], exporter: Module, declaration: Optional[str] = None) -> None:
        """Binds an import, of this number or this declaration, to a function of another module: to that of the same
        declaration, if no other is named."""
        if isinstance(imported, str):
            wanted = _plain(imported)
            number = next((at for at, it in enumerate(self.imports()) if _plain(it) == wanted), None)
            if number is None:
                raise Refused("NoImport")
            declaration = imported if declaration is None else declaration
        else:
            number = imported
            if declaration is None:
                raise ValueError("an import that is named by its number wants the declaration of a function")
        self.engine.done(f"bind {self.name} {_checked(str(number), NUMBER)} {exporter.name} {_checked(declaration)}")

    def unbind(self, number: int) -> None:
        """Unbinds the import of that number."""
        self.engine.done(f"unbind {self.name} {_checked(str(number), NUMBER)}")

    def call(self, declaration: str, *values: int) -> Any:
        """Calls a function of the script, and gives its result: an int, a bool, or None of a void one."""
        given = map(_written, values, _types(declaration)[1:] + ("",) * len(values))
        return _value(self.engine.done(f"call {self.name} ({','.join(given)}) {_checked(declaration)}"))

    def prepare(self, declaration: str) -> Prepared:
        """Looks a function up, to be called again and again without its text."""
        lines = self.engine.told(f"prepare {self.name} {_checked(declaration)}")
        number = int(lines[0].partition(" ")[2])
        return Prepared(self.engine, self.engine._starts, number, _types(declaration)[1:])

    def _listed(self, word: str) -> List[str]:
        lines = self.engine.told(f"list {self.name}")
        return [line[len(word) :] for line in lines if line.startswith(word)]

    def discard(self) -> None:
        """Ends the module."""
        self.engine.done(f"discard {self.name}")


class Prepared(NamedTuple):
    """A function of a module's script that was looked up (`Module.prepare`). It is called with its values. `Refused` as
    ``NoFunction`` once its module was built again or discarded, or the engine restarted: then it is to be prepared anew."""
    engine: Engine
    start: int
    number: int
    types: Tuple[str, ...]

    def __call__(self, *values: int) -> Any:
        """Calls it, as `Module.call` does."""
        if self.start != self.engine._starts:
            raise Refused("NoFunction")
        given = map(_written, values, self.types + ("",) * len(values))
        return _value(self.engine.done(f"run {self.number} ({','.join(given)})"))


def _fit(limits: Limits, alive: int) -> Limits:
    """The limits, where they can be said and leave room for a host call beside the ends of all objects."""
    for name, most in limits._asdict().items():
        if most is not None and not 0 <= index(most) <= MOST:
            raise ValueError(f"the limit on {name}, {most}, is not from 0 to {MOST}")
    events, _, objects = limits
    ends = None if objects is None else max(objects, alive)
    if events is not None and (ends is None or events <= ends):
        refused = f"a limit of {events} events is taken up by the ends of {'all' if ends is None else ends} objects"
        raise ValueError(f"{refused}: it has to be above the limit on objects, and above how many are alive")
    return limits


def _limit(name: str, most: Optional[int]) -> str:
    return f"limit {name} {MOST if most is None else index(most):d}"


def _checked(text: str, pattern: str = LINE) -> str:
    if not re.fullmatch(pattern, text):
        raise ValueError(f"{text!r} can't be said to an engine")
    return text


def _command(text: str) -> str:
    """The text with its last LF, if it is one command: what more it said would be taken for the next ones."""
    head, _, _ = text.partition("\n")
    head = head[:-1] if head.endswith("\r") else head
    found = HEAD.fullmatch(head)
    lines = 1 + (int(found[1]) if found else 0)
    if not found and not head.startswith("#") and LIKE_HEAD.match(head):
        raise ValueError(f"{head[:80]!r} is no head of a section")
    whole = text if text.endswith("\n") and text.count("\n") == lines else f"{text}\n"
    if whole.count("\n") != lines or len(whole.encode()) > MOST_COMMAND:
        raise ValueError(f"{text[:80]!r} is not one command of {MOST_COMMAND} bytes at most")
    return whole


@lru_cache(1024)
def _place(text: str) -> Place:
    return Place(*map(int, text.split(":")))


def _frame(line: str) -> Frame:
    """What a line ``at MODULE NAME PLACE PLACE`` says. The name of a global's initializer has a space in it."""
    _, module, rest = line.split(" ", 2)
    name, declared, place = rest.rsplit(" ", 2)
    return Frame(module, name, _place(declared), None if place == "-" else _place(place))


def _source(frame: Frame, lines_of: Callable[[str, int], List[str]]) -> Optional[str]:
    """The line of a frame's place. Columns count bytes."""
    section, line, column = frame.place or frame.declared
    lines = lines_of(frame.module, section)
    if not 1 <= line <= len(lines):
        return None
    text = lines[line - 1]
    text = text[:-1] if text.endswith("\r") else text
    before = len(text.encode()[: column - 1].decode(errors="ignore"))
    first = min(before, max(len(text) - MOST_SOURCE, 0))
    return text[first : first + MOST_SOURCE]


def _plain(declaration: str) -> List[str]:
    """The words and signs of a declaration without names of its parameters."""
    tokens = re.findall(r"\w+|[^\w\s]", re.sub(r"/\*.*?\*/|//.*", " ", declaration))
    plain: List[str] = []
    types = 0  # that the parameter has so far: a second word is its name
    for it in tokens:
        types = 0 if it in "(," else types + (it.isidentifier() and it not in ("const", "in", "out", "inout"))
        if "(" not in plain or types < 2 or not it.isidentifier():
            plain.append(it)
    return plain


@lru_cache(1024)
def _types(declaration: str) -> Tuple[str, ...]:
    """The first word of the type that is declared, and of those of its parameters."""
    tokens = re.sub(r"/\*.*?\*/|//.*", " ", declaration)
    parts = re.split(r"[(,]", tokens.split(")")[0])
    return tuple((re.sub(r"\bconst\b|\s+(?=@)", "", it).split() or [""])[0] for it in parts)


# The least and the most number of each type of integers. What is none of them is an enumeration, an `int`.
INT_32, UINT_32, INT_64, UINT_64 = (-(2**31), 2**31 - 1), (0, 2**32 - 1), (-(2**63), 2**63 - 1), (0, 2**64 - 1)
RANGES = {"int8": (-128, 127), "int16": (-(2**15), 2**15 - 1), "int64": INT_64}
UNSIGNED = {"uint8": (0, 255), "uint16": (0, 2**16 - 1), "uint": UINT_32, "uint32": UINT_32, "uint64": UINT_64}
RANGES.update(UNSIGNED)


def _formed(value: Any, word: str) -> Answer:
    """The answer with a value of the type of that word."""
    if word == "bool":
        return (TRUE, 1) if value else (FALSE, 0)
    number, (least, most) = int(index(value)), RANGES.get(word, INT_32)
    if not least <= number <= most:
        raise OverflowError(f"{number} is no {word}")
    return INT if least else UINT, number


def _layout(entry: Entry, kind: str) -> Tuple[struct.Struct, bool]:
    """How the values of an ask of an entry stand in a library, and whether there are handles."""
    words = _types(entry.declaration)
    words = () if kind == "read" else words[:1] if kind == "write" else words[1:]
    words = tuple(it for it in words if it not in ("", "void"))
    forms = ["0sI4xQ" if "@" in it else "8x?7x" if it == "bool" else "8xQ" if it in UNSIGNED else "8xq" for it in words]
    return struct.Struct("=" + "".join(forms)), any("@" in it for it in words)


def _poster(call: Asked, reads: Sequence[Callable[[str], Any]]) -> Callable[[str], object]:
    """What is given the values of a post, with the parenthesis behind them, and calls a callable."""
    if not reads:
        return lambda _: call()
    if len(reads) == 1:
        read = reads[0]
        return lambda value: call(read(value[:-1]))
    return lambda values: call(*[read(it) for read, it in zip(reads, values[:-1].split(","))])


def _written(value: Any, word: str) -> str:
    """A value that a call is given. One of its sign in 64 bits that the type lacks is the engine's to refuse."""
    form, number = _formed(value, word if word == "bool" else "uint64" if word in UNSIGNED else "int64")
    return form.text.format(number)


def _value(text: str) -> Any:
    words = {"": None, "null": None, "true": True, "false": False}
    return words[text] if text in words else int(text.rstrip("u"))
