"""What stands behind an open page: an engine, what was told to it and what it printed, and the modules that it has."""

import re
import threading
import time
from typing import Any, Dict, List, NamedTuple, Optional, Sequence, Tuple

from bustlebrick import EngineLost
from playing import commands, profiles
from playing.answering import ANSWERING, DRIVERS_OF_ASRUN, LIKE_ASRUN, PLAIN
from playing.declared import Declared, Imported, exporters, listed
from playing.process import Process, with_limits
from playing.sentences import refusal_sentence
from playing.traces import frames, shown

BUDGET = 1_000_000  # ticks of a command, as asrun begins
MOST_SESSION = 1 << 24  # bytes, of which asrun takes no more
MOST_KEPT = 1_000_000  # lines of replies
SECONDS_TO_REDO = 30.0
MOST_DRIVERS = 64
MOST_WAITING = 64  # sections of a module
MOST_TRACES = 30  # that are kept
NO_SCRIPT = ")"  # a section with an error
HOST = re.compile(r"host ([^ ]+) (\d+) (\d+) ([^ ]+) (\([^ ]*\)) (.+)")
END = re.compile(r"end (\d+) #(\d+)")


class CantOpen(Exception):
    """A profile that no engine takes. The text says why; the line counts from 1, and is 0 where there is none."""

    def __init__(self, message: str, line: int = 0) -> None:
        super().__init__(message)
        self.line = line


class NotTaken(Exception):
    """What an engine was not told, or can't do. The text says why."""


class Told(NamedTuple):
    """A command that was done, the lines of its reply, and the ticks that it took."""
    text: str
    lines: List[str]
    ticks: int


class Module:
    """A module: its mask, its sections, and what its last build made of them."""

    def __init__(self, mask: int) -> None:
        self.mask = mask
        self.waiting: List[str] = []
        self.tried: List[str] = []  # the sections of the last build
        self.tried_mask = mask
        self.said: Sequence[str] = ()  # by that build
        self.built_mask: Optional[int] = None  # where it has a program
        self.functions: List[Declared] = []
        self.imports: List[Imported] = []
        self.bound: Dict[int, Tuple[str, str]] = {}

    def build(self, lines: Sequence[str], has: Sequence[str]) -> None:
        """A build has had this reply, and left a program that has what these lines list."""
        self.tried, self.waiting, self.tried_mask, self.said = self.waiting, [], self.mask, lines
        done = lines[-1] == "ok"
        self.built_mask = self.mask if done else None
        self.functions = [listed(it.partition(" ")[2]) for it in has if it.startswith("function ")]
        taken = [it.split(" ", 2)[2] for it in has if it.startswith("import ")]
        named = exporters(self.tried)
        self.imports = list(map(Imported, taken, named if len(named) == len(taken) else [""] * len(taken)))

    def shown(self, name: str) -> Dict[str, Any]:
        """What a page shows of it, but for the texts of its sections."""
        taken = [{**it._asdict(), "bound": self.bound.get(number)} for number, it in enumerate(self.imports)]
        declared = [{**it._asdict(), "isCallable": it.is_callable} for it in self.functions]
        return {"name": name, "mask": self.mask, "builtMask": self.built_mask, "imports": taken, "functions": declared}


class Thing(NamedTuple):
    """A host's object that is alive: the type, the module that made it, and how many host calls it had."""
    type: str
    maker: str
    calls: int


class Page:
    """An engine with its modules. A command that ends the engine leaves it as it was before that command."""

    def __init__(self, program: str, profile: str, answers: str, timeout: float) -> None:
        self.program, self.timeout, self.profile = program, timeout, with_limits(profile)
        self.lock = threading.Lock()
        self.is_closed = False
        self.heard = time.monotonic()
        self.answers = answers or LIKE_ASRUN
        self.log: List[Told] = []
        self.traces: Dict[int, List[Dict[str, object]]] = {}  # of the last commands with faults, by their places in the log
        self.modules: Dict[str, Module] = {}
        self.objects: Dict[Tuple[int, int], Thing] = {}
        self.budget = BUDGET
        self.removed: List[str] = []  # groups
        self._bytes = self._lines = 0
        self._processes: List[Process] = []
        if self.answers not in ANSWERING:
            raise CantOpen(f"host calls are answered as {' or '.join(ANSWERING)}, and not as {self.answers}")
        self.read = self._read()
        if not answers and self._is_beyond_asrun():
            self.answers = PLAIN
        self._start()
        self.masks = profiles.masks_of(self.read.profile)
        types = [it for it in self.read.profile.entries if it.line.startswith("type ")]
        self.types = {int(it.line.split(" ")[2]): it.declaration for it in types}

    def _is_beyond_asrun(self) -> bool:
        drivers = re.findall(r"^(?:type [^ ]+|function|posted|global) (\d+)", self.profile, re.MULTILINE)
        return any(int(it) >= DRIVERS_OF_ASRUN for it in drivers)

    def _read(self) -> profiles.Read:
        try:
            return profiles.read_profile(self.profile, lambda kind, registered: print)
        except profiles.BadProfile as bad:
            raise CantOpen(str(bad), bad.line) from bad

    # ---- the engine

    def _start(self) -> None:
        try:
            self._process = self.process()
        except EngineLost as lost:
            raise refused_start(list(lost.said)) from lost

    def process(self) -> Process:
        """Another engine with the same profile. What answers its host calls begins anew."""
        answering = ANSWERING[self.answers](self.profile)
        drivers = DRIVERS_OF_ASRUN if self.answers == LIKE_ASRUN else MOST_DRIVERS
        process = Process(self.program, answering.profile, drivers, answering, self.timeout)
        self._processes.append(process)
        if self.is_closed:
            self.close()
        return process

    def tell(self, text: str) -> List[str]:
        """Does a command, and gives the lines of its reply."""
        if self.is_closed:
            raise NotTaken("this page's engine has been ended")
        if self._bytes + len(text.encode()) > MOST_SESSION:
            raise NotTaken("the session has as many bytes as asrun takes: begin anew")
        if self._lines > MOST_KEPT:
            raise NotTaken(f"the session has more than {MOST_KEPT} lines of replies: begin anew")
        try:
            lines = self._process.command(text).lines
            ticks, trace, has = self._asked(text, lines[-1] if lines else "")
        except EngineLost:
            self._revive()
            raise
        if lines[-1:] == ["refused BadLine"]:
            raise NotTaken(f"no engine takes this line: {text[:80]}")
        self.log.append(Told(text, lines, ticks))
        self._bytes += len(text.encode()) + 1
        self._lines += len(lines)
        self._heed(text, lines, has)
        if trace:
            self._keep(shown(frames(trace), lambda name: self.modules[name].tried if name in self.modules else []))
        return lines

    def _asked(self, text: str, outcome: str) -> Tuple[int, List[str], List[str]]:
        """The ticks of the last command, the trace of its fault, and what the module has that it built."""
        word, fields = commands.fields_of(text)
        if word not in ("build", "call"):
            return 0, [], []
        is_fault = outcome.startswith(("fault ", "refused InitFailed"))
        ticks = int(dict(it.split(" ") for it in self._process.told("used"))["ticks"])
        trace = self._process.told("trace") if is_fault else []
        return ticks, trace, self._process.told(f"list {fields[0]}") if word == "build" and outcome == "ok" else []

    def _keep(self, trace: List[Dict[str, object]]) -> None:
        self.traces[len(self.log) - 1] = trace
        if len(self.traces) > MOST_TRACES:
            del self.traces[min(self.traces)]

    def check(self, name: str, texts: Sequence[str]) -> List[str]:
        """What a build of these sections would say. None of them wait afterwards."""
        if name not in self.modules:
            raise NotTaken("there is no module of this name")
        if max(len(texts), len(self.modules[name].waiting)) >= MOST_WAITING:
            raise NotTaken(f"a module with {MOST_WAITING} sections can be built, and not be checked")
        try:
            if self.modules[name].waiting:
                self._drop_waiting(name)
            lines = self._checked([*(commands.section(name, it) for it in texts), f"check {name}"])
            if lines[-1] != "refused BuildErrors":
                self._drop_waiting(name)
        except EngineLost:
            self._revive()
            raise
        return lines

    def _checked(self, told: Sequence[str]) -> List[str]:
        """What the last of some commands says, or the first that is refused."""
        lines: List[str] = []
        for text in told:
            lines = self._process.command(text).lines
            if lines[-1] != "ok":
                break
        return lines

    def _drop_waiting(self, name: str) -> None:
        """Has no section of a module wait: they go together with one that has an error."""
        self._process.command(commands.section(name, NO_SCRIPT))
        if self._process.command(f"check {name}").outcome != "refused BuildErrors":
            raise EngineLost("the engine did not let go of what was checked")

    def _revive(self) -> None:
        """Has another engine do again what was done."""
        if self.is_closed:
            return
        self._process.kill()
        self._processes.remove(self._process)
        until = time.monotonic() + SECONDS_TO_REDO
        try:
            self._start()
            for told in self.log:
                if time.monotonic() > until:
                    raise EngineLost("it takes too long to do all again")
                self._process.command(told.text)
        except (EngineLost, CantOpen) as lost:
            self.close()
            raise NotTaken(f"the engine ended, and could not be begun anew: {lost}") from lost

    def used(self) -> Dict[str, int]:
        """How many slots and objects scripts hold."""
        told = dict(it.split(" ") for it in self._process.told("used"))
        return {name: int(told[name]) for name in ("slots", "objects")}

    def close(self) -> None:
        """Ends its engines, also while other threads wait for replies."""
        self.is_closed = True
        for process in list(self._processes):
            process.kill()

    # ---- what replies say of modules and objects

    def _heed(self, text: str, lines: Sequence[str], has: Sequence[str]) -> None:
        word, fields = commands.fields_of(text)
        done = lines[-1].partition(" ")[0] == "ok"
        if word == "budget":
            self.budget = int(fields[0])
        elif word == "build":
            self._heed_build(fields[0], lines, has)
        elif word == "module" and done:
            self.modules[fields[0]] = Module(int(fields[1], 16))
        elif word == "remove" and done:
            self._forget_group(fields[0])
        elif fields[0] in self.modules and done:
            self._heed_done(word, fields, text)
        for line in lines:
            self._heed_event(line)

    def _forget_group(self, name: str) -> None:
        profiles.blank_out(self.read.profile, name)
        self.masks = profiles.masks_of(self.read.profile)
        self.removed.append(name)

    def groups(self) -> List[str]:
        """The groups that can be removed, in their order."""
        return [it for it in self.read.profile.groups() if it not in self.removed]

    def blanked(self) -> List[int]:
        """The numbers of the entries that were removed."""
        groups = self.read.profile.groups()
        return [number for name in self.removed for number in groups.get(name, ())]

    def _heed_build(self, name: str, lines: Sequence[str], has: Sequence[str]) -> None:
        module = self.modules.get(name)
        if not module or lines[-1] in ("refused NoModule", "refused BadBudget", "refused Memory"):
            return
        self._forget_bindings(name)
        module.build(lines, has)

    def _heed_done(self, word: str, fields: Tuple[str, ...], text: str) -> None:
        module = self.modules[fields[0]]
        if word == "mask":
            module.mask = int(fields[1], 16)
        elif word == "section":
            module.waiting.append(commands.text_of(text))
        elif word == "bind":
            module.bound[int(fields[1])] = (fields[2], fields[3])
        elif word == "unbind":
            module.bound.pop(int(fields[1]), None)
        elif word == "discard":
            self._forget_bindings(fields[0])
            del self.modules[fields[0]]

    def _forget_bindings(self, name: str) -> None:
        self.modules[name].bound.clear()
        for module in self.modules.values():
            module.bound = {number: to for number, to in module.bound.items() if to[0] != name}

    def _heed_event(self, line: str) -> None:
        found = HOST.fullmatch(line)
        if found:
            driver, made = int(found[3]), re.fullmatch(r"made #(\d+)", found[6])
            if made:
                self.objects[driver, int(made[1])] = Thing(self.types.get(driver, ""), found[1], 0)
            elif found[4] != "-" and (driver, int(found[4][1:])) in self.objects:
                thing = self.objects[driver, int(found[4][1:])]
                self.objects[driver, int(found[4][1:])] = thing._replace(calls=thing.calls + 1)
            return
        ended = END.fullmatch(line)
        if ended:
            self.objects.pop((int(ended[1]), int(ended[2])), None)


def refused_start(said: List[str]) -> CantOpen:
    """Why an engine did not start, from what it said."""
    found = re.match(r"profile (\d+) (\w+)", "".join(said))
    if found:
        return CantOpen(f"{refusal_sentence(found[2])} [{found[2]}]", int(found[1]))
    if said == ["engine NoDriver"]:
        return CantOpen(f"asrun has the drivers 0 to {DRIVERS_OF_ASRUN - 1} only: choose other answers, or other drivers")
    return CantOpen(f"the engine did not start{': ' + said[0] if said else ''}")
