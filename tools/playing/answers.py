"""What answers scripts: a Python file, and 0, false, null or a new object where it has nothing."""

import os
import traceback
from typing import Any, Callable, Dict, List, NamedTuple, Optional, Tuple

from bustlebrick import Fault
from playing.profiles import Registered
from playing.sources import printable

Tell = Callable[..., None]


class BadHost(Exception):
    """A host file that can't be run. The text says why."""


class Thing:
    """An object of a type for which the host file has no class."""


class Answered(NamedTuple):
    """How a host call was answered: what it gave, or what it raised."""
    value: Any
    error: Optional[BaseException] = None

    def again(self) -> Any:
        """Answers the same."""
        if self.error is not None:
            raise self.error if isinstance(self.error, Exception) else Fault(1)
        return self.value


def host_file(path: str) -> Dict[str, Any]:
    """The names that a Python file defines."""
    names: Dict[str, Any] = {"__name__": "host", "__file__": path}
    with open(path, "rb") as file:
        data = file.read()
    try:
        exec(compile(data, path, "exec"), names)
        return names
    except (Exception, SystemExit) as error:
        raise BadHost(raised(error, path)) from error


def raised(error: BaseException, path: str) -> str:
    """What was raised, with its place in the host file if it has one there."""
    if isinstance(error, SyntaxError) and error.filename == path:
        return f"{path}:{error.lineno}: {type(error).__name__}: {error.msg}"
    said = printable("".join(traceback.format_exception_only(type(error), error)).strip().replace("\n", " "))
    at = [it.lineno for it in traceback.extract_tb(error.__traceback__) if os.path.abspath(it.filename) == os.path.abspath(path)]
    return f"{path}:{at[-1]}: {said}" if path and at else said


class Host:
    """Answers host calls, tells each as it happens, and keeps how it was answered."""

    def __init__(self, names: Dict[str, Any], path: str, tell: Tell) -> None:
        self.names, self.path, self.tell = names, path, tell
        self.restart()

    def restart(self) -> None:
        """The engine begins anew."""
        self.begin()
        self._labels: Dict[int, str] = {}
        self._count = 0

    def answering(self, kind: str, registered: Registered) -> Callable[..., Any]:
        """The callable for a kind of asking."""
        return lambda *values: self._answer(kind, registered, values)

    def begin(self) -> None:
        """A command begins. `made` are labels of the objects that it makes."""
        self.log: List[Answered] = []
        self.made: List[str] = []

    def raised(self) -> Optional[str]:
        """What ended the last command, if the host did."""
        error = self.log[-1].error if self.log else None
        return raised(error, self.path) if error is not None else None

    def label(self, value: Any) -> str:
        """A value as people are shown it."""
        if value is None or isinstance(value, bool):
            return {None: "null", True: "true", False: "false"}[value]
        return str(value) if isinstance(value, int) else self._labels.get(id(value)) or printable(repr(value))[:60]

    def _answer(self, kind: str, registered: Registered, values: Tuple[Any, ...]) -> Any:
        said = self._said(kind, registered, values)
        try:
            found, value = self._found(kind, registered, values)
        except (Exception, SystemExit) as error:
            self.log.append(Answered(None, error))
            self.tell("host", call=said, raised=_fault(error), default=False)
            return self.log[-1].again()
        self.log.append(Answered(value))
        if kind == "make" and value is not None:
            self._name(registered.owner, value)
        self._tell(kind, registered, said, value, not found)
        return value

    def _tell(self, kind: str, registered: Registered, said: str, value: Any, default: bool) -> None:
        gives = kind != "write" and registered.result != "void"
        self.tell("host", call=said, **({"value": self.label(value)} if gives else {}), default=default and bool(self.path))

    def _said(self, kind: str, registered: Registered, values: Tuple[Any, ...]) -> str:
        """A host call as a script would write it."""
        given = list(map(self.label, values))
        of = f"{given.pop(0)}." if registered.word in ("method", "property") else ""
        if kind == "write":
            return f"{of}{registered.name} = {given[0]}"
        name = registered.owner if kind == "make" else registered.name
        return f"{of}{name}" + ("" if kind == "read" else f"({', '.join(given)})")

    def _name(self, type_name: str, value: Any) -> None:
        self._count += 1
        self._labels[id(value)] = f"{type_name}#{self._count}"
        self.made.append(self._labels[id(value)])

    def _found(self, kind: str, registered: Registered, values: Tuple[Any, ...]) -> Tuple[bool, Any]:
        """The answer, and whether the host file gave it."""
        if registered.word == "method" and hasattr(values[0], registered.name):
            return True, getattr(values[0], registered.name)(*values[1:])
        if registered.word == "property" and hasattr(values[0], registered.name):
            return True, _attribute(values[0], registered.name, values[1:])
        name = registered.owner if kind == "make" else registered.name
        if registered.word in ("function", "posted", "factory") and name in self.names:
            return True, self.names[name](*values)
        if registered.word == "global" and name in self.names:
            return True, _global(self.names, name, values)
        return False, _default(kind, registered.result)


def _attribute(it: Any, name: str, values: Tuple[Any, ...]) -> Any:
    return setattr(it, name, values[0]) if values else getattr(it, name)


def _global(names: Dict[str, Any], name: str, values: Tuple[Any, ...]) -> Any:
    """A global property is a name of the file, or a function that is called with nothing, or with the new value."""
    if callable(names[name]):
        return names[name](*values)
    if values:
        names[name] = values[0]
        return None
    return names[name]


def _default(kind: str, result: str) -> Any:
    if kind == "make":
        return Thing()
    if kind == "write" or result == "void" or "@" in result:
        return None
    return False if result == "bool" else 0


def _fault(error: BaseException) -> str:
    return f"fault {error.number}" if isinstance(error, Fault) else type(error).__name__
