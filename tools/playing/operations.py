"""What a page can ask for: each operation takes and gives a dictionary, which travels as JSON."""

import os
import re
import secrets
import threading
import time
from typing import Any, Callable, Dict, List, NamedTuple, Optional

from bustlebrick import EngineLost, Entry
from playing import commands, profiles
from playing.answering import LIKE_ASRUN
from playing.declared import value_for
from playing.explained import explained
from playing.pages import SECONDS_TO_REDO, CantOpen, NotTaken, Page
from playing.sentences import fault_sentence, refusal_sentence

SAMPLES = os.path.join(os.path.dirname(os.path.abspath(__file__)), "samples")
NAMES_OF_SAMPLES = ["levels", "plugins", "game"]
MOST_PAGES = 8
SECONDS_UNHEARD = 180.0
MOST_OBJECTS = 500  # that are shown
MOST_SECTIONS = 64
VALUE = re.compile(r"-?[0-9]{1,20}|[0-9]{1,20}u|true|false")
Fields = Dict[str, Any]


class BadRequest(Exception):
    """A request of another form."""


class PageGone(Exception):
    """A page whose engine was ended."""


class Beginning(NamedTuple):
    """What a page shows first: a profile and a session, or a sample where there is no profile."""
    profile: Optional[str]
    session: str


class Operations:
    """All open pages, and what they ask for. Each page has a number that nobody guesses."""

    def __init__(self, program: str, timeout: float, beginning: Beginning) -> None:
        self.program, self.timeout, self.beginning = program, timeout, beginning
        self._pages: Dict[str, Page] = {}
        self._lock = threading.Lock()
        self._known: Dict[str, Callable[[Fields], Fields]] = {
            "begin": self._begin, "sample": self._sample, "open": self._open, "close": self._close, "alive": self._alive,
            "module": self._module, "mask": self._mask, "discard": self._discard, "remove": self._remove, "budget": self._budget,
            "build": self._build, "bind": self._bind, "unbind": self._unbind, "call": self._call,
            "check": self._check, "share": self._share,
        }

    def do(self, name: str, given: Fields) -> Fields:
        """Does an operation. What can't be done has a `problem`."""
        if name not in self._known:
            raise BadRequest("there is no such operation")
        try:
            return self._known[name](given)
        except commands.BadSession as bad:
            return {"problem": f"line {bad.line} of the session: {bad}"}
        except CantOpen as wrong:
            return {"problem": f"line {wrong.line} of the profile: {wrong}" if wrong.line else str(wrong), "line": wrong.line}
        except PageGone:
            return {"problem": "the engine was ended, since nothing was heard of the page", "gone": True}
        except (NotTaken, ValueError) as wrong:
            return {"problem": str(wrong)}
        except EngineLost as lost:
            return {"problem": str(lost)}

    def end(self) -> None:
        """Ends all engines."""
        for page in list(self._pages.values()):
            page.close()

    def end_unheard(self) -> None:
        """Ends the engines of pages that were left without a word."""
        with self._lock:
            for number, page in list(self._pages.items()):
                if time.monotonic() - page.heard > SECONDS_UNHEARD:
                    self._pages.pop(number).close()

    # ---- pages

    def _begin(self, _: Fields) -> Fields:
        if self.beginning.profile is None:
            return {"samples": NAMES_OF_SAMPLES, **self._sample({"name": NAMES_OF_SAMPLES[0]})}
        return {"samples": NAMES_OF_SAMPLES, "name": "", "profile": self.beginning.profile, "session": self.beginning.session}

    def _sample(self, given: Fields) -> Fields:
        name = text_in(given, "name")
        if name not in NAMES_OF_SAMPLES:
            raise BadRequest("there is no such sample")
        return {"name": name, "profile": _file(f"{name}.profile"), "session": _file(f"{name}.session")}

    def _open(self, given: Fields) -> Fields:
        written = commands.read_session(text_in(given, "session"))
        page = Page(self.program, text_in(given, "profile"), written.answers, self.timeout)
        note = _redone(page, written.commands)
        number = secrets.token_urlsafe(16)
        with self._lock:
            self._pages[number] = page
            while len(self._pages) > MOST_PAGES:
                oldest = min(self._pages, key=lambda it: self._pages[it].heard)
                self._pages.pop(oldest).close()
        steps = [_step(page, number) for number in range(len(page.log))]
        return {"page": number, "note": note, **_opened(page, written.drafts), **_shown(page), "steps": steps}

    def _page(self, given: Fields) -> Page:
        page = self._pages.get(text_in(given, "page"))
        if not page:
            raise PageGone
        page.heard = time.monotonic()
        return page

    def _close(self, given: Fields) -> Fields:
        with self._lock:
            page = self._pages.pop(text_in(given, "page"), None)
        if page:
            page.close()
        return {}

    def _alive(self, given: Fields) -> Fields:
        self._page(given)
        return {}

    # ---- commands

    def _told(self, given: Fields, *texts: str) -> Fields:
        page = self._page(given)
        steps: List[Fields] = []
        problem: Fields = {}
        with page.lock:
            try:
                for text in texts:
                    page.tell(text)
                    steps.append(_step(page, len(page.log) - 1))
            except EngineLost as lost:
                problem = {"problem": f"{lost}. It was ended, and another one did all again that came before"}
            return {"steps": steps, **_shown(page), **problem}

    def _module(self, given: Fields) -> Fields:
        return self._told(given, f"module {name_in(given)} {mask_in(given)}")

    def _mask(self, given: Fields) -> Fields:
        return self._told(given, f"mask {name_in(given)} {mask_in(given)}")

    def _discard(self, given: Fields) -> Fields:
        return self._told(given, f"discard {name_in(given)}")

    def _remove(self, given: Fields) -> Fields:
        return self._told(given, f"remove {name_in(given)}")

    def _budget(self, given: Fields) -> Fields:
        return self._told(given, f"budget {number_in(given, 'ticks')}")

    def _bind(self, given: Fields) -> Fields:
        to = f"{name_in(given, 'exporter')} {declaration_in(given)}"
        return self._told(given, f"bind {name_in(given)} {number_in(given, 'number')} {to}")

    def _unbind(self, given: Fields) -> Fields:
        return self._told(given, f"unbind {name_in(given)} {number_in(given, 'number')}")

    def _call(self, given: Fields) -> Fields:
        values = ",".join(values_in(given))
        return self._told(given, f"call {name_in(given)} ({values}) {declaration_in(given)}")

    def _build(self, given: Fields) -> Fields:
        name, texts, page = name_in(given), sections_in(given), self._page(given)
        module = page.modules.get(name)
        anew = [f"discard {name}", f"module {name} {module.mask:08x}"] if module and module.waiting else []
        said = self._told(given, *anew, *(commands.section(name, it) for it in texts), f"build {name}")
        if "problem" in said:
            return said
        return {**said, "problems": _problems(page, name)}

    # ---- what is no command

    def _check(self, given: Fields) -> Fields:
        """Has sections checked as they are, while the program runs on that the module was built with."""
        name, texts, page = name_in(given), sections_in(given), self._page(given)
        with page.lock:
            try:
                lines = page.check(name, texts)
            except EngineLost as lost:
                return {"problem": f"{lost}. It was ended, and another one did all again that was done before"}
            problems = explained(page.read.profile, page.modules[name].mask, texts, lines)
        return {"problems": problems, "outcome": lines[-1], "means": _meaning(lines[-1])}

    def _share(self, given: Fields) -> Fields:
        page, drafts = self._page(given), given.get("drafts", {})
        if not isinstance(drafts, dict) or not all(map(_are_texts, drafts.values())):
            raise BadRequest("drafts are lists of texts")
        with page.lock:
            told = list(page.log)
        head = [] if page.answers == LIKE_ASRUN else [f"#answers {page.answers}"]
        kept = [commands.draft(name_in({"name": name}), it) for name, texts in drafts.items() for it in texts]
        session = "".join(f"{it}\n" for it in [*head, *(it.text for it in told), *kept])
        return {"profile": page.profile, "session": session, "lines": [line for it in told for line in it.lines]}


# ---- what is shown


def _redone(page: Page, texts: List[str]) -> str:
    """Does the commands of a session, and says what kept it from the rest."""
    until = time.monotonic() + SECONDS_TO_REDO
    try:
        for text in texts:
            if time.monotonic() > until:
                raise NotTaken("it takes too long")
            page.tell(text)
    except (EngineLost, NotTaken) as lost:
        return f"The session ends before '{text[:60]}': {lost}"
    return ""


def _step(page: Page, number: int) -> Fields:
    """A command that was done, with the trace of its fault."""
    told = page.log[number]
    means = _meaning(told.lines[-1])
    return {"text": told.text, "lines": told.lines, "means": means, "ticks": told.ticks, "trace": page.traces.get(number, [])}


def _opened(page: Page, drafts: Dict[str, List[str]]) -> Fields:
    entries = [_entry(it, masks) for it, masks in zip(page.read.profile.entries, page.masks)]
    sections = {name: it.waiting or it.tried for name, it in page.modules.items()}
    shown = [{"name": name, "texts": drafts.get(name, it), "tried": it} for name, it in sections.items()]
    return {
        "entries": entries, "profile": page.profile, "answers": page.answers, "limits": page.read.limits, "sections": shown,
        "problems": [{"name": name, "problems": _problems(page, name)} for name in page.modules],
    }


def _entry(entry: Entry, masks: List[int]) -> Fields:
    word, *rest = entry.line.split(" ")
    driver = int(rest[1]) if word == "type" else None
    return {"told": profiles.told(entry), "word": word, "mask": entry.mask, "masks": masks, "driver": driver}


def _shown(page: Page) -> Fields:
    things = list(page.objects.items())
    objects = [{"driver": key[0], "key": str(key[1]), **thing._asdict()} for key, thing in things[:MOST_OBJECTS]]
    return {
        "modules": [it.shown(name) for name, it in page.modules.items()], "objects": objects, "alive": len(things),
        "used": page.used(), "budget": page.budget, "groups": page.groups(), "removed": page.blanked(),
    }


def _problems(page: Page, name: str) -> List[Fields]:
    """What the last build of a module said."""
    module = page.modules.get(name)
    return explained(page.read.profile, module.tried_mask, module.tried, module.said) if module else []


def _meaning(outcome: str) -> str:
    word, _, rest = outcome.partition(" ")
    sentences = {"fault": fault_sentence, "refused": refusal_sentence}
    return sentences[word](rest) if word in sentences else ""


def _file(name: str) -> str:
    with open(os.path.join(SAMPLES, name), encoding="utf-8") as file:
        return file.read()


# ---- what is given


def text_in(given: Fields, name: str) -> str:
    text = given.get(name)
    if not isinstance(text, str):
        raise BadRequest(f"'{name}' is a text")
    text.encode()
    return text


def number_in(given: Fields, name: str) -> int:
    number = given.get(name)
    if not isinstance(number, int) or isinstance(number, bool) or not 0 <= number < 10**10:
        raise ValueError(f"'{name}' is a number of up to ten digits")
    return number


def mask_in(given: Fields) -> str:
    mask = number_in(given, "mask")
    if mask >= 1 << 32:
        raise BadRequest("a mask has 32 bits")
    return f"{mask:08x}"


def name_in(given: Fields, name: str = "name") -> str:
    text = text_in(given, name)
    if not re.fullmatch(r"[^\s]{1,255}", text):
        raise ValueError("a module's name has no spaces, and at most 255 characters")
    return text


def declaration_in(given: Fields) -> str:
    text = " ".join(text_in(given, "declaration").split())
    if not text:
        raise ValueError("a declaration is wanted, as int main()")
    return text


def values_in(given: Fields) -> List[str]:
    values, parameters = given.get("values"), given.get("parameters")
    if not _are_texts(values) or not _are_texts(parameters):
        raise BadRequest("values and parameters are lists of texts")
    found = [value_for(it.strip(), of) for it, of in zip(values, parameters)]
    for value in found:
        if not VALUE.fullmatch(value):
            raise ValueError(f"'{value[:40]}' is no value: 7, -7, true or false")
    return found


def sections_in(given: Fields) -> List[str]:
    texts = given.get("sections")
    if not _are_texts(texts) or len(texts) > MOST_SECTIONS:
        raise BadRequest(f"sections are a list of at most {MOST_SECTIONS} texts")
    return [text_in({"text": it}, "text") for it in texts]


def _are_texts(given: Any) -> bool:
    return isinstance(given, list) and all(isinstance(it, str) for it in given)
