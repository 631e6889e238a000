"""What the trials of sessions share (sessions.py here, and trials/inproc/sessions.py): the sessions, and what is done with them.

The sessions are those of crates/examples and crates/asrun, with the rows of files but for those in which a driver fails, a
line stands that conversations alone have, or a section lacks lines; and COUNT generated ones (1000, if left out), and a
tenth of these again over a profile that has functions posted. Of each the text of all replies, and the exit status, have to
be those of asrun.
"""

import os
import re
import subprocess
import tempfile
from collections import Counter

import generated

ROOT = os.path.join(os.path.dirname(os.path.abspath(__file__)), "..", "..")
SECONDS = 600  # that a run may take
# a line that conversations have, and sessions have not
OWN = re.compile(r"^((limit|used)\b|(trace|(check|list) \S+|prepare \S+ .+|run \d+ \(\S*\))\r?$)", re.MULTILINE)
POSTED = re.compile(r"^posted ", re.MULTILINE)


def commands(text):
    """The lines of a session, each section's text with its line."""
    lines = re.findall(r"[^\n]*\n|[^\n]+$", text)
    at = 0
    while at < len(lines):
        found = re.match(r"section [^ ]+ (\d{1,10})\r?$", lines[at])
        end = at + 1 + (int(found[1]) if found else 0)
        yield "".join(lines[at:end])
        at = end


def ends_early(text):
    """Whether the last section of a session lacks lines. A conversation would wait for them."""
    *_, last = commands(text) if text else [""]
    found = re.match(r"section [^ ]+ (\d{1,10})\r?$", last.partition("\n")[0])
    return bool(found) and len(last.splitlines()) <= int(found[1])


def examples():
    """The profiles and the sessions that stand beside programs, by their names."""
    for folder in ("crates/examples/data", "crates/asrun/data"):
        for file in sorted(os.listdir(os.path.join(ROOT, folder))):
            stem, kind = os.path.splitext(os.path.join(ROOT, folder, file))
            if kind == ".session":
                profiles = [f"{it}.profile" for it in (stem, stem.rsplit("_", 1)[0], os.path.join(ROOT, folder, "levels"))]
                yield file, next(filter(os.path.isfile, profiles)), f"{stem}.session"


def rows():
    """The rows of the files of rows: their names, profiles and sessions."""
    folder = os.path.join(ROOT, "crates/examples/data")
    for file in sorted(it for it in os.listdir(folder) if it.endswith(".rows")):
        with open(os.path.join(folder, file), newline="") as text:
            head, *parts = text.read().split("\n== ")
        for row in parts:
            name, _, row = row.partition("\n")
            first, _, row = row.partition("-- session\n")
            profile = (first if "-- profile\n" in first else head).partition("-- profile\n")[2]
            session, _, output = row.partition("-- output\n")
            if POSTED.search(profile) and "host " in output:
                continue  # asrun asks what asremote posts, so the two list other answers
            if "-- failing " not in first and not OWN.search(session) and not ends_early(session):
                yield f"{file}, {name}", profile, session


def run(words):
    """What a program prints, and its status. What it says on standard error, of most wrong lines, is not shown."""
    ran = subprocess.run(words, stdout=subprocess.PIPE, stderr=subprocess.DEVNULL, timeout=SECONDS)
    return ran.stdout.decode(), ran.returncode


def kind_of(line):
    """What is counted of a line: its first word, with the second where it is a fault or a refusal."""
    return " ".join(line.split(" ")[: 2 if line.startswith(("fault ", "refused ")) else 1])


def write(path, text):
    with open(path, "w", newline="") as out:
        out.write(text)


class Trial:
    """Runs sessions with asrun and in other ways, and counts those that differ.

    Each way is a function of the paths of a profile and a session, that gives what is printed and the status.
    """

    def __init__(self, asrun, **ways):
        self.asrun, self.ways = os.path.abspath(asrun), ways
        self.bad = 0  # in all
        self.begin()

    def begin(self):
        self.differ = self.compared = 0
        self.words = Counter()

    def compare(self, name, profile, session):
        wanted = run([self.asrun, "--profile", profile, "--session", session])
        self.compared += 1
        self.words.update(map(kind_of, wanted[0].splitlines()))
        for way, do in self.ways.items():
            found = do(profile, session)
            if found != wanted:
                self.differ += 1
                self.bad += 1
                print(f"--- {name} differs\n{first_difference(way, found, wanted)}", flush=True)

    def tell(self, what):
        """Says how many sessions there were since it last did."""
        counts = f"{sum(self.words.values())} lines, {self.words['host']} asks, {self.differ} runs differ"
        print(f"{self.compared} {what}, {' and '.join(self.ways)}: {counts}", flush=True)

    def compare_all(self, count=1000, seed=1):
        """All of them. The kinds of lines of the generated ones come before how many of these differ."""
        for name, profile, session in examples():
            self.compare(name, profile, session)
        with tempfile.TemporaryDirectory() as room:
            profile, session = os.path.join(room, "profile"), os.path.join(room, "session")
            for name, entries, text in rows():
                write(profile, entries)
                write(session, text)
                self.compare(name, profile, session)
            self.tell("sessions of the examples")
            self.begin()
            write(profile, generated.POSTED)
            self._compare_generated(profile, session, range(0, count, 10), seed)
            self.tell("generated sessions with functions that are posted")
            self.begin()
            write(profile, generated.PROFILE)
            self._compare_generated(profile, session, range(count), seed)
        for word, number in self.words.most_common():
            print(f"    {number:7} {word}")
        self.tell("generated sessions")

    def _compare_generated(self, profile, session, numbers, seed):
        for at in numbers:
            write(session, generated.Session(seed * 1_000_000 + at).text())
            self.compare(f"generated session {at} of seed {seed}", profile, session)


def first_difference(way, found, wanted):
    """The first line that differs, and the statuses."""
    lines = zip(found[0].splitlines() + ["its end"], wanted[0].splitlines() + ["its end"])
    number, (one, other) = next(((at, pair) for at, pair in enumerate(lines, 1) if pair[0] != pair[1]), (0, ("", "")))
    return f"    line {number}\n    {way}: {one}\n    asrun: {other}\n    statuses {found[1]} and {wanted[1]}"
