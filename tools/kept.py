#!/usr/bin/env python3
"""Proves crates as `rt ci` does and keeps what was proved, for a kit whose own `rt ci` keeps nothing.

    python3 tools/kept.py prove [--tests] [--edits] [--lanes N] [CRATE ..]
    python3 tools/kept.py lacking

`prove` proves the crates (all, if none is named) and what they stand on, each from nothing and over what those below it were built to, by
the kit's own functions; with `--tests` their tests too, and with `--edits` it tries their must-fail edits. N of these go on side by side,
as many as there are processors, if left out, and the longest chain first. What went well stands in a folder of this machine, by the
checksums of all that it was read from, so another clone with the same text takes libraries from there; programs, those of tests too, stay in
the `out` of the crate where they were made. Nothing is run, a test that is proved may still fail, and nothing that is printed is a verdict:
`rt ci` alone gives one. `lacking` says which crates' libraries are not there for this text.

It finds the kit by `rt doc`. docs/PROVING.md ("What is kept") says when it helps.
"""

import argparse
import copy
import fcntl
import hashlib
import os
import shutil
import sys
import threading
import time
from concurrent.futures import FIRST_COMPLETED, ThreadPoolExecutor, wait

sys.dont_write_bytecode = True
from kit import KIT, of_kit  # noqa: E402

TOP = os.path.dirname(os.path.dirname(os.path.abspath(__file__)))
STORE = os.path.join(os.environ.get("XDG_CACHE_HOME") or os.path.expanduser("~/.cache"), "rattle-kept")
PARTS = ("src", "specs", "proofs")

rt = of_kit("rt_of_the_kit", "rt")
rtlib = rt.rtlib


# ---- what is kept


def read(path):
    with open(path, "rb") as file:
        return file.read()


def sum_of(folder, parts=("",)):
    """The checksum of the files below these parts of a folder, with their names."""
    total = hashlib.sha256()
    for part in parts:
        for at, folders, files in os.walk(os.path.join(folder, part)):
            folders.sort()
            for name in sorted(files):
                path = os.path.join(at, name)
                total.update(repr(os.path.relpath(path, folder)).encode() + hashlib.sha256(read(path)).digest())
    return total.hexdigest()


class Kept:
    """What was proved on this machine. A crate whose library is known to be built has a sum of it, in `built`."""

    def __init__(self):
        self.built = {}

    def key(self, crate, kind="proof"):
        """What a proof of the crate is kept under, or None where a library below it is not built yet."""
        if any(it.name not in self.built for it in crate.below()):
            return None
        below = [(it.name, self.built[it.name]) for it in crate.below()]
        own = (kind, crate.name, sorted(crate.said.items(), key=str), sum_of(crate.folder, PARTS), below)
        return hashlib.sha256(read(f"{KIT}/KIT-ID") + repr(own).encode()).hexdigest()[:40]

    def take(self, crate):
        """Whether the crate is proved; its library is then the one that is kept."""
        key = self.key(crate)
        if key is None or not os.path.exists(f"{STORE}/{key}/done"):
            return False
        self.built[crate.name] = read(f"{STORE}/{key}/sum").decode()
        if crate.makes_rlib():
            crate.rlib = f"{STORE}/{key}/{crate.name}.rlib"
        return True

    def keep(self, crate, key, kind):
        """Keeps that a proof went well, and the library that it built. Programs, those of tests too, stay in the crate's own `out`."""
        place = f"{STORE}/{key}"
        if kind == "proof" and crate.makes_rlib():
            shutil.rmtree(f"{place}/{crate.name}.rlib", ignore_errors=True)
            shutil.move(crate.rlib, f"{place}/{crate.name}.rlib")
            total = sum_of(f"{place}/{crate.name}.rlib")
        else:
            total = ""
        for path, text in ((f"{place}/sum", total), (f"{place}/done", "")):
            with open(path, "w", encoding="utf-8") as file:
                file.write(text)


def crates_here():
    rtlib.Crate, rt.Crate.allowed = rt.Crate, rt.handles_of(TOP)
    # (as under `rt ci`: the crates above a library load its statements)
    rt.Crate.cuts_libraries = True
    # (rt's own stamp of a library, which nothing here reads, takes a minute at the top, as it asks each crate by every way that leads there)
    rt.Crate.stamp = lambda _crate: ""
    return sorted(rtlib.crates_below(TOP), key=lambda it: len(it.below()))


def lacking(crates):
    """The crates whose libraries or programs are not kept for this text."""
    kept = Kept()
    return [it for it in crates if not kept.take(it)]


# ---- what is proved


printing = threading.Lock()


def say(text):
    with printing:
        print(f"{time.strftime('%H:%M:%S')} {text}", flush=True)


def proved(kept, crate, kind, jobs):
    """Whether the crate is proved, or its tests are, from nothing or once before."""
    key = kept.key(crate, kind)
    if key is None:
        say(f"{crate.name}: not tried, since a library below it is not proved")
        return False
    os.makedirs(f"{STORE}/{key}", exist_ok=True)
    with open(f"{STORE}/{key}/lock", "w", encoding="utf-8") as lock:
        fcntl.flock(lock, fcntl.LOCK_EX)
        if not os.path.exists(f"{STORE}/{key}/done") and not from_nothing(kept, crate, kind, key, jobs):
            return False
    return kind == "tests" or kept.take(crate)


def from_nothing(kept, crate, kind, key, jobs):
    started, status = time.time(), 1
    # (a library is built in the crate's own folder, and kept elsewhere)
    crate = copy.copy(crate)
    with open(f"{STORE}/{key}/log", "w+", encoding="utf-8", errors="replace") as crate.out:
        try:
            os.makedirs(f"{crate.folder}/out", exist_ok=True)
            if kind == "proof":
                rt.stop_on_words(crate)
                rtlib.stop_on_text(crate, "verdict")
            is_laid_out = kind == "tests" or not rtlib.fmt(crate.folder, "--check", crate.out)
            status = crate.ci(["--jobs", str(jobs)], kind == "tests") if is_laid_out else 1
        except SystemExit:
            pass
    if not status:
        kept.keep(crate, key, kind)
    how = "not proved: " + f"{STORE}/{key}/log" if status else "proved"
    say(f"{crate.name}, {kind}: {how} ({time.time() - started:.0f} s, {jobs} jobs)")
    return not status


def refused(kept, crate):
    """Whether the prover refuses each edit of the crate; those that it refused before are not tried again."""
    good, bad = rt.edits_of(crate)
    base = kept.key(crate, "edits")
    marks = {it: f"{STORE}/edits/{hashlib.sha256(base.encode() + read(it)).hexdigest()[:40]}" for it in good}
    left = [it for it in good if not os.path.exists(marks[it])]
    os.makedirs(f"{STORE}/edits", exist_ok=True)
    told = rt.must_fail_all(crate, left, ["--jobs", "1"])
    for edit, (is_refused, text) in zip(left, told):
        if is_refused:
            with open(marks[edit], "w", encoding="utf-8") as file:
                file.write(text)
        if not is_refused or "only because" in text:
            say(text)
    say(f"{crate.name}: {len(left)} edits tried")
    return not bad and all(is_refused for is_refused, _ in told)


def tasks_of(kept, crates, chosen):
    """What there is to do, by crate and kind: what it waits for, how long it is, what memory it wants, and the work."""
    names = {it.name for it in crates if not chosen.crates or it.name in chosen.crates}
    wanted = [it for it in crates if it.name in names or any(it in top.below() for top in crates if top.name in names)]
    tasks = {}
    for it in wanted:
        below = [(dep.name, "proof") for dep in it.below()]
        proof = lambda jobs, it=it: proved(kept, it, "proof", jobs)
        tasks[it.name, "proof"] = (below, it.count(rb"\n") + 200, rt.need(it), proof)
        after = [*below, (it.name, "proof")]
        if chosen.tests and it.name in names and it.has_tests():
            tests = lambda jobs, it=it: proved(kept, it, "tests", jobs)
            tasks[it.name, "tests"] = (after, 1, rt.need(it), tests)
        if chosen.edits and it.name in names and rt.edits_of(it)[0]:
            tasks[it.name, "edits"] = (after, 0, rt.need(it), lambda _jobs, it=it: refused(kept, it))
    return tasks


def in_lanes(tasks, lanes):
    """Does the tasks side by side, the one with the longest chain above it first, and gives what each answered."""
    behind = {it: 0 for it in tasks}
    for key in reversed([*tasks]):
        behind[key] += tasks[key][1]
        for below in tasks[key][0]:
            behind[below] = max(behind[below], behind[key])
    memory, left, running, answers = 0.85 * rt.free(), sorted(tasks, key=lambda it: -behind[it]), {}, {}
    with ThreadPoolExecutor(lanes) as pool:
        while left or running:
            ready = [it for it in left if all(below in answers for below in tasks[it][0])]
            for at, key in enumerate(ready):
                room = memory - sum(needs for _, needs, _ in running.values())
                idle, needs = lanes - sum(jobs for _, _, jobs in running.values()), tasks[key][2]
                if idle > 0 and (not running or needs <= room):
                    left.remove(key)
                    jobs = 1 if key[1] == "edits" else max(1, min(4, idle // (len(ready) - at)))
                    running[pool.submit(tasks[key][3], jobs)] = key, needs, jobs
            for done in wait(running, return_when=FIRST_COMPLETED).done:
                answers[running.pop(done)[0]] = done.result()
    return answers


def prove(chosen):
    rtlib.guarded()
    answers = in_lanes(tasks_of(Kept(), crates_here(), chosen), chosen.lanes)
    failed = [f"{name} ({kind})" for (name, kind), well in answers.items() if not well]
    say(f"{len(answers) - len(failed)} well, {len(failed)} not: {', '.join(failed) or '-'}")
    return bool(failed)


def options():
    reader = argparse.ArgumentParser(description=__doc__, formatter_class=argparse.RawDescriptionHelpFormatter)
    reader.add_argument("verb", choices=("prove", "lacking"))
    reader.add_argument("--tests", action="store_true")
    reader.add_argument("--edits", action="store_true")
    reader.add_argument("--lanes", type=int, default=rt.processors())
    reader.add_argument("crates", nargs="*", metavar="CRATE")
    return reader.parse_intermixed_args()


def main():
    chosen = options()
    os.chdir(TOP)
    if chosen.verb == "prove":
        return prove(chosen)
    print(*[it.name for it in lacking(crates_here())], sep="\n")
    return 0


if __name__ == "__main__":
    sys.exit(main())
