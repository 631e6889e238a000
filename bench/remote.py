#!/usr/bin/env python3
"""Measures what a host call over the pipe takes, beside an empty round trip over pipes, and a build in asremote beside one in asrun.

    python3 bench/remote.py ASREMOTE ASRUN [--calls N] [--rounds N] [--library FOLDER]

A script asks the host N times (100,000, if left out). A call is the time from one ask to the next: its answer is written, the script
goes on, and the next ask is read. It is measured twice: by the lines alone, and by a callable of a profile (clients/python). The empty
round trip is a line to `cat` and back, as often. The median of each is printed, with the lower and the upper tenth.

Then the same calls are posted, and their lines come many at a time: what counts is the whole command, over the number of calls, beside
that of the same command with calls that are asked.

With --library, of a folder that `make -C clients/c` made (clients/c/out/proved), the callable is measured with the engine in this
process too; and the same script and an empty command with a host in C: with the engine in its process, and with asremote over pipes
(bench/inproc.c, which cc compiles).

Then 4,096 functions are built (bench/sections.py), N times (5) in each program, one after the other, and the quickest counts. Seconds
are those of the clock: of the whole process, and for asremote those of the line `build` alone too.

Prints figures, and judges none.
"""

import argparse
import os
import subprocess
import sys
import tempfile
import time

HERE = os.path.dirname(os.path.abspath(__file__))
sys.path[:0] = [HERE, os.path.join(HERE, "..", "clients", "python")]
from bustlebrick import Conversation, Engine, Profile  # noqa: E402

SECONDS = 600  # that a command may take
SCRIPT = "void run(int64 n) { for (int64 i = 0; i < n; i++) put(i); }\n"
PROFILE = "mask 00000001\nfunction 0 0 void put(int64)\n"
POSTED = "mask 00000001\nposted 0 0 void put(int64)\n"


def tenths(name, times):
    """Prints the median of the times between one and the next, in microseconds, and the tenths at both ends."""
    gaps = sorted(after - before for before, after in zip(times, times[1:]))
    low, middle, high = (gaps[len(gaps) * tenth // 10] / 1000 for tenth in (1, 5, 9))
    print(f"| {name} | {middle:.1f} | {low:.1f} | {high:.1f} |", flush=True)


def trips(count):
    """Lines to `cat` and back."""
    cat = subprocess.Popen(["cat"], stdin=subprocess.PIPE, stdout=subprocess.PIPE, bufsize=0)
    to, back, times = cat.stdin.fileno(), cat.stdout.fileno(), []
    for _ in range(count):
        times.append(time.perf_counter_ns())
        os.write(to, b"ask 0 call 0 - (12345)\n")
        os.read(back, 4096)
    cat.stdin.close()
    cat.wait()
    cat.stdout.close()
    return times


def calls_by_lines(asremote, profile, count):
    times = []

    def answer(_):
        times.append(time.perf_counter_ns())
        return "void"

    talk = Conversation([asremote, "--profile", profile, "--budget", str(count + 2)], answer)
    for command in ("", "module m 00000001\n", f"section m 1\n{SCRIPT}", "build m\n", f"call m ({count}) void run(int64)\n"):
        outcome = talk.say(command, SECONDS)[-1:]
    talk.close(SECONDS)
    return times, outcome


def calls_by_profile(asremote, count, library=None, posted=False):
    times, profile = [], Profile()
    register = profile.posted if posted else profile.function
    register("void put(int64)", lambda n: times.append(time.perf_counter_ns()))
    with Engine(profile, asremote, SECONDS, events=None, library=library) as engine:
        if library and engine.pid:
            sys.exit(f"there is no {library}")
        engine.budget(count + 2)
        module = engine.module("m", 1)
        module.section(SCRIPT)
        outcome = module.build().outcome
        module.call("void run(int64)", count)
    return times, [outcome]


def posts(words, library, profile, rows):
    """Measures posted calls beside the asked ones of these rows, from the first of a command to the last."""
    with open(profile, "w") as file:
        file.write(POSTED)
    posted = [calls_by_lines(words.asremote, profile, words.calls), calls_by_profile(words.asremote, words.calls, posted=True)]
    if library:
        posted.append(calls_by_profile(words.asremote, words.calls, library, posted=True))
    print("\n| of a whole command, each call | asked | posted | posted by asked |\n|---|---|---|---|")
    for (name, (asked, _)), (times, outcome) in zip(rows, posted):
        if outcome != ["ok"] or len(times) != words.calls:
            sys.exit(f"asremote answered {outcome} after {len(times)} posts")
        one, other = ((it[-1] - it[0]) / 1000 / len(it) for it in (asked, times))
        print(f"| {name} | {one:.2f} | {other:.2f} | {other / one:.2f} |", flush=True)


def in_process(library, asremote, profile, room):
    """Runs bench/inproc.c over the library and over asremote."""
    words = ["cc", "-O2", f"-I{library}/include", os.path.join(HERE, "inproc.c"), f"{library}/lib/libbustlebrick.a", "-o", f"{room}/inproc"]
    subprocess.run(words, check=True)
    print(flush=True)
    subprocess.run([f"{room}/inproc", asremote, profile], check=True)


def remote_build(asremote, profile, commands):
    """The seconds of the whole process, and of the last command."""
    start = time.perf_counter()
    talk = Conversation([asremote, "--profile", profile], lambda line: "void")
    for command in ("", *commands):
        before = time.perf_counter()
        outcome = talk.say(command, SECONDS)[-1:]
    alone = time.perf_counter() - before
    talk.close(SECONDS)
    if outcome != ["ok"]:
        sys.exit(f"asremote answered {outcome}")
    return time.perf_counter() - start, alone


def local_build(asrun, profile, session):
    start = time.perf_counter()
    ran = subprocess.run([asrun, "--profile", profile, "--session", session], stdout=subprocess.PIPE, text=True)
    if ran.stdout.split("\n")[-2] != "ok":
        sys.exit(f"asrun answered {ran.stdout}")
    return time.perf_counter() - start


def main():
    parser = argparse.ArgumentParser(description="Measures asremote: see the head of this file.")
    parser.add_argument("asremote", type=os.path.abspath)
    parser.add_argument("asrun", type=os.path.abspath)
    parser.add_argument("--calls", type=int, default=100000)
    parser.add_argument("--rounds", type=int, default=5)
    parser.add_argument("--library", type=os.path.abspath, metavar="FOLDER")
    words = parser.parse_args()
    with tempfile.TemporaryDirectory() as room:
        profile, session = os.path.join(room, "profile"), os.path.join(room, "session")
        with open(profile, "w") as file:
            file.write(PROFILE)
        print(f"{words.calls} host calls, in microseconds\n\n| | median | lower tenth | upper tenth |\n|---|---|---|---|")
        tenths("an empty round trip over pipes", trips(words.calls))
        rows = [
            ("a host call, by its lines", calls_by_lines(words.asremote, profile, words.calls)),
            ("a host call, by a callable of a profile", calls_by_profile(words.asremote, words.calls)),
        ]
        library = os.path.join(words.library, "lib", "libbustlebrick.so") if words.library else None
        if library:
            rows.append(("the same, with the engine in process", calls_by_profile(words.asremote, words.calls, library)))
        for name, (times, outcome) in rows:
            if outcome != ["ok"] or len(times) != words.calls:
                sys.exit(f"asremote answered {outcome} after {len(times)} calls")
            tenths(name, times)
        posts(words, library, profile, rows)
        if words.library:
            in_process(words.library, words.asremote, os.path.join(room, "inproc.profile"), room)
        subprocess.run([sys.executable, os.path.join(HERE, "sections.py"), room], check=True, stdout=subprocess.DEVNULL)
        with open(os.path.join(room, "functions.as")) as file:
            text = file.read()
        commands = ["module m 00000001\n", f"section m {text.count(chr(10))}\n{text}", "build m\n"]
        with open(session, "w") as file:
            file.write("".join(commands))
        pairs = [
            (local_build(words.asrun, profile, session), *remote_build(words.asremote, profile, commands))
            for _ in range(words.rounds)
        ]
    here, there, alone = map(min, zip(*pairs))
    print(f"\nA build of {len(text)} bytes, in seconds\n\n| | |\n|---|---|")
    print(f"| asrun, the whole process | {here:.4f} |\n| asremote, the whole process | {there:.4f} |")
    print(f"| asremote, the line `build` | {alone:.4f} |")


if __name__ == "__main__":
    main()
