#!/usr/bin/env python3
"""Builds the deepest sections of trials/hostile.py in the library, on the least stack that it takes, and says how much was used.

    trials/inproc/deep.py HOST

HOST is session.c over the library. Each section is to be answered as there: no process ends by a signal.
"""

import os
import subprocess
import sys
import tempfile

sys.dont_write_bytecode = True
HERE = os.path.dirname(os.path.abspath(__file__))
sys.path[:0] = [os.path.join(HERE, "..")]
import hostile  # noqa: E402
import nests  # noqa: E402

STACK = 6656 * 1024  # BB_LEAST_STACK


def run(host, room, session, profile=hostile.PROFILE):
    """The answers of a session, and the bytes of stack that it used; or how the process ended."""
    for name, text in (("profile", profile), ("session", session)):
        with open(f"{room}/{name}", "w", newline="\n") as out:
            out.write(text)
    words = [host, "--stack", str(STACK), "--memory", "0", "--profile", f"{room}/profile", "--session", f"{room}/session"]
    ran = subprocess.run(words, capture_output=True, text=True, errors="replace")
    if ran.returncode < 0:
        return [f"signal {-ran.returncode}"], 0
    return ran.stdout.splitlines(), int(ran.stderr.split()[-1])


def sections():
    """Each session of one deep section, with its name."""
    for place in hostile.PLACES:
        few = place != "a function"  # the braces around a method leave no room for 63 brackets
        for nest in hostile.NESTS:
            for bottom, (text, wanted) in list(hostile.BOTTOMS.items())[: 3 if few else None]:
                wanted = hostile.PLACES[place][2] if wanted == hostile.OK else wanted
                yield f"{nest} {bottom} in {place}", hostile.built(hostile.nested(nest, text, place)[0]), wanted
    yield "ranks", hostile.ranks(256), "ok"


def main():
    host, most, bad, count = os.path.abspath(sys.argv[1]), (0, ""), 0, 0
    with tempfile.TemporaryDirectory() as room:
        for name, session, wanted in sections():
            lines, used = run(host, room, session)
            count += 1
            most = max(most, (used, name))
            if not lines[-1].startswith(wanted.split(" ")[0]):
                bad += 1
                print(f"WRONG: {name}: {lines[-1]}, where {wanted} is wanted")
        for cycle in nests.itertools.product(nests.KINDS, repeat=2):
            session, wanted = nests.session_of(cycle)
            lines, used = run(host, room, session, nests.PROFILE)
            count += 1
            most = max(most, (used, "/".join(cycle)))
            if [it for it in lines if nests.re.match("ok|refused|fault|line|signal", it)] != wanted:
                bad += 1
                print(f"WRONG: the nest {cycle}")
    print(f"deep: {count} sessions of the deepest sections with {STACK >> 10} KiB of stack; {bad} wrong")
    print(f"    at most {most[0] >> 10} KiB of it were used: {most[1]}")
    return bad > 0


if __name__ == "__main__":
    sys.exit(main())
