#!/usr/bin/env python3
"""Runs sessions with asrun, and with its drivers in C over the library, and compares what they print and their statuses.

    trials/inproc/sessions.py HOST ASRUN [COUNT [SEED]]

HOST is session.c over the library: each session runs by the callback, by steps, and so that posts are taken at once. trials/clients/compared.py says which
sessions. Prints each that differs, and how many there were.
"""

import os
import sys

sys.dont_write_bytecode = True
sys.path[:0] = [os.path.join(os.path.dirname(os.path.abspath(__file__)), "..", "clients")]
from compared import Trial, run  # noqa: E402


def main():
    host = os.path.abspath(sys.argv[1])
    ways = {"by the callback": [], "by steps": ["--steps"], "with posts at once": ["--at-once"]}

    def way(words):
        return lambda profile, session: run([host, *words, "--profile", profile, "--session", session])

    trial = Trial(sys.argv[2], **{name: way(words) for name, words in ways.items()})
    trial.compare_all(*map(int, sys.argv[3:]))
    return trial.bad > 0


if __name__ == "__main__":
    sys.exit(main())
