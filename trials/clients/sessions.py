#!/usr/bin/env python3
"""Runs sessions with asrun, and with asremote and the drivers of asrun in Python, and compares what they print.

    trials/clients/sessions.py ASREMOTE ASRUN [COUNT [SEED]]

compared.py says which sessions. Prints each that differs, and how many there were.
"""

import os
import sys

HERE = os.path.dirname(os.path.abspath(__file__))
TOP = os.path.join(HERE, "..", "..")
sys.path[:0] = [HERE, os.path.join(TOP, "tools"), os.path.join(TOP, "clients", "python")]
from bustlebrick import Conversation, EngineLost  # noqa: E402
from compared import SECONDS, Trial, commands  # noqa: E402
from playing import sample_drivers  # noqa: E402


# runs a program whose standard error is not shown, as that of asrun is not
QUIET = ["sh", "-c", 'exec "$@" 2> /dev/null', "sh"]


def remote(program, profile, session):
    """What asremote prints, less its own lines, and its status."""
    drivers = sample_drivers.Drivers()
    talk = Conversation([*QUIET, program, "--profile", profile, "--drivers", "3"], drivers.answer)
    with open(session, newline="") as file:
        text = file.read()
    printed, number = [], 1
    try:
        printed += talk.say("", SECONDS)
        for command in commands(text):
            reply = talk.say(command if command.endswith("\n") else command + "\n", SECONDS)
            if reply == ["refused BadLine"]:  # asremote goes on after it, and asrun ends
                printed.append(f"line {number} BadLine")
                talk.close(SECONDS)
                return "".join(f"{line}\n" for line in printed), 2
            number += command.count("\n")
            drivers.replied(reply)
            printed += reply
    except EngineLost as lost:
        printed += lost.said
    status = talk.close(SECONDS)
    return "".join(f"{line}\n" for line in printed), status


def main():
    asremote = os.path.abspath(sys.argv[1])
    trial = Trial(sys.argv[2], asremote=lambda profile, session: remote(asremote, profile, session))
    trial.compare_all(*map(int, sys.argv[3:]))
    return trial.bad > 0


if __name__ == "__main__":
    sys.exit(main())
