#!/usr/bin/env python3
"""Writes the rows of files (crates/examples/README.md) as profiles and sessions.

    trials/rows.py FOLDER FILE..

A row becomes FOLDER/FILE_NUMBER.profile and .session, numbered from 1. Those with a failing host call are left out.
"""

import os
import sys


def profile_in(head, of_all):
    return head.split("-- profile\n", 1)[1] if "-- profile\n" in head else of_all


def main():
    folder, files = sys.argv[1], sys.argv[2:]
    for file in files:
        with open(file, encoding="utf-8", newline="") as source:
            head, *rows = source.read().split("\n== ")
        of_all = profile_in(head, "")
        for number, row in enumerate(rows, 1):
            front, text = row.split("-- session\n", 1)
            if "-- failing " in front:
                continue
            stem = f"{folder}/{os.path.basename(file)[:-5]}_{number:03}"
            for kind, text in (("profile", profile_in(front, of_all)), ("session", text.split("-- output\n", 1)[0])):
                with open(f"{stem}.{kind}", "w", encoding="utf-8", newline="") as out:
                    out.write(text)


if __name__ == "__main__":
    main()
