#!/usr/bin/env python3
"""Runs scripts with the AngelScript library, and compares with what docs/COMING_FROM.md says of them, or with what
the session crates/examples/data/same.session gives, whose scripts are to end there as they do here.

    trials/original/compare.py

Needs g++ and Debian's angelscript-dev. A row of a table of the page is run where it has a script with a function m and says how
that ends there, and where its table is of what is left out. Prints each script that differs, and how many were run.
"""
import os, re, subprocess, sys, tempfile

HERE = os.path.dirname(os.path.abspath(__file__))
DOC = os.path.join(HERE, "../../docs/COMING_FROM.md")
SAME = os.path.join(HERE, "../../crates/examples/data/same")


def rows():
    """Gives the script and what the page says of it there: an ending, or none where it is only to be taken."""
    at = None
    for line in open(DOC, encoding="utf-8"):
        cells = [cell.strip() for cell in line.strip().strip("|").split(" | ")]
        if not line.startswith("|"):
            at = None
        elif at is None:
            at = cells
        elif not line.startswith("|-"):
            script, there = (1, 2) if at[1] == "Example" else (0, 1)
            code = re.fullmatch(r"`([^`]*)`", cells[script])
            if not code:
                continue
            if at[-1] == "Error":
                yield code[1], None
            elif " m(" in code[1]:
                said = re.match(r"`([^`]*)`", cells[there])
                if said:
                    yield code[1], said[1]


def replies():
    """Gives the lines that end the replies of the session of what is the same, in order."""
    with open(SAME + ".output", encoding="utf-8") as output:
        return iter([line.strip() for line in output if re.match("ok|refused|fault", line)])


def same_rows():
    """Gives the scripts of that session with what their call gives there, or `refused` where they are not built."""
    ended, script = replies(), ""
    with open(SAME + ".session", encoding="utf-8") as session:
        lines = iter(session)
        for line in lines:
            words = line.split()
            if not words or words[0].startswith("#"):
                continue
            reply = next(ended)
            if words[0] == "section":
                script = "".join(next(lines) for _ in range(int(words[2]))).strip()
            elif words[0] == "build" and reply != "ok":
                yield script, "refused"
            elif words[0] == "call":
                yield script, reply


def main():
    differ = count = 0
    with tempfile.TemporaryDirectory() as room:
        program = os.path.join(room, "host")
        subprocess.run(["g++", "-O1", "-o", program, f"{HERE}/host.cpp", "-langelscript-addon", "-langelscript", "-lpthread"], check=True)
        for script, said in [*rows(), *same_rows()]:
            ran = subprocess.run([program], input=script, capture_output=True, text=True, timeout=20)
            masks, _, ended = ran.stdout.partition("\n")
            ended = ended.strip()
            count += 1
            well = ended != "refused" if said is None else ended == said
            if not well or "-v" in sys.argv:
                print(f"{script}\n    there: {ended}\n    said:  {said}\n    {ran.stderr.strip()}")
            differ += not well
    print(masks)
    print(f"{count} scripts, {differ} differ")
    return differ > 0


if __name__ == "__main__":
    sys.exit(main())
