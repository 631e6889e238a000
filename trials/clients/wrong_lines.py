#!/usr/bin/env python3
"""Says lines of wrong forms to asremote, and looks what it does with them and with what follows.

    trials/clients/wrong_lines.py ASREMOTE

After a line that may be the head of a section asremote ends, and none of the lines behind it runs: each of them is a
command here. After any other wrong line it goes on. Lines that conversations alone have are said in the right form too, and
`limit` and `used` stand in profiles. Prints each line with which it does otherwise, and how many there were.
"""

import subprocess
import sys
import tempfile

FIRST = b"module a 00000001\n"  # line 1
BEHIND = b"module b 00000001\ndiscard a\nbudget 7\n"  # its replies would show that it ran

HEADERS = [
    b"section\n",
    b"section \n",
    b"section a\n",
    b"section a \n",
    b"section  3\n",
    b"section 3\n",
    b"section a x\n",
    b"section a -3\n",
    b"section a 3x\n",
    b"section a 3 \n",
    b"section a 3 4\n",
    b"section a b 3\n",
    b"section a 00000000003\n",
    b"section a 99999999999\n",
    b"section a 18446744073709551616\n",
    b"section  a 3\n",
    b"section a  3\n",
    b"section\ta 3\n",
    b"section a\t3\n",
    b"section a 3\t\n",
    b" section a 3\n",
    b"\tsection a 3\n",
    b"\rsection a 3\n",
    b"\x0b\x0csection a 3\n",
    b"\xef\xbb\xbfsection a 3\n",
    b"\x00section a 3\n",
    b"> section a 3\n",
    b"SECTION a 3\n",
    b"Section a 3\n",
    b"sEcTiOn a 3\n",
    b"section\r\n",
    b"section a\r\n",
    b"section a 3\r\r\n",
    b"section a 3 \r\n",
    b"section\ra\r3\n",
    b"sectiona 3\n",
    b"sections a 3\n",
    b"section:a 3\n",
    b"section\xc2\xa0a 3\n",
]

# Heads of the right form: their text is too short, or there is too much of it.
SHORT = [b"section a 4\n", b"section a 9999999999\n"]

OTHERS = [
    b" \n",
    b"\t\n",
    b"\r\r\n",
    b"nonsense\n",
    b"module\n",
    b"module c\n",
    b"module c 0000000g\n",
    b" module c 00000001\n",
    b"Module c 00000001\n",
    b"build\n",
    b"build a b\n",
    b"call a () \n",
    b"call a 1 void f()\n",
    b"budget\n",
    b"budget 99999999999\n",
    b"bind a 0 b\n",
    b"unbind a x\n",
    b"discard \n",
    b"used 1\n",
    b"used \n",
    b" used\n",
    b"Used\n",
    b"used\r\r\n",
    b"trace 1\n",
    b"trace \n",
    b"Trace\n",
    b"check\n",
    b"check \n",
    b"check a b\n",
    b"list\n",
    b"list a \n",
    b"list  a\n",
    b"prepare\n",
    b"prepare a\n",
    b"prepare a \n",
    b"prepare  a void f()\n",
    b"run\n",
    b"run 0\n",
    b"run 0 \n",
    b"run 0 1\n",
    b"run 0 (1,)\n",
    b"run x ()\n",
    b"run -1 ()\n",
    b"run 4294967296 ()\n",
    b"run 00000000000 ()\n",
    b"run 0 () void f()\n",
    b"sect a 3\n",
    b"a section\n",
    b"\xff\xfe\n",
]

# Lines `limit`, of other forms and of the right one.
WRONG_LIMITS = [
    b"limit\n",
    b"limit \n",
    b"limit events\n",
    b"limit events \n",
    b"limit things 3\n",
    b"limit event 3\n",
    b"limit Events 3\n",
    b"Limit events 3\n",
    b"limits events 3\n",
    b" limit events 3\n",
    b"\xef\xbb\xbflimit events 3\n",
    b"limit\tevents 3\n",
    b"limit events\t3\n",
    b"limit  events 3\n",
    b"limit events  3\n",
    b"limit events 3 \n",
    b"limit events 3\t\n",
    b"limit events 3\r\r\n",
    b"limit events=3\n",
    b"limit 3 events\n",
    b"limit objects 3 4\n",
    b"limit events 3 # of all\n",
    b"limit events x\n",
    b"limit events -1\n",
    b"limit events -0\n",
    b"limit events +1\n",
    b"limit events 1u\n",
    b"limit events 0x1\n",
    b"limit events 1.0\n",
    b"limit events 1e3\n",
    b"limit events 1,000\n",
    b"limit events 3\x00\n",
    b"limit events none\n",
    b"limit slots 9223372036854775808\n",
    b"limit slots 9999999999999999999\n",
    b"limit slots 18446744073709551615\n",
    b"limit slots 18446744073709551616\n",
    b"limit slots 00000000000000000001\n",
]
RIGHT_LIMITS = [
    b"limit events 0\n",
    b"limit events 3\n",
    b"limit events 3\r\n",
    b"limit slots 2147483648\n",
    b"limit slots 4294967296\n",
    b"limit objects 9223372036854775807\n",
    b"limit objects 0000000000000000000\n",
    b"limit objects 0000000000000000003\n",
]

# Questions of the right form that are refused, and why.
QUESTIONS = [
    (b"check c\n", b"NoModule"),
    (b"list c\n", b"NoModule"),
    (b"list a\n", b"NotBuilt"),
    (b"list a\r\n", b"NotBuilt"),
    (b"prepare c void f()\n", b"NoModule"),
    (b"prepare a void f()\n", b"NotBuilt"),
    (b"prepare a no declaration\n", b"NotBuilt"),
    (b"run 0 ()\n", b"NoFunction"),
    (b"run 0000000000 (1,2u,true)\n", b"NoFunction"),
    (b"run 4294967295 ()\n", b"NoFunction"),
]


def said(program, text, registered=b""):
    """What asremote prints to a text, after a profile, and its status."""
    with tempfile.NamedTemporaryFile() as profile:
        profile.write(registered)
        profile.flush()
        ran = subprocess.run([program, "--profile", profile.name], input=text, stdout=subprocess.PIPE, timeout=60)
    return ran.stdout, ran.returncode


def conversations():
    """Lines that are said, each with what asremote prints and its status."""
    ended = (b"done\nok\ndone\nline 2 BadLine\n", 2)
    on = (b"done\nok\ndone\nrefused BadLine\ndone\nok\ndone\nok\ndone\nok\ndone\n", 1)
    done = (b"done\nok\ndone\nok\ndone\nok\ndone\nok\ndone\nok\ndone\n", 0)
    told = (b"done\nok\ndone\nticks 0\nslots 0\nobjects 0\nok\ndone\nok\ndone\nok\ndone\nok\ndone\n", 0)
    refused = lambda why: (b"done\nok\ndone\nrefused %s\ndone\nok\ndone\nok\ndone\nok\ndone\n" % why, 1)  # noqa: E731
    long = (b"done\nok\ndone\nline 0 TooLong\n", 2)
    rows = [(line, ended) for line in HEADERS + SHORT] + [(line, on) for line in OTHERS + WRONG_LIMITS]
    rows += [(line, done) for line in RIGHT_LIMITS] + [(line, told) for line in (b"used\n", b"used\r\n")]
    rows += [(line, done) for line in (b"trace\n", b"trace\r\n", b"check a\n", b"check a\r\n")]
    rows += [(line, refused(why)) for line, why in QUESTIONS]
    return rows + [(b"x" * 16_777_216 + b"\n", long), (b"section a 1\n" + b"x" * 16_777_216 + b"\n", long)]


def profiles():
    """Lines that stand in a profile, likewise."""
    refused = (b"profile 2 BadLine\n", 2)
    rows = [(line, refused) for line in WRONG_LIMITS + [b"used\n"]]
    return rows + [(line, (b"done\n", 0)) for line in RIGHT_LIMITS]


def main():
    program, bad = sys.argv[1], 0
    rows = [(line, wanted, said(program, FIRST + line + BEHIND)) for line, wanted in conversations()]
    rows += [(line, wanted, said(program, b"", b"type T 0\n" + line)) for line, wanted in profiles()]
    for line, wanted, got in rows:
        if got != wanted:
            bad += 1
            print(f"after {line[:60]!r} it says {got[0][-200:]!r}, and ends with the status {got[1]}")
    print(f"{len(rows)} lines, {bad} taken otherwise than said")
    sys.exit(1 if bad else 0)


main()
