"""Runs processes and measures them, for the other programs of this folder."""

import os
import resource
import subprocess

GNU_TIME = "/usr/bin/time"
SECONDS = 120  # of processor time, after which a process that is measured is ended
LINE = 4096  # bytes, which no last line is longer than


def resources(words, output):
    """The processor time of a command from its start to its end, the system's part included, and the most memory that it had, in
    millions of bytes. What it prints goes to a file."""
    with open(output, "wb") as out:
        child = subprocess.Popen(words, stdout=out, stderr=subprocess.STDOUT)
        _, status, used = os.wait4(child.pid, 0)
        child.returncode = os.waitstatus_to_exitcode(status)
    return used.ru_utime + used.ru_stime, used.ru_maxrss * 1024 / 1e6


def processor_seconds(words, output):
    """The processor time of a command from its start to its end, the system's part included. What it prints goes to a file."""
    return resources(words, output)[0]


def measured(words, output, said):
    """The processor time of a command, as above, the bytes that are resident at most, and its status, which is above 128 after a signal.
    GNU time starts it, since a child's figure has that of its parent in it, and writes the bytes into the file `said`."""

    def limit():
        resource.setrlimit(resource.RLIMIT_CPU, (SECONDS, SECONDS))

    with open(output, "wb") as out:
        child = subprocess.Popen(
            [GNU_TIME, "-q", "-f", "%M", "-o", said, *words], stdout=out, stderr=subprocess.STDOUT, preexec_fn=limit
        )
        _, status, used = os.wait4(child.pid, 0)
        child.returncode = os.waitstatus_to_exitcode(status)
    return used.ru_utime + used.ru_stime, 1024 * int(lines_of(said)[-1]), child.returncode


def run_session(asrun, folder, session="session"):
    """Runs a session of a folder over its `profile`; the seconds, and the lines that are printed."""
    words = [asrun, "--profile", f"{folder}/profile", "--session", f"{folder}/{session}"]
    seconds = processor_seconds(words, f"{folder}/printed")
    return seconds, lines_of(f"{folder}/printed")


def last_line(path):
    """The last line of a file that ends with a newline, however long the file is."""
    with open(path, "rb") as file:
        file.seek(max(0, os.path.getsize(path) - LINE))
        return (file.read().decode().splitlines() or [""])[-1]


def lines_of(path):
    with open(path) as file:
        return file.read().splitlines()


def write(folder, texts):
    """Writes the texts into a folder, each by its file's name."""
    os.makedirs(folder, exist_ok=True)
    for name, text in texts.items():
        with open(f"{folder}/{name}", "w", newline="\n") as file:
            file.write(text)
