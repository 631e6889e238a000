#!/usr/bin/env python3
"""Tries tools/play.py with strange files, hosts and engines, in the shell, and on a terminal.

    trials/play/strange.py ASREMOTE

Prints each trial that went wrong, with what was printed, and how many there were. The status is 0 where all went well.
"""

import json
import os
import pty
import select
import signal
import subprocess
import sys
import tempfile
import time

HERE = os.path.dirname(os.path.abspath(__file__))
PLAY = [sys.executable, os.path.join(HERE, "..", "..", "tools", "play.py"), "--engine"]
SECONDS = 120  # that a run may take
SPIN = "void spin() { while (true) {} }\n"
ASKS = "void ask() { print(1); }\n"
COUNTS = "int n = 0;\nint next() { n++; return n; }\n"
IMPORTS = 'import int sum(int a, int b) from "main"; import int next() from "main"; int five() { return sum(3, 2) + next(); }\n'
LATE = """#!/bin/sh
echo done
while read -r line; do
    case $line in call*) echo 'host half a rep'; exit 7 ;; section*) read -r line ;; esac
    echo ok; echo done
done
"""
KILLS = """import os, signal
def print(number):
    for line in os.popen(f"ps -o pid=,comm= --ppid {os.getpid()}").read().splitlines():
        process, program = line.split(None, 1)
        if program not in ("sh", "ps"):
            os.kill(int(process), signal.SIGKILL)
"""
SLOW = "import time\ndef print(number):\n    time.sleep(60)\n"


class Trials:
    """A folder of files, and what went wrong so far."""

    def __init__(self, engine, folder):
        self.engine, self.folder = engine, folder
        self.count = self.wrong = 0

    def file(self, name, data):
        path = os.path.join(self.folder, name)
        with open(path, "wb") as file:
            file.write(data.encode() if isinstance(data, str) else data)
        return path

    def words(self, *words, engine=None):
        return [*PLAY, engine or self.engine, *words]

    def judge(self, name, said, status, wanted, wanted_status, unwanted=()):
        """Whether a run said what was wanted, in that order, and none of what was not."""
        self.count += 1
        at, missing = 0, []
        for text in wanted:
            found = said.find(text, at)
            if found < 0:
                missing.append(text)
            else:
                at = found + len(text)
        missing += [f"not {text!r}" for text in (*unwanted, "Traceback") if text in said]
        if missing or status != wanted_status:
            self.wrong += 1
            print(f"--- {name}: status {status}, missing {missing}\n{said}")

    def judge_terminal(self, name, terminal, wanted, wanted_status):
        """Judges a run on a terminal, once it has ended."""
        status = terminal.end()
        self.judge(name, terminal.said, status, wanted, wanted_status)

    def run(self, name, words, wanted, status, typed="", engine=None, unwanted=()):
        words = self.words(*words, engine=engine)
        ran = subprocess.run(words, input=typed.encode(), stdout=subprocess.PIPE, stderr=subprocess.STDOUT, cwd=HERE, timeout=SECONDS)
        self.judge(name, ran.stdout.decode("utf-8", "replace"), ran.returncode, wanted, status, unwanted)


class Terminal:
    """A run on a terminal of its own."""

    def __init__(self, words):
        self.said = ""
        self.pid, self.file = pty.fork()
        if self.pid == 0:
            os.environ["TERM"] = "xterm"
            os.chdir(HERE)
            os.execv(words[0], words)

    def wait(self, text):
        """Waits until a text was printed after what was waited for before."""
        at, until = len(self.said), time.monotonic() + SECONDS
        while text not in self.said[at:] and time.monotonic() < until:
            if not self._read(1.0):
                return

    def _read(self, seconds):
        if not select.select([self.file], [], [], seconds)[0]:
            return True
        try:
            data = os.read(self.file, 1 << 16)
        except OSError:
            data = b""
        self.said += data.decode("utf-8", "replace")
        return bool(data)

    def type(self, text):
        os.write(self.file, text.encode())

    def end(self):
        while self._read(1.0):
            pass
        return os.waitstatus_to_exitcode(os.waitpid(self.pid, 0)[1])


def files(trials):
    """Files that aren't there, or are no text."""
    run, file = trials.run, trials.file
    run("no script", ["none.as"], ["none.as: error: No such file or directory"], 2)
    run("a folder", [trials.folder], ["error: Is a directory"], 2)
    run("no profile", ["right.as", "--profile", "none"], ["none: error: No such file or directory"], 2)
    run("no host file", ["right.as", "--host", "none.py"], ["none.py: error: No such file or directory"], 2)
    run("endless", ["/dev/zero"], ["/dev/zero:1:1: error", "[TooLong]"], 1)
    run("a long token", [file("long.as", "int " + "a" * 256 + ";")], ["long.as:1:5: error", "[TooLong]"], 1)
    run("empty", [file("empty.as", "")], ["built"], 0)
    run("no UTF-8 in a comment", [file("l1.as", b"int a; // caf\xe9\n")], ["built"], 0)
    latin = file("l2.as", b"/* \xe9\xe8 */\tint a = b;")
    run("no UTF-8 before an error", [latin], ["l2.as is not UTF-8: line 1, column 4 has the byte 0xe9", "l2.as:1:18: error", "\n      |" + " " * 21 + "^"], 1)
    run("no UTF-8 at the error", [file("l3.as", b"int a;\n\xff")], ["l3.as:2:1: error", "outside of comments a script is ASCII"], 1)
    steering = file("steers.as", "/* \x1b[31m\u202e */ int a = b;\r\n")
    run("what steers a terminal", [steering], ["steers.as:1:24: error"], 1, unwanted=["\x1b", "\u202e", "\r"])
    named = file("st\x1beers.as", "int a = b;")
    run("a name that steers a terminal", [named], ["eers.as:1:9: error"], 1, unwanted=["\x1b"])
    run("a byte order mark", [file("bom.as", "\ufeffint a = b;")], ["bom.as:1:12: error", "    1 | int a = b;\n      |         ^"], 1)


def profiles(trials):
    """Lines that are no lines of a profile, or are refused."""
    run, file = trials.run, trials.file
    bad = file("bad.profile", "# one\nfunctoin 0 0 void f()\n")
    run("a line of no form", ["right.as", "--profile", bad], ["bad.profile:2: error: 'functoin' begins no line"], 2)
    half = file("half.profile", "mask 3\n")
    run("half a mask", ["right.as", "--profile", half], ["half.profile:1: error: wanted here: mask MASK"], 2)
    twice = file("twice.profile", "# one\r\nfunction 0 0 void f()\r\n\r\nfunction 0 1 void f()\r\n")
    run("a refused line", ["right.as", "--profile", twice], ["twice.profile:4: error: the name is taken [Duplicate]"], 2)
    other = file("other.profile", "type T 99\n")
    run("a driver above 63", ["right.as", "--profile", other], ["other.profile:1: error", "[WrongDriver]"], 2)
    run("no text", ["right.as", "--profile", file("no.profile", b"\xff")], ["no.profile: error: the profile is not UTF-8"], 2)
    limits = file("limits.profile", "limit events 5\nlimit objects 10\n")
    run("limits that leave no room", ["right.as", "--profile", limits], ["a limit of 5 events is taken up"], 2)
    blank = file("blank.profile", "blank\nfunction 3 9 /* so */ void\tprint(\tint64 )\nblank\n")
    run("blanks, comments and tabs", [file("asks.as", ASKS), "--profile", blank, "--call", "ask()"], ["host print(1)", "void ask(): ok, 1 tick"], 0)


def engines(trials):
    """Engines that aren't there, are none, or end; and scripts that don't."""
    run, file = trials.run, trials.file
    run("no engine", ["right.as"], ["none: error: the engine can't be started"], 2, engine="none")
    run("no engine's program", ["right.as"], ["true: error: this does not answer as an engine"], 2, engine="/bin/true")
    late = file("late", LATE)
    os.chmod(late, 0o755)
    spin = file("spin.as", SPIN)
    run("an engine that ends in a call", [spin, "--call", "void spin()"], ["built", "engine: error: the engine ended with the status 7"], 3, engine=late)
    run("one that never ends", [spin, "--call", "spin()"], ["fault Budget", "1000000 ticks"], 1)
    words = [spin, "--call", "spin()", "--budget", "2147483647", "--timeout", "0.5"]
    run("a timeout", words, ["engine: error: a command took longer than the timeout, 0.5 seconds"], 3)
    run("no budget", [spin, "--budget", "0"], ["refused", "[BadBudget]"], 1)
    asks = [file("asks.as", ASKS), "--profile", "host.profile", "--call", "ask()", "--host"]
    run("an engine that is killed", [*asks, file("kills.py", KILLS)], ["engine: error: the engine ended with the status -9"], 3)
    run("a host file that raises", [*asks, file("raises.py", "\n1 / 0\n")], ["raises.py:2: ZeroDivisionError"], 2)
    run("a host file of no Python", [*asks, file("no.py", "def\n")], ["no.py:1: SyntaxError"], 2)
    leaves = file("leaves.py", "import sys\ndef print(number): sys.exit(3)\n")
    run("a host that leaves", [*asks, leaves], ["raised SystemExit", "fault Host 1", "leaves.py:2: SystemExit: 3"], 1)
    wrong = file("wrong.py", "def sum(a, b): return 'many'\n")
    adds = file("adds.as", "int64 add() { return sum(1, 2); }")
    words = [adds, "--profile", "host.profile", "--call", "add()", "--host", wrong]
    run("a host that gives text", words, ["sum(1, 2) -> 'many'", "fault Host 1", "cause: "], 1)
    big = file("big.py", "def sum(a, b): return 2 ** 63\n")
    run("a host that gives too much", [*words[:-1], big], ["fault Host 1", "cause: "], 1)


def calls(trials):
    """Calls that can't be made."""
    counts = trials.file("counts.as", COUNTS)
    calls = ["none()", "next(1)", "int none()", "(1) int next()", "int\nnext()", "", "(", "section a 1"]
    words = [counts, *(it for text in calls for it in ("--call", text))]
    wanted = ["no function 'none'", "no function 'next' with 1", "[NoFunction]", "[BadArguments]", "int next() = 1: ok"]
    trials.run("calls", words, wanted, 1)


def shell(trials):
    """What is typed, without a terminal."""
    run, file = trials.run, trials.file
    typed = COUNTS + ":call next()\n:call next()\nint bad() { return m; }\n:call next()\n:events\n"
    wanted = ["int next() = 1", "int next() = 2", "typed 3:1:20: error", "without typed 3", "int next() = 1", "there were none"]
    run("sections and calls", [], wanted, 0, typed)
    typed = "int f()\n{\n  return 1; // }\n}\n:call f()\nint g(\n\n:call f()\n"
    run("more sections than may wait", [], ["[Limit]", "without typed 65", "int a() = 1"], 0, "int a() { return 1; }\n" + ";\n" * 64 + ":call a()\n")
    run("lines that belong together", [], ["int f() = 1", "[Syntax]", "int f() = 1"], 0, typed)
    typed = COUNTS + ":module b 2\nimport int next() from \"main\";\nint two() { return next() + 1; }\n:call two()\n:bind 0 main int next()\n:call two()\n"
    wanted = ["fault Unbound", "b's import 0, int next(), is bound to int next() of main", "int two() = 2: ok, 2 ticks"]
    run("two modules", [], wanted, 0, typed)
    binds(trials)
    typed = "void give() { grant(1, 2); }\n:mask 3\nvoid give() { grant(1, 2); }\n:call give()\n"
    run("a mask", ["--profile", "host.profile"], ["registered under 00000002", "under the mask 00000003", "host grant(1, 2)"], 0, typed)
    path = file("changes.as", COUNTS)
    typed = f":load {path}\n:call next()\n:reload\n:call next()\n:load none.as\n:discard\n:call next()\n:mask\n:bind\n:nothing\n\xff\n:quit\nint x;\n"
    wanted = ["next() = 1", "next() = 1", "none.as: No such file", "no module 'main'", "no mask", "wanted: :bind", "no command"]
    run("reload", [], wanted, 0, typed, unwanted=["typed 2"])
    typed = ASKS + ":call ask()\n:call ask()\n"
    words = ["--profile", "host.profile", "--host", file("kills.py", KILLS)]
    run("an engine that is killed", words, ["status -9; another engine", "built", "status -9; another engine"], 0, typed)
    typed = "int three() { Cell a(1); Cell b(2); Cell c(3); return 1; }\n:call three()\n:limits objects=3\n:call three()\n:limits objects=20000\n"
    wanted = ["held: 4 of 10000 events, 0 of 100000 slots, 0 of 2 objects", "objects: 3, 0 held", "three() = 1", "a limit of 10000 events"]
    run("limits", ["--profile", "host.profile"], wanted, 0, typed)


def binds(trials):
    """Imports that are named by their declarations; :reload binds them again."""
    typed = COUNTS + "int sum(int n, int m) { return n + m; }\nint less(int n, int m) { return n - m; }\n:module b 2\n" + IMPORTS
    typed += ":imports\n:bind int sum(int, int) from main\n:bind 1 main\n:call five()\n:imports\n:bind int none() main\n:bind 2 main\n"
    typed += ":bind import int sum( int n, int m ) from \"main\";\n:bind int sum(int, int) main int less(int, int)\n:call five()\n"
    typed += ":bind int next() none\n:bind int next(\n:reload\n:call five()\n"
    wanted = ["0 int sum(int", "not bound", "1 int next(): not bound", "b's import 0", "b's import 1", "int five() = 6: ok"]
    wanted += ["int sum(int", " of main", "1 int next(): int next() of main", "no such import [NoImport]", "no such import [NoImport]"]
    wanted += ["b's import 0", "b's import 0", "int five() = 3: ok", "no module of this name [NoModule]", "wanted: :bind"]
    trials.run("imports", [], [*wanted, "b's import 0", "b's import 1", "int five() = 2: ok"], 0, typed)


def machines(trials):
    """JSON, and streams that end."""
    words = trials.words("bodies.as", "right.as", "--profile", "host.profile", "--json")
    ran = subprocess.run(words, stdout=subprocess.PIPE, cwd=HERE, timeout=SECONDS)
    told = [json.loads(line) for line in ran.stdout.decode().splitlines()]
    errors = [it for it in told if it["event"] == "error"]
    wanted = ['"line": 9, "column": 2, "character": 1, "kind": "NoDefault"', '"entry": "void grant(int64, int64)", "mask": "00000002"']
    trials.judge("JSON", json.dumps(errors), ran.returncode, wanted, 1)
    words = " ".join(f"'{it}'" for it in trials.words("bodies.as", "--profile", "host.profile"))
    ran = subprocess.run(["/bin/sh", "-c", f"{words} | head -1"], stdout=subprocess.PIPE, stderr=subprocess.STDOUT, cwd=HERE)
    trials.judge("a pipe that ends", ran.stdout.decode(), ran.stdout.count(b"\n"), ["bodies.as:9:2: error"], 1)
    plain = {**os.environ, "LC_ALL": "C", "PYTHONUTF8": "0", "PYTHONIOENCODING": "ascii"}
    ran = subprocess.run(trials.words("quotes.as"), stdout=subprocess.PIPE, stderr=subprocess.STDOUT, cwd=HERE, env=plain)
    trials.judge("a stream of ASCII", ran.stdout.decode(), ran.returncode, ["quotes.as:2:24: error"], 1)


def terminals(trials):
    """Colours and Ctrl-C."""
    terminal = Terminal(trials.words("floats.as"))
    trials.judge_terminal("colours", terminal, ["\x1b[31merror\x1b[0m"], 1)
    spin = [trials.file("spin.as", SPIN), "--budget", "2147483647"]
    terminal = Terminal(trials.words(*spin, "--call", "spin()"))
    terminal.wait("built")
    time.sleep(1)
    terminal.type("\x03")
    trials.judge_terminal("Ctrl-C in a run", terminal, ["built", "stopped"], 130)
    slow = ["--profile", "host.profile", "--host", trials.file("slow.py", SLOW), "--call", "ask()"]
    terminal = Terminal(trials.words(trials.file("asks.as", ASKS), *slow))
    terminal.wait("built")
    time.sleep(1)
    terminal.type("\x03")
    trials.judge_terminal("Ctrl-C in the host", terminal, ["stopped"], 130)
    terminal = Terminal(trials.words(*spin, "--shell"))
    typed_and_stopped(terminal)
    trials.judge_terminal("Ctrl-C in the shell", terminal, ["stopped", "built", "int one() = 1"], 0)


def typed_and_stopped(terminal):
    """Types, and presses Ctrl-C in a call, at the prompt, and in a section."""
    terminal.wait("main> ")
    terminal.type(":call spin()\r")
    time.sleep(2)
    terminal.type("\x03")
    terminal.wait("main> ")
    terminal.type("\x03")
    terminal.wait("main> ")
    terminal.type("int half(\r")
    terminal.wait("... ")
    terminal.type("\x03")
    terminal.wait("main> ")
    terminal.type("int one() { return 1; }\r")
    terminal.wait("main> ")
    terminal.type(":call one()\r")
    terminal.wait("tick")
    terminal.type(":quit\r")


def watching(trials):
    """Files that change while it waits, without and with the shell."""
    path = trials.file("watched.as", "int a() { return 1; }")
    for more in ([], ["--shell"]):
        trials.file("watched.as", "int a() { return 1; }")
        terminal = Terminal(trials.words(path, "--watch", "--call", "a()", *more))
        terminal.wait("int a() = 1")
        time.sleep(1)
        trials.file("watched.as", "int a() { return 22; }")
        terminal.wait("a file has changed")
        if more:
            terminal.type(":call a()\r")
        terminal.wait("int a() = 22")
        terminal.type("\x04" if more else "\x03")
        trials.judge_terminal(f"watch {more}", terminal, ["a() = 1", "changed", "built", "a() = 22"], 0 if more else 130)


def main():
    signal.signal(signal.SIGINT, signal.default_int_handler)
    with tempfile.TemporaryDirectory() as folder:
        trials = Trials(os.path.abspath(sys.argv[1]), folder)
        for part in (files, profiles, engines, calls, shell, machines, terminals, watching):
            part(trials)
    print(f"{trials.count} strange trials, of which {trials.wrong} went wrong")
    return trials.wrong != 0


if __name__ == "__main__":
    sys.exit(main())
