"""Calls that ask the host until memory runs out, below limits of the process's memory.

Each time the call has an outcome, every host call that was made stands in its reply, and a next module builds and answers.
"""

import os
import re
import resource
import subprocess
import tempfile

MEMORY = [24, 28, 32, 40, 50, 64, 80, 100, 140, 200, 280, 400]  # MB, by `ulimit -v`
BUDGET = 2000000000
PROFILE = "mask 00000001\nglobal 0 0 int64 reg\n"
SCRIPTS = ["for(;;)reg+=reg+=reg;", "for(;;)reg+=1;"]


def commands(script):
    """The commands of a run. The last call of the first module tells what the host's property holds."""
    return [
        "module m 00000001\n",
        f"section m 1\nvoid f(){{{script}}} int64 now(){{return reg;}}\n",
        "build m\n",
        f"budget {BUDGET}\n",
        "call m () void f()\n",
        "call m () int64 now()\n",
        "module n 00000001\n",
        "section n 1\nint one(){return 1;}\n",
        "build n\n",
        "call n () int one()\n",
    ]


def limit_to(memory):
    resource.setrlimit(resource.RLIMIT_AS, (memory * 1000 * 1000, memory * 1000 * 1000))


class Reply:
    """What is seen of the lines of a reply: how many are host calls, the last value written, and the outcome."""

    def __init__(self):
        self.calls, self.reads, self.written, self.outcome = 0, 0, 0, None

    def take(self, line):
        found = re.fullmatch(rb"host m 0 0 - \((-?\d*)\) (void|memory|-?\d+)\n", line)
        if found:
            self.calls += 1
            self.reads += not found[1]
            self.written = int(found[1]) if found[1] else self.written
        elif re.match(rb"(ok|fault|refused)\b", line):
            self.outcome = line.decode().strip()
        else:
            self.outcome = f"another line: {line[:60]!r}"


def replies(lines):
    """The replies in what asrun printed."""
    found, reply = [], Reply()
    for line in lines:
        reply.take(line)
        if reply.outcome:
            found.append(reply)
            reply = Reply()
    return found


def run_asrun(program, script, memory):
    """The replies of asrun, its status, and how many host calls there were if that is known."""
    with tempfile.TemporaryDirectory() as folder:
        for name, text in (("profile", PROFILE), ("session", "".join(commands(script)))):
            with open(f"{folder}/{name}", "w", newline="\n") as out:
                out.write(text)
        words = [program, "--profile", f"{folder}/profile", "--session", f"{folder}/session"]
        with open(f"{folder}/printed", "w+b") as out:
            ran = subprocess.run(words, stdout=out, stderr=subprocess.DEVNULL, preexec_fn=lambda: limit_to(memory), env={})
            out.seek(0)
            return replies(out), ran.returncode, None


class Host:
    """The host of asremote: one property, which it keeps."""

    def __init__(self, process):
        self.process, self.value, self.asked, self.left = process, 0, 0, b""

    def lines(self):
        """The lines that the process says, as they come."""
        while True:
            piece = os.read(self.process.stdout.fileno(), 1 << 16)
            if not piece:
                return
            *whole, self.left = (self.left + piece).split(b"\n")
            for line in whole:
                yield line + b"\n"

    def answer(self, line):
        self.asked += 1
        if b" read " in line:
            return b"%d\n" % self.value
        self.value = int(line[line.index(b"(") + 1 : line.index(b")")])
        return b"void\n"

    def talk(self, said):
        """Says commands one after the other, and gives their replies and how many host calls each took."""
        found, counts, reply = [], [], Reply()
        said = iter([b"", *(it.encode() for it in said)])
        self.say(next(said))
        for line in self.lines():
            if line.startswith(b"ask "):
                self.say(self.answer(line))
            elif line == b"done\n":
                found.append(reply)
                counts.append(self.asked)
                reply, self.asked = Reply(), 0
                command = next(said, None)
                if command is None:
                    break
                self.say(command)
            else:
                reply.take(line)
        return found[1:], counts[1:]

    def say(self, text):
        if text:
            os.write(self.process.stdin.fileno(), text)


def run_asremote(program, script, memory):
    with tempfile.NamedTemporaryFile("w") as profile:
        profile.write(PROFILE)
        profile.flush()
        how = {"stdin": subprocess.PIPE, "stdout": subprocess.PIPE, "stderr": subprocess.DEVNULL, "bufsize": 0, "env": {}}
        process = subprocess.Popen([program, "--profile", profile.name], preexec_fn=lambda: limit_to(memory), **how)
        try:
            found, counts = Host(process).talk(commands(script))
        except BrokenPipeError:
            found, counts = [], []
        process.stdin.close()
        return found, process.wait(), counts


def wrong(found, status, counts, script):
    """What is wrong with the replies of a run; nothing where all is well."""
    if status not in (0, 1):
        return f"status {status} after {len(found)} replies"
    if len(found) != len(commands(script)):
        return f"{len(found)} replies to {len(commands(script))} commands"
    outcomes = [it.outcome for it in found]
    call, now = found[4], found[5]
    if outcomes[:4] != ["ok"] * 4 or outcomes[6:9] != ["ok"] * 3 or outcomes[9] != "ok 1":
        return f"answers {outcomes}"
    if outcomes[4] not in ("fault Memory", "fault Budget"):
        return f"the call ended by {outcomes[4]}"
    if now.outcome != f"ok {call.written}":
        return f"the host has {now.outcome}, and the last write that was listed is of {call.written}"
    if counts and [it.calls for it in found] != counts:
        return f"host calls {counts}, of which {[it.calls for it in found]} are listed"
    return None


RUNS = {"asrun": run_asrun, "asremote": run_asremote}


def tried(programs):
    """Each program, script and limit, with what is wrong, or nothing, and how many host calls were listed."""
    for program in programs:
        for script in SCRIPTS:
            for memory in MEMORY:
                found, status, counts = RUNS[os.path.basename(program)](program, script, memory)
                calls = found[4].calls if len(found) > 4 else 0
                yield (os.path.basename(program), script, memory), wrong(found, status, counts, script), calls
