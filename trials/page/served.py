"""A server of the page, started as its user starts it."""

import http.client
import json
import os
import subprocess
import sys

from browser import SECONDS

TOP = os.path.dirname(os.path.dirname(os.path.dirname(os.path.abspath(__file__))))
PLAY = os.path.join(TOP, "tools", "play.py")
SAMPLES = os.path.join(TOP, "tools", "playing", "samples")


class Served:
    """A server, with its link. In a `with` it is ended afterwards."""

    def __init__(self, asremote, *words):
        told = [sys.executable, PLAY, "--web", "--engine", asremote, *words]
        self.process = subprocess.Popen(told, stdout=subprocess.PIPE, text=True)
        self.link = self.process.stdout.readline().split()[-1]
        self.address = self.link.split("/")[2]
        self.port, self.path = int(self.address.partition(":")[2]), "/" + self.link.split("/")[3] + "/"

    def __enter__(self):
        return self

    def __exit__(self, *_):
        self.process.terminate()
        self.process.wait(20)
        self.process.stdout.close()

    def asked(self, method, path, body=None, **headers):
        """The status and the answer of a request, of which some headers are as they are said; None leaves one out."""
        talk = http.client.HTTPConnection("127.0.0.1", self.port, timeout=SECONDS)
        sent = {"Host": self.address, "Content-Type": "application/json", **{k.replace("_", "-"): v for k, v in headers.items()}}
        talk.putrequest(method, path, skip_host=True, skip_accept_encoding=True)
        data = body if isinstance(body, bytes) else json.dumps(body).encode() if body is not None else b""
        for name, value in {"Content-Length": str(len(data)), **sent}.items():
            if value is not None:
                talk.putheader(name, value)
        talk.endheaders()
        try:
            talk.send(data)
        except OSError:
            pass  # it may have been refused before all of it was sent
        answer = talk.getresponse()
        return answer.status, answer.read(), dict(answer.getheaders())

    def engines(self):
        """The numbers of the engines' processes."""
        return children(self.process.pid)


def children(parent):
    """The processes that another one started."""
    found = []
    for name in filter(str.isdigit, os.listdir("/proc")):
        try:
            with open(f"/proc/{name}/stat", encoding="utf-8", errors="replace") as file:
                after = file.read().rpartition(")")[2].split()
        except OSError:
            continue
        if int(after[1]) == parent and after[0] != "Z":
            found.append(int(name))
    return found


def seconds_of(process):
    """The seconds of a processor that a process has taken so far."""
    with open(f"/proc/{process}/stat", encoding="utf-8", errors="replace") as file:
        after = file.read().rpartition(")")[2].split()
    return (int(after[11]) + int(after[12])) / os.sysconf("SC_CLK_TCK")


def sample(name):
    """The text of a file of the samples."""
    with open(os.path.join(SAMPLES, name), encoding="utf-8") as file:
        return file.read()
