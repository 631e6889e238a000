#!/usr/bin/env python3
"""Kills the engines of a host, each at a random moment, and says whether the host went on.

    kill_at_random.py COUNT HOST..

HOST is the command of a host that ends once it has lost COUNT engines and the next one has worked (kills.py here and its
like). Each process that it starts is killed 1 to 1000 milliseconds after its start, of which each tenfold is as likely as
the next, up to COUNT of them: at the start, in a build, in a call, or between an ask and its answer. The status is that of
the host.
"""

import os
import random
import signal
import subprocess
import sys
import time

SECONDS = 300  # that a host may take


def children(pid):
    """The processes that a process started and has not waited for."""
    found = []
    for thread in os.listdir(f"/proc/{pid}/task"):
        with open(f"/proc/{pid}/task/{thread}/children") as file:
            found += map(int, file.read().split())
    return found


def main():
    count, dice = int(sys.argv[1]), random.Random(1)
    host = subprocess.Popen(sys.argv[2:])
    killed, deadline = set(), time.monotonic() + SECONDS
    while host.poll() is None and len(killed) < count and time.monotonic() < deadline:
        try:
            new = [pid for pid in children(host.pid) if pid not in killed]
        except FileNotFoundError:
            continue
        for pid in new[:1]:
            time.sleep(0.001 * 1000 ** dice.random())
            os.kill(pid, signal.SIGKILL)
            killed.add(pid)
    try:
        status = host.wait(max(1.0, deadline - time.monotonic()))
    except subprocess.TimeoutExpired:
        host.kill()
        status = host.wait()
    print(f"{len(killed)} engines killed, the host ended with the status {status}")
    return status != 0 or len(killed) != count


if __name__ == "__main__":
    sys.exit(main())
