#!/usr/bin/env python3
"""Tries scripts by hand: what is wrong with them, what they ask of their host, and what they give.

    python3 tools/play.py [SCRIPT..] [--profile PROFILE] [--mask MASK] [--call CALL]..
                          [--host FILE] [--engine PATH] [--shell] [--watch] [--json]
    python3 tools/play.py --web [SCRIPT..] [--profile PROFILE] [--mask MASK] [--engine PATH] [--port PORT]

SCRIPT is a file of script, each a section of one module. PROFILE says what the host registers, and how much scripts may
hold (docs/FORMATS.md, "Profile"). The module's mask is MASK, 00000001 if none is named. Each CALL is then made in order:
`int main()`; `sum(2, 40)`, of which the declaration is looked up in the script; or `(2,40) int64 sum(int64, int64)`.

An error is told with its file, line and column (in bytes), the line, a caret, a sentence, and hints where there are some.
Each host call is told as it happens, each end of an object after its command, and the ticks of each call. After a fault
come the functions that were running, the innermost first, each with its line. PATH is the engine's program, asremote,
which else the shell's PATH has.

Host calls are answered with 0, false, null or a new object. With FILE, a Python file, they are answered by what it
defines: a function or a class of the name of the host's function or type, a name or a function of that of a global
property, methods and attributes of the objects. It raises a fault of its own by `raise bustlebrick.Fault(7)`; any other
exception is the fault 1, which is told with its line.

Without SCRIPT, or with --shell, lines are read: script, and commands (`:help` lists them). With --watch all is done again
when a file changes. With --json each happening is a JSON object on a line; `column` counts bytes from 1, and `character`
characters from 0.

With --web it serves a page, on this machine alone, and prints its link: who sees what under which mask, editors with
errors and denials, calls with their events, and all of it as a profile and a session that asrun runs to the same lines.
Host calls are answered there by drivers as asrun has them, or with 0, false, null and new objects. It begins with the
profile and the script that are named, or with a sample.

The status is 0 where all was done, 1 where a build or a call was refused or ended with a fault, 2 where a file, an option
or the engine is wrong, 3 where the engine ended or took too long, and 130 after Ctrl-C.
"""

import argparse
import os
import sys
import time
from typing import Any, List, Optional

sys.dont_write_bytecode = True
sys.path.append(os.path.join(os.path.dirname(os.path.abspath(__file__)), os.pardir, "clients", "python"))
from bustlebrick import CommandTimeout, EngineLost, Refused  # noqa: E402
from playing import commands  # noqa: E402
from playing.answers import BadHost  # noqa: E402
from playing.declared import NotCalled, call_of  # noqa: E402
from playing.operations import Beginning  # noqa: E402
from playing.printing import printer  # noqa: E402
from playing.shell import Shell, changed_at, mask_of, read_source  # noqa: E402
from playing.sources import Source  # noqa: E402
from playing.stage import PROGRAM, CantStart, Options, Stage, read_profile_text  # noqa: E402
from playing.web import serve  # noqa: E402

DONE, NOT_DONE, WRONG, LOST, STOPPED = 0, 1, 2, 3, 130
MODULE = "main"
BUDGET = 1_000_000


def arguments() -> argparse.Namespace:
    words = argparse.ArgumentParser(usage="play.py [SCRIPT..] [OPTIONS]", epilog="The top of the file says more.")
    words.add_argument("scripts", nargs="*", metavar="SCRIPT", help="a file of script; none of them opens the shell")
    words.add_argument("--profile", help="the file that says what the host registers")
    words.add_argument("--mask", default="1", help="the module's mask, of up to eight hexadecimal digits (00000001)")
    words.add_argument("--call", action="append", default=[], help="a call, as 'int main()'; may be given again")
    words.add_argument("--host", metavar="FILE", help="the Python file that answers host calls")
    words.add_argument("--engine", metavar="PATH", help="the program asremote")
    words.add_argument("--budget", type=int, default=BUDGET, help="the ticks that a build or a call may take (1000000)")
    words.add_argument("--timeout", type=float, help="the seconds that it may take (60; 10 with --web)")
    words.add_argument("--shell", action="store_true", help="goes on with the shell")
    words.add_argument("--watch", action="store_true", help="does it again when a file changes")
    words.add_argument("--web", action="store_true", help="serves a page on this machine")
    words.add_argument("--port", type=int, default=0, help="the port of the page (any)")
    words.add_argument("--json", action="store_true", help="prints a JSON object for each happening")
    given = words.parse_args()
    apart = given.shell or given.watch or given.json or given.call or given.host or given.budget != BUDGET
    if given.web and apart:
        words.error("--web goes with scripts, --profile, --mask, --engine, --timeout and --port alone")
    if given.timeout is None:
        given.timeout = 10.0 if given.web else 60.0
    return given


def options_of(given: argparse.Namespace) -> Options:
    return Options(given.engine, given.profile, given.host, given.budget, given.timeout)


def play(given: argparse.Namespace, sources: List[Source], stage: Stage) -> bool:
    """Builds the module, and makes the calls."""
    if not stage.module(MODULE, mask_of(given.mask)):
        return False
    stage.parts[MODULE].sources = sources
    if sources and not stage.build(MODULE):
        return False
    return all([call(stage, it) for it in given.call])


def call(stage: Stage, text: str) -> bool:
    """Makes the call that a text means."""
    try:
        return stage.call(MODULE, call_of(text, stage.functions(MODULE)))
    except NotCalled as wrong:
        stage.tell("wrong", where=text, message=str(wrong))
        return False


def play_once(given: argparse.Namespace, show: Any) -> int:
    """Does all that was asked for, and gives the status."""
    sources = [read_source(it) for it in given.scripts]
    stage = Stage(options_of(given), show.tell)
    try:
        done = play(given, sources, stage)
        if given.shell or not given.scripts:
            Shell(stage, MODULE).run(given.watch)
            return DONE
        return DONE if done else NOT_DONE
    finally:
        stage.close()


def show_page(given: argparse.Namespace) -> int:
    """Serves the page, which begins with what was named."""
    texts = [read_source(it).text for it in given.scripts]
    profile = read_profile_text(given.profile) if given.profile else "" if texts else None
    lines = [f"module {MODULE} {mask_of(given.mask):08x}", *(commands.section(MODULE, it) for it in texts)]
    lines += [f"build {MODULE}"] if texts else []
    session = "".join(f"{it}\n" for it in lines)
    serve(given.engine or PROGRAM, given.timeout, given.port, Beginning(profile, session))
    return DONE


def status_of(given: argparse.Namespace, show: Any) -> int:
    """The status of one time, where what goes wrong is told."""
    try:
        return show_page(given) if given.web else play_once(given, show)
    except CantStart:
        return WRONG
    except BrokenPipeError:
        raise
    except OSError as error:
        show.tell("wrong", where=error.filename or "play", message=error.strerror or str(error))
    except UnicodeDecodeError as error:
        show.tell("wrong", where=given.profile, message=f"the profile is not UTF-8: {error.reason} at byte {error.start}")
    except (BadHost, Refused, ValueError) as error:
        show.tell("wrong", where="play", message=str(error))
    except CommandTimeout as lost:
        show.tell("wrong", where="engine", message=f"{lost}, {given.timeout:g} seconds (--timeout)")
        return LOST
    except EngineLost as lost:
        show.tell("wrong", where="engine", message=str(lost))
        return LOST
    return WRONG


def wait_for_change(paths: List[Optional[str]], times: Any) -> None:
    while changed_at(paths) == times:
        time.sleep(0.5)


def play_on(given: argparse.Namespace, show: Any) -> None:
    """Does it each time that a file changes."""
    paths = [*given.scripts, given.profile, given.host]
    while True:
        times = changed_at(paths)
        status_of(given, show)
        wait_for_change(paths, times)
        show.tell("note", message="a file has changed")


def main() -> int:
    given = arguments()
    show = printer(given.json)
    try:
        if given.watch and given.scripts and not given.shell:
            play_on(given, show)
        return status_of(given, show)
    except KeyboardInterrupt:
        show.tell("note", message="stopped")
        return STOPPED
    except BrokenPipeError:
        os.dup2(os.open(os.devnull, os.O_WRONLY), sys.stdout.fileno())
        return NOT_DONE


if __name__ == "__main__":
    sys.exit(main())
