"""A host in Python with functions that are posted.

    posts.py ASREMOTE [LIBRARY]

Prints what stands in posts.expected.
"""

import operator
import os
import sys
from typing import Callable, List, Optional

sys.path.insert(0, os.path.join(os.path.dirname(os.path.abspath(__file__)), "..", "..", "clients", "python"))
from bustlebrick import Engine, Fault, Profile, Refused  # noqa: E402

SCRIPT = """\
int64 mixed(int64 n) {
  int64 wrong = 0;
  for (int64 i = 0; i < n; i++) {
    say(i);
    say(i + n);
    if (last() != i + n) wrong++;
  }
  return wrong;
}
void many(int64 n) { for (int64 i = 0; i < n; i++) say(i); }
int64 behind() { say(7); return sum(40, 2); }
int64 blamed() { bad(); say(7); return last(); }
void kinds() {
  Thing a(7);
  Thing@ none;
  uint64 big = 0;
  big -= 1;
  note(a, true, 200, big, -5);
  note(none, false, 0, 0, 127);
  ping();
  note(a, false, 1, 2, 3);
}
"""
program, library = sys.argv[1], (sys.argv[2:] or [None])[0]


class Thing:
    def __init__(self, number: int) -> None:
        self.number = number


def bad() -> None:
    raise Fault(9)


def noted(notes: List[str]) -> Callable[..., None]:
    """Notes the number of a thing, if there is one, and values of other types."""
    def note(thing: Optional[Thing], truth: bool, *numbers: int) -> None:
        notes.append(" ".join(map(str, (thing.number if thing else "none", "yes" if truth is True else "no", *numbers))))

    return note


def main() -> None:
    said: List[int] = []
    notes: List[str] = []
    profile = Profile()
    profile.posted("void say(int64)", said.append)
    profile.function("int64 last()", lambda: said[-1])
    profile.posted("void bad()", bad)
    profile.function("int64 sum(int64, int64)", operator.add)
    thing = profile.type("Thing")
    thing.factory("Thing@ f(int)", Thing)
    thing.posted("void note(Thing@+, bool, uint8, uint64, int8)", noted(notes))
    profile.posted("void ping()", lambda: notes.append("ping"))
    with Engine(profile, program, library=library) as engine:
        module = engine.module("m", 1)
        module.section(SCRIPT)
        if not module.build().ok:
            print("the script is not built")
        if module.call("int64 behind()") != 42:
            print("what is asked behind the first post has other values")
        wrong = module.call("int64 mixed(int64)", 1000)
        print(f"1000 times two posts and an ask: {wrong} out of order")
        said.clear()
        module.call("void many(int64)", 5000)
        print(f"5000 posts: {len(said)} heard, the last {said[-1]}")
        print(f"after a fault of what is posted: {module.call('int64 blamed()')}")
        reply = engine.command("call m () int64 blamed()")
        if not isinstance(reply.cause, Fault):
            print(f"the cause is {reply.cause}")
        module.call("void kinds()")
        print(f"posts of all types: {', '.join(notes)}")
    profile.posted("int64 three()", lambda: 3)
    try:
        Engine(profile, program, library=library).close()
        print("posted with a result: taken")
    except Refused as refusal:
        print("posted with a result: " + ("refused" if "NotVoid" in str(refusal) else str(refusal)))


main()
