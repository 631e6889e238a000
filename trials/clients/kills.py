"""A host in Python whose engines are killed by others: see kill_at_random.py.

    kills.py ASREMOTE COUNT

Ends once COUNT engines were lost and the next one has worked.
"""

import os
import sys

sys.path.insert(0, os.path.join(os.path.dirname(os.path.abspath(__file__)), "..", "..", "clients", "python"))
from bustlebrick import Engine, EngineLost, Module, Profile  # noqa: E402

SCRIPT = """\
Thing@ kept = Thing();
int64 work(int64 n) {
  for (int i = 0; i < 50; i++) { Thing t; n = next(n); }
  return n;
}
"""


class Thing:
    pass


def offered() -> Profile:
    profile = Profile()
    profile.function("int64 next(int64)", lambda n: n + 1)
    profile.type("Thing").factory("Thing@ f()", Thing)
    return profile


def built(engine: Engine) -> Module:
    module = engine.module("m", 1)
    module.section(SCRIPT)
    assert module.build().ok
    return module


def works(module: Module, n: int) -> None:
    assert module.call("int64 work(int64)", n) == n + 50
    assert len(module.engine.objects) == 1


def main() -> None:
    program, count = sys.argv[1], int(sys.argv[2])
    engine, lost = None, [0, 0, 0]  # while it started, was built in, and was called
    while sum(lost) < count:
        stage = 0
        try:
            if engine is None:
                engine = Engine(offered(), program)
            else:
                engine.restart()
            stage = 1
            module = built(engine)
            stage = 2
            while True:
                works(module, sum(lost))
        except EngineLost:
            lost[stage] += 1
    engine = engine or Engine(offered(), program)
    engine.restart()
    works(built(engine), 7)
    engine.close()
    print("{} engines were lost at their start, {} in a build, {} in calls; the next one worked".format(*lost))


main()
