"""Lists and maps of numbers for scripts, which have no arrays of their own.

    profile.mask = PLAYERS
    declare(profile, most=1000)

gives the scripts of that mask the types `IntList` and `IntMap`: each object holds at most `most` numbers, and the script
that wants more ends with the fault ``Memory``. They answer as the sample drivers of these names do. With

    python3 lists.py [ASREMOTE [LIBRARY]]

a script keeps a list and a map. Prints what stands in ../lists.expected.
"""

import sys
from bisect import bisect_left
from typing import Any, Callable, Dict, List

from bustlebrick import Engine, Fault, Profile, ScriptFault

NO_SUCH_INDEX, NO_SUCH_KEY = 2, 3  # the faults of a list's or a map's index, and of a map's key
Numbers = List[int]


def _place(numbers: Numbers, index: int) -> int:
    if not 0 <= index < len(numbers):
        raise Fault(NO_SUCH_INDEX)
    return index


class IntList:
    """Numbers by index, from 0 on."""

    def __init__(self, most: int) -> None:
        self.most = most
        self.numbers: Numbers = []

    def push(self, number: int) -> None:
        if len(self.numbers) >= self.most:
            raise MemoryError
        self.numbers.append(number)

    def get(self, index: int) -> int:
        return self.numbers[_place(self.numbers, index)]

    def set(self, index: int, number: int) -> None:
        self.numbers[_place(self.numbers, index)] = number

    def remove(self, index: int) -> None:
        del self.numbers[_place(self.numbers, index)]

    def length(self) -> int:
        return len(self.numbers)

    def clear(self) -> None:
        self.numbers.clear()


class IntMap:
    """Numbers by key. `key` gives the keys in ascending order, by index."""

    def __init__(self, most: int) -> None:
        self.most = most
        self.keys: Numbers = []  # ascending
        self.numbers: Dict[int, int] = {}

    def contains(self, key: int) -> bool:
        return key in self.numbers

    def get(self, key: int) -> int:
        if key not in self.numbers:
            raise Fault(NO_SUCH_KEY)
        return self.numbers[key]

    def set(self, key: int, number: int) -> None:
        if key not in self.numbers:
            if len(self.keys) >= self.most:
                raise MemoryError
            self.keys.insert(bisect_left(self.keys, key), key)
        self.numbers[key] = number

    def remove(self, key: int) -> bool:
        """Whether the key was there."""
        if key not in self.numbers:
            return False
        del self.numbers[key], self.keys[bisect_left(self.keys, key)]
        return True

    def length(self) -> int:
        return len(self.keys)

    def clear(self) -> None:
        self.keys.clear()
        self.numbers.clear()

    def key(self, index: int) -> int:
        return self.keys[_place(self.keys, index)]


def declare(profile: Profile, most: int, number: str = "int") -> None:
    """Registers both types under the profile's mask. `number` is the type of their numbers: `int`, or `int64`."""
    numbers = profile.type("IntList")
    numbers.factory("IntList@ f()", lambda: IntList(most))
    numbers.method(f"void push({number})", IntList.push)
    numbers.method(f"{number} get(int) const", IntList.get)
    numbers.method(f"void set(int, {number})", IntList.set)
    numbers.method("int length() const", IntList.length)
    numbers.method("void remove(int)", IntList.remove)
    numbers.method("void clear()", IntList.clear)
    by_key = profile.type("IntMap")
    by_key.factory("IntMap@ f()", lambda: IntMap(most))
    by_key.method(f"bool contains({number}) const", IntMap.contains)
    by_key.method(f"{number} get({number}) const", IntMap.get)
    by_key.method(f"void set({number}, {number})", IntMap.set)
    by_key.method("int length() const", IntMap.length)
    by_key.method(f"bool remove({number})", IntMap.remove)
    by_key.method("void clear()", IntMap.clear)
    by_key.method(f"{number} key(int) const", IntMap.key)


SCRIPT = """\
IntList scores;
IntMap best;

int note(int player, int score) {
  scores.push(score);
  if (!best.contains(player) || score > best.get(player)) best.set(player, score);
  return best.get(player);
}
int total() {
  int sum = 0;
  for (int i = 0; i < scores.length(); i++) sum += scores.get(i);
  return sum;
}
int64 players() {
  int64 said = 0;
  for (int i = 0; i < best.length(); i++) said = said * 100 + best.key(i);
  return said;
}
int undo(int at) { scores.remove(at); return scores.length(); }
int mend(int at, int score) { scores.set(at, score); return scores.get(at); }
bool forget(int player) { return best.remove(player); }
int best_of(int player) { return best.get(player); }
int begin_anew() { scores.clear(); best.clear(); return scores.length() + best.length(); }
"""


def main() -> None:
    profile, library = Profile(), sys.argv[2] if len(sys.argv) > 2 else None
    declare(profile, most=4)
    with Engine(profile, *sys.argv[1:2], library=library) as engine:
        game = engine.module("game", mask=1)
        game.section(SCRIPT)
        print(f"build: {game.build().outcome}")

        def tell(declaration: str, *values: int) -> None:
            said = f"{declaration.split('(')[0].split()[-1]}({', '.join(map(str, values))})"
            told: Callable[[Any], str] = lambda value: str(value).lower() if isinstance(value, bool) else str(value)
            try:
                print(f"{said}: {told(game.call(declaration, *values))}")
            except ScriptFault as fault:
                print(f"{said}: fault {fault.fault}")

        for player, score in ((30, 5), (10, 7), (30, 4), (20, -3)):
            tell("int note(int, int)", player, score)
        tell("int total()")
        tell("int64 players()")
        tell("int undo(int)", 1)
        tell("int total()")
        tell("int undo(int)", 3)
        tell("int undo(int)", -1)
        tell("int mend(int, int)", 2, 6)
        tell("int mend(int, int)", 3, 6)
        tell("int note(int, int)", 40, 1)
        tell("int note(int, int)", 50, 1)  # the list is full
        tell("bool forget(int)", 20)
        tell("bool forget(int)", 20)
        tell("int64 players()")
        tell("int best_of(int)", 20)
        tell("int undo(int)", 0)
        tell("int note(int, int)", 50, 2)
        tell("int undo(int)", 0)
        tell("int note(int, int)", 60, 3)  # the map is full: the score is noted, the player is not
        tell("int total()")
        tell("int64 players()")
        tell("int begin_anew()")
        print(f"objects: {len(engine.objects)}")


if __name__ == "__main__":
    main()
