#!/bin/sh
# Gives the programs the sections of script that take most of the process's stack and memory, and says how each run ended.
#
#     trials/hostile.sh [ASRUN [ASREMOTE [PART..]]]
#
# ASRUN and ASREMOTE are the programs: those that `rt ci`, or `rt run` in their crates, leave at crates/asrun/out/asrun and
# crates/asremote/out/asremote, if none are named; their files have to be called asrun and asremote. All of it runs with 8 MiB of stack (`ulimit -s 8192`) if nothing else is
# said. The parts, all of them if none is named:
#
#     deep      the deepest section of each kind, and the least stack with which it still builds; and deeper ones, which are
#               want of memory
#     nests     all nests of one, two and three kinds of statement, around each of what takes most stack and of mistakes,
#               with 8 and with 6.5 MiB of stack, given to both programs
#     limits    each limit of docs/LANGUAGE.md and docs/FORMATS.md, at its last value and one above
#     changed   10,000 sections: those of crates/examples/data with tokens cut, doubled and swapped
#     limited   builds below limits of the process's memory (`ulimit -v`)
#     replies   calls that ask the host until memory runs out, below such limits, given to both programs: each has an
#               outcome, its reply lists every host call, and a next module builds and answers
#     full      64 full sections in one build
#     memory    the memory that a build takes for a byte of source, and a run for a host call
#
# Prints tables for each part, what did not go well as it comes, and a last line with the number of runs. The status is 0 where no process ended by a
# signal or ran out of time, each answer was the expected one, and each bound on memory was held. Needs python3, and
# for the last two parts GNU time (/usr/bin/time). Ends in some twenty minutes.
set -eu
here=$(pwd)
cd "$(dirname "$0")/.."
root=$(pwd)
whole() {
    case $1 in
    /*) echo "$1" ;;
    *) echo "$here/$1" ;;
    esac
}
asrun=$root/crates/asrun/out/asrun
asremote=$root/crates/asremote/out/asremote
[ $# -lt 1 ] || { asrun=$(whole "$1"); shift; }
[ $# -lt 1 ] || { asremote=$(whole "$1"); shift; }
for program in "$asrun" "$asremote"; do
    [ -x "$program" ] || { echo "there is no $program: run rt ci, or rt run in its crate, first" >&2; exit 2; }
done
ulimit -c 0
ulimit -s 8192
[ "$(basename "$asrun") $(basename "$asremote")" = "asrun asremote" ] || { echo "hostile.sh: the programs have to be called asrun and asremote" >&2; exit 2; }
exec python3 trials/hostile.py "$asrun" "$asremote" "$@"
