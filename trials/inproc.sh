#!/bin/sh
# Tries the library of clients/c, the engine in the host's process.
#
#     trials/inproc.sh [OBJECT [ASRUN [PART..]]]
#
# OBJECT is the object file of asremote and ASRUN the program asrun: those that `rt ci`, or `rt run` in their crates, leave at
# crates/asremote/out/asremote.o and crates/asrun/out/asrun, if none are named. Another object is taken for one without proofs.
# The parts, all of them if none is named:
#
#     game       the hosts game.c and game.cpp print clients/game.expected
#     sessions   each session of crates/examples and crates/asrun, and 1,000 generated ones: with the drivers of asrun in C the
#                library prints what asrun prints, with the same status, by the callback, by steps, and with posts at once
#     engines    texts that are no command, options and calls out of turn; wrong threads, and 8 threads with an engine each;
#                engines in one another's callbacks, while a script waits; 10,000 engines with a script that waits; 400 cancels
#                at random moments; timeouts; scripts that use up the memory of their engine; long lists of events; exceptions out of
#                callbacks
#     posts      functions that are posted, by the callback, by steps and many at once: in their order, and before what is
#                asked after them; and around each size at which the library goes another way with them
#     growths    each growth of the heap is refused in turn, in each command of the examples
#     deep       the deepest sections of trials/hostile.sh, on the least stack that the library takes
#     checked    the hosts and the engines, with fewer of each, under valgrind, and with the library's C under gcc's address and
#                undefined behaviour sanitizers
#
# Prints a line or more for each, and what went wrong. The status is 0 where all went well. Needs python3, gcc, g++, binutils,
# and valgrind with its headers for the last part; what is built stands in a folder that is removed again.
set -eu
. "$(dirname "$0")/begin.sh"
object=$root/crates/asremote/out/asremote.o
asrun=$root/crates/asrun/out/asrun
word=proved
[ $# -lt 1 ] || { [ "$(whole "$1")" = "$object" ] || word=unproved; object=$(whole "$1"); shift; }
[ $# -lt 1 ] || { asrun=$(whole "$1"); shift; }
[ -f "$object" ] || { echo "there is no $object: run rt ci, or rt run in its crate, first" >&2; exit 2; }

# built NAME FLAGS: the library and the hosts, with these flags, in a folder of this name.
built() {
    [ ! -d "$folder/$1" ] || return 0
    to=$folder/$1
    CC=gcc CFLAGS="$2" clients/c/build.sh "$object" "$word" "$to" > /dev/null
    library=$to/lib/libbustlebrick.a
    flags="$2 -Wall -Wextra -I$to/include"
    in=trials/inproc
    gcc -std=gnu11 $flags clients/c/game.c "$library" -o "$to/game_c"
    g++ -std=c++17 $flags clients/c/game.cpp "$library" -o "$to/game_cpp"
    gcc -std=gnu11 $flags $in/session.c $in/drivers.c $in/commands.c "$library" -o "$to/session"
    gcc -std=gnu11 $flags $in/engines.c "$library" -o "$to/engines" -lpthread
    g++ -std=c++17 $flags $in/throws.cpp "$library" -o "$to/throws"
    gcc -std=gnu11 $flags $in/posts.c "$library" -o "$to/posts"
    gcc -std=gnu11 $flags $in/runs.c "$library" -o "$to/runs"
    case $2 in *-DBB_TRIAL*) gcc -std=gnu11 $flags $in/growths.c $in/drivers.c $in/commands.c "$library" -o "$to/growths" ;; esac
}

# The profiles and the sessions whose growths are refused.
few_sessions() {
    for name in first_call numbers objects properties refused_build runaway; do
        echo "crates/examples/data/$name.profile crates/examples/data/$name.session"
    done
}

game() {
    built plain -O2
    prints game.c clients/game.expected "$folder/plain/game_c"
    prints game.cpp clients/game.expected "$folder/plain/game_cpp"
}

sessions() {
    programs "$asrun"
    built plain -O2
    python3 trials/inproc/sessions.py "$folder/plain/session" "$asrun" ${COUNT:-1000} || bad=1
}

engines() {
    built plain -O2
    "$folder/plain/engines" forms threads waits many cancels timeouts memory lists || bad=1
    "$folder/plain/throws" || bad=1
}

posts() {
    built plain -O2
    "$folder/plain/posts" || bad=1
    "$folder/plain/runs" || bad=1
}

# A session of long lines, and of a long section.
long_session() {
    python3 - "$folder" << 'END'
import sys
with open(f"{sys.argv[1]}/long.profile", "w") as out:
    out.write("function 0 0 void put(int64)\n")
with open(f"{sys.argv[1]}/long.session", "w") as out:
    out.write("module m 00000001\nsection m 1\nvoid f(){}\nbuild m\n")
    out.write(f"call m ({','.join(['1'] * 3000)}) void f()\ncall m () void {'f' * 60000}()\nbind m 0 {'m' * 70000} void f()\n")
    out.write(f"section m 1\n{' ' * (1 << 20)}\n")
END
    echo "$folder/long.profile $folder/long.session"
}

growths() {
    built refused "-O2 -DBB_TRIAL"
    "$folder/refused/growths" $(few_sessions) $(long_session) || bad=1
}

deep() {
    built plain -O2
    python3 trials/inproc/deep.py "$folder/plain/session" || bad=1
}

checked() {
    built sanitized "-g -O1 -fsanitize=address,undefined -fno-sanitize-recover=undefined -DBB_TRIAL"
    built watched "-g -O1 -DBB_VALGRIND"
    valgrind="valgrind -q --leak-check=full --error-exitcode=99"
    prints "game.c, with sanitizers" clients/game.expected "$folder/sanitized/game_c"
    prints "game.cpp, with sanitizers" clients/game.expected "$folder/sanitized/game_cpp"
    prints "game.c under valgrind" clients/game.expected $valgrind "$folder/watched/game_c"
    prints "game.cpp under valgrind" clients/game.expected $valgrind "$folder/watched/game_cpp"
    "$folder/sanitized/engines" forms threads waits some cancels timeouts memory lists || bad=1
    "$folder/sanitized/throws" || bad=1
    "$folder/sanitized/posts" || bad=1
    "$folder/sanitized/runs" few || bad=1
    "$folder/sanitized/growths" crates/examples/data/objects.profile crates/examples/data/objects.session || bad=1
    $valgrind "$folder/watched/engines" forms threads waits some || bad=1
    $valgrind "$folder/watched/throws" || bad=1
    $valgrind "$folder/watched/posts" || bad=1
    $valgrind "$folder/watched/runs" few || bad=1
}

try_parts "game sessions engines posts growths deep checked" "$@"
