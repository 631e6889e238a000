#!/bin/sh
# Tries the clients of the engine in Python, Rust and C++ (clients/), which run it as a child process or in their own.
#
#     trials/clients.sh [--library FOLDER] [ASREMOTE [ASRUN [PART..]]]
#
# ASREMOTE and ASRUN are the programs: those that `rt ci`, or `rt run` in their crates, leave at crates/asremote/out/asremote
# and crates/asrun/out/asrun, if none are named. FOLDER is what `make -C clients/c` makes: clients/c/out/proved, if it is there
# and no other one is named. With it the hosts of the parts game, posts, limits, groups, traces and mended run in both ways. The
# parts, all of them if none is named:
#
#     versions   all clients, the library's header, both programs and docs/CHANGES.md name one version
#     game       the example of each client prints clients/game.expected, and the lists of the Python client clients/lists.expected
#     sessions   each session of crates/examples and crates/asrun, and 1,000 generated ones, over modules, masks, imports,
#                numbers and objects: with the drivers of asrun written in Python, asremote prints what asrun prints
#     posts      a host of each client with functions that are posted prints trials/clients/posts.expected
#     lines      some 200 lines, most of wrong forms: what asremote says to each, and that nothing behind the head of a section runs
#     kills      100 engines of each client are killed at random moments: the host goes on, and the next engine works
#     limits     a host of each client sets limits, and prints trials/clients/limits.expected
#     groups     a host of each client takes entries away, and prints trials/clients/groups.expected
#     traces     a host of each client prints trials/clients/traces.expected: where faults came, and the lines there
#     bounds     300 random scripts under random limits: what asremote asks, lists, takes and holds is what a model of limits says
#     mended     a host of each client does what once went wrong, and prints trials/clients/mended.expected: texts that are
#                more than a command, numbers of faults, timeouts that pass in a callable and very long ones, a limit of memory,
#                objects that the engine has no memory to take (refusing.py stands in for it), and an engine that is killed
#     strangers  scripts that take all the memory they can, with the limits that a client sets by itself: other modules go
#                on, and the process stays below 64 MB; and how long a tick of theirs takes
#
# Prints a line or more for each, and what differs. The status is 0 where all went well. Needs python3, cargo and
# rustc, and a compiler of C++17 (c++, or the one that CXX names); what is built stands in a folder that is removed again.
set -eu
. "$(dirname "$0")/begin.sh"
library=$root/clients/c/out/proved
[ "${1:-}" != --library ] || { library=$(whole "$2"); shift 2; [ -d "$library" ] || { echo "there is no $library" >&2; exit 2; }; }
library=$library/lib/libbustlebrick.so
asremote=$root/crates/asremote/out/asremote
asrun=$root/crates/asrun/out/asrun
[ $# -lt 1 ] || { asremote=$(whole "$1"); shift; }
[ $# -lt 1 ] || { asrun=$(whole "$1"); shift; }
programs "$asremote" "$asrun"

built() {
    [ ! -d "$folder/release" ] || return 0
    (cd clients/rust && CARGO_TARGET_DIR="$folder" cargo build -q --offline --release --lib --examples)
    for name in groups kills limits mended posts traces; do
        rustc --edition 2021 -O -L "$folder/release/deps" --extern bustlebrick="$folder/release/libbustlebrick.rlib" \
            "trials/clients/$name.rs" -o "$folder/release/examples/$name"
    done
    for source in clients/cpp/game.cpp trials/clients/groups.cpp trials/clients/kills.cpp trials/clients/limits.cpp \
        trials/clients/mended.cpp trials/clients/posts.cpp trials/clients/traces.cpp; do
        "${CXX:-c++}" -std=c++17 -O1 -Wall -Wextra -Iclients/cpp "$source" -o "$folder/$(basename "$source" .cpp)" -ldl
    done
}

# The host of a client: its name, and its command.
host() {
    case $1 in
    Python) echo "python3 $2.py" ;;
    Rust) echo "$folder/release/examples/$(basename "$2")" ;;
    C++) echo "$folder/$(basename "$2")" ;;
    esac
}

# hosts WHAT HOST EXPECTED: whether the host of each client prints what is expected, with the engine as a process and, where
# the library is there, in its own.
hosts() {
    built
    for client in Python Rust C++; do
        prints "$1 in $client" "$3" $(host $client "$2") "$asremote"
        [ ! -f "$library" ] || prints "$1 in $client, over the library" "$3" $(host $client "$2") "$asremote" "$library"
    done
    [ -f "$library" ] || echo "$1 was not tried over the library: there is no $library"
}

game() {
    hosts "the example" clients/python/game clients/game.expected
    prints "lists in Python" clients/lists.expected python3 clients/python/lists.py "$asremote"
    [ ! -f "$library" ] || prints "lists in Python, over the library" clients/lists.expected python3 clients/python/lists.py "$asremote" "$library"
}

limits() {
    hosts "the host with limits" trials/clients/limits trials/clients/limits.expected
}

mended() {
    hosts "the host of what was mended" trials/clients/mended trials/clients/mended.expected
}

groups() {
    hosts "the host that takes entries away" trials/clients/groups trials/clients/groups.expected
}

traces() {
    hosts "the host with faults" trials/clients/traces trials/clients/traces.expected
}

posts() {
    hosts "the host that is posted" trials/clients/posts trials/clients/posts.expected
}

strangers() {
    python3 trials/clients/strangers.py "$asremote" || bad=1
}

bounds() {
    python3 trials/clients/bounds.py "$asremote" || bad=1
}

sessions() {
    python3 trials/clients/sessions.py "$asremote" "$asrun" || bad=1
}

lines() {
    python3 trials/clients/wrong_lines.py "$asremote" || bad=1
}

kills() {
    built
    for client in Python Rust C++; do
        echo "$client:"
        python3 trials/clients/kill_at_random.py 100 $(host $client trials/clients/kills) "$asremote" 100 || bad=1
    done
}

# The version that each place names, a line for each.
named_versions() {
    sed -n 's/^__version__ = "\(.*\)"/\1/p' clients/python/bustlebrick.py
    sed -n 's/^version = "\(.*\)"/\1/p' clients/rust/Cargo.toml
    sed -n 's/^constexpr const char\* version = "\(.*\)";/\1/p' clients/cpp/bustlebrick.hpp
    sed -n 's/^#define BUSTLEBRICK_VERSION "\(.*\)"/\1/p' clients/c/bustlebrick.h
    sed -n 's/^const VERSION: &str = "\(.*\)";/\1/p' crates/asrun/src/command.rt crates/asremote/src/command.rt
    sed -n '/^## /{s/^## \([0-9.]*\).*/\1/p;q;}' docs/CHANGES.md
}

versions() {
    if [ "$(named_versions | wc -l)" = 7 ] && [ "$(named_versions | sort -u | wc -l)" = 1 ]; then
        echo "all name the version $(named_versions | head -n 1)"
    else
        echo "WRONG: the versions are $(named_versions | tr '\n' ' ')"
        bad=1
    fi
}

try_parts "versions game sessions posts lines kills limits groups traces bounds mended strangers" "$@"
