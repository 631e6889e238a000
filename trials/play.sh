#!/bin/sh
# Tries tools/play.py: what it prints of the scripts in trials/play, and what it does with strange files, hosts and engines.
#
#     trials/play.sh [ASREMOTE]
#
# ASREMOTE is the program: the one that `rt ci`, or `rt run` in its crate, leaves at crates/asremote/out/asremote, if none
# is named. Each line of trials/play/runs is a run, and NAME.expected what it has to print, with its status; these texts
# were written from docs/LANGUAGE.md and docs/FORMATS.md. trials/play/strange.py has the rest. Prints what differs and a
# last line. The status is 0 where nothing differs. Needs python3.
set -eu
here=$(pwd)
cd "$(dirname "$0")/play"
root=$(cd ../.. && pwd)
asremote=$root/crates/asremote/out/asremote
if [ $# -gt 0 ]; then
    case $1 in
    /*) asremote=$1 ;;
    *) asremote=$here/$1 ;;
    esac
fi
[ -x "$asremote" ] || { echo "there is no $asremote: run rt ci, or rt run in its crate, first" >&2; exit 2; }
said=$(mktemp)
trap 'rm -f "$said" "$said.lines" "$said.wanted"' EXIT
bad=0
count=0

# A text without the columns of a stack, since some programs tell the place of a function's name alone, and not that of
# the statement. Scripts that are tried have their functions on one line.
without_statements() {
    sed -E 's/^(      at [^:]*), declared /\1 /; s/^(      at [^:]*:[0-9]+):[0-9]+:/\1:/' "$1"
}

# Makes a run, whose words are its name and its arguments, and compares.
run() {
    name=$1
    shift
    status=0
    PYTHONUTF8=1 python3 "$root/tools/play.py" --engine "$asremote" --profile host.profile "$@" > "$said" 2>&1 < /dev/null || status=$?
    echo "status $status" >> "$said"
    count=$((count + 1))
    wanted=$name.expected
    if grep -q '^      at [^:]*, declared ' "$said"; then
        without_statements "$said" > "$said.lines"
        without_statements "$wanted" > "$said.wanted"
        mv "$said.lines" "$said"
        wanted=$said.wanted
    fi
    diff -u "$wanted" "$said" || { echo "--- $name differs"; bad=$((bad + 1)); }
}

while IFS= read -r line; do
    case $line in
    '#'*) ;;
    *) eval "run $line" ;;
    esac
done < runs
echo "$count runs, of which $bad differ"
python3 strange.py "$asremote" || bad=$((bad + 1))
[ "$bad" = 0 ]
