#!/bin/sh
# Says whether the compiler refuses a host that drops an engine, and one that drops a list of drivers.
#
#     trials/dropped.sh
#
# The one is ended by `discard`, the other by `into_boxes`. The gate has no form for this: a must-fail edit is refused by
# a proof, and this is refused before any. So a copy of the crates, in a folder that is removed again, gets each of the
# two changes in crates/example_host. `rt try` has to build and run the copy as it is, and to refuse each change for want
# of the trait `Drop`.
#
# Prints a line for each of the three. The status is 0 where all came out so. Takes some minutes.
set -eu
cd "$(dirname "$0")/.."
folder=$(mktemp -d)
trap 'rm -rf "$folder"' EXIT
git ls-files -z crates crates.txt HANDLES | xargs -0 cp --parents -t "$folder"
cd "$folder/crates/example_host"
cp src/main.rt "$folder/main.rt"
bad=0

say() {
    echo "$1: $2"
    [ "$2" = "$3" ] || { cat "$folder/said"; bad=1; }
}

tried() {
    rt try > "$folder/said" 2>&1 || { echo refused; return; }
    echo built
}

# The line of the old text gets the new one, and the type that it drops has to be refused.
dropped() {
    [ "$(grep -cF "$1" "$folder/main.rt")" = 1 ] || { echo "'$1' does not stand in src/main.rt once" >&2; exit 2; }
    line=$(grep -nF "$1" "$folder/main.rt" | cut -d : -f 1)
    sed "${line}s/.*/$2/" "$folder/main.rt" > src/main.rt
    result=$(tried)
    grep -q "^src/main.rt:$line:.*error\[unsatisfied-bound\]: the trait bound \`$3: Drop\`" "$folder/said" || result="$result for another reason"
    say "$2" "$result" refused
}

say "as it is" "$(tried)" built
dropped "drop(engine.discard());" "drop(engine);" Engine
dropped "drop(drivers.into_boxes());" "drop(drivers);" Drivers
[ "$bad" = 0 ]
