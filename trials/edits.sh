#!/bin/sh
# Tries the must-fail edits that the gate does not try, of the crates that are named.
#
#     trials/edits.sh CRATE..
#
# They stand in trials/edits/CRATE, in the form of those in crates/CRATE/must-fail. In a copy of the crates, in a folder
# that is removed again, they take the place of all others, and `rt ci CRATE..` tries them over what earlier runs of it
# kept. Where a kit's `rt ci` takes no names, `rt must-fail CRATE..` tries them; it proves the libraries below first.
# TRY=must-fail and TRY=ci choose one of the two. Tries take a whole check of each crate, and 15 to 60 seconds for each
# edit.
#
# Prints a line for each edit, with the verdict. The status is 0 where the prover refused each.
set -eu
cd "$(dirname "$0")/.."
[ $# -gt 0 ] || { sed -n '2,14s/^# \{0,1\}//p' "$0"; exit 2; }
how=${TRY:-$(if rt help 2>&1 | grep -q '^  rt ci NAME'; then echo ci; else echo must-fail; fi)}
folder=$(mktemp -d)
trap 'rm -rf "$folder"' EXIT
git ls-files -z crates crates.txt HANDLES | xargs -0 cp --parents -t "$folder"
rm -rf "$folder"/crates/*/must-fail
for crate in "$@"; do
    mkdir "$folder/crates/$crate/must-fail"
    cp "trials/edits/$crate"/*.edit "$folder/crates/$crate/must-fail"
done
(cd "$folder" && rt "$how" "$@" > said 2>&1) || true
bad=0
for crate in "$@"; do
    for edit in "trials/edits/$crate"/*.edit; do
        name=$crate/$(basename "$edit")
        line=$(grep -F "must-fail $name: " "$folder/said" | tail -n 1 | sed 's/^rt: //')
        echo "${line:-must-fail $name: no verdict}"
        case $line in *": refused, as it must be"*) ;; *) bad=$((bad + 1)) ;; esac
    done
done
[ "$bad" = 0 ] || { tail -n 20 "$folder/said" >&2; echo "$bad not refused"; exit 1; }
