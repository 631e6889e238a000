#!/bin/sh
# Lexes and parses each section of bench/sections.py many times, builds the one of 4,096 functions a few times, and prints bytes
# a second.
#
#     bench/run.sh [TURNS [BUILDS]]
#
# Proves and builds the program first, and the libraries below it (half an hour and more in a fresh clone).
set -eu
cd "$(dirname "$0")/.."
turns=${1:-200}
builds=${2:-5}
folder=$(mktemp -d)
trap 'rm -rf "$folder"' EXIT
python3 bench/sections.py "$folder"
cd crates/bench_programs
rt run > "$folder/built" 2>&1 || { cat "$folder/built" >&2; exit 1; }
for section in "$folder"/*.as; do
    case $section in
    */functions.as) out/bench_programs build "$section" "$turns" "$builds" ;;
    *) out/bench_programs build "$section" "$turns" ;;
    esac
done
