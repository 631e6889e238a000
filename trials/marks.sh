#!/bin/sh
# Tries that each instruction is marked as of the statement that it is of.
#
#     trials/marks.sh [COUNT [SEED]]
#
# Makes a program, without proofs, that prints the marks of a section's bodies and the numbers that their code pushes
# (trials/marks/program.txt, a crate above ang_parse, ang_check and ang_gen), and has trials/marks/marks.py compare them with
# the statements of COUNT sections (1,000, if left out), written at random. Wants the kit, and some minutes.
set -eu
cd "$(dirname "$0")/.."
root=$(pwd)
folder=$(mktemp -d)
trap 'rm -rf "$folder"' EXIT
cp -r crates crates.txt tools HANDLES "$folder"
mkdir -p "$folder/crates/trial_marks/src"
cp trials/marks/program.txt "$folder/crates/trial_marks/src/main.rt"
libraries="ang_kinds ang_lex ang_parse ang_registry ang_names ang_typed ang_check ang_lower ang_code ang_gen"
echo "trial_marks: $libraries" >> "$folder/crates.txt"
(cd "$folder" && python3 tools/build_unproved.py trial_marks "$folder/program")
python3 "$root/trials/marks/marks.py" "$folder/program" "$@"
