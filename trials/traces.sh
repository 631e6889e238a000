#!/bin/sh
# Tries that the trace of a fault tells where it came.
#
#     trials/traces.sh [ASRUN [COUNT [SEED]]]
#
# ASRUN is the program: that which `rt ci`, or `rt run` in crates/asrun, leaves at crates/asrun/out/asrun, if none is named.
# trials/traces.py writes COUNT sessions (1,000, if left out) at random, in each of which a call or a build comes to one
# fault, a division, a null handle, an import that is not bound, a fault of the host, the depth or the budget, at a
# statement and by functions that were chosen before. It says what the trace has to be, runs each session with `--trace`
# and without, and compares. Needs python3, and some minutes.
#
# Prints the first sessions where the trace is another one, or where something else is printed than without `--trace`,
# and at the end the number of those. The status is 0 where there are none.
set -eu
here=$(pwd)
cd "$(dirname "$0")/.."
program=${1:-$(pwd)/crates/asrun/out/asrun}
case $program in /*) ;; *) program=$here/$program ;; esac
[ -x "$program" ] || { echo "there is no $program: run rt ci, or rt run in crates/asrun, first" >&2; exit 2; }
[ $# = 0 ] || shift
exec python3 trials/traces.py "$program" "$@"
