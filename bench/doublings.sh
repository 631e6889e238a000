#!/bin/sh
# Measures how the time of a build grows with what is built, beside the original engine where it is installed (Debian's angelscript-dev).
#
#     bench/doublings.sh ASRUN [OPTION ..]
#
# ASRUN is the executable of crates/asrun: `rt run` there leaves it as out/asrun. The options are those of bench/doublings.py, whose head says
# what is printed.
set -eu
asrun=${1:?"bench/doublings.sh ASRUN [OPTION ..]"}
shift
sh "$(dirname "$0")/original/beside.sh" doublings build "$asrun" "$@"
