#!/bin/sh
# Measures how fast scripts run, beside the original engine where it is installed (Debian's angelscript-dev).
#
#     bench/machine.sh ASRUN [ROUNDS]
#
# ASRUN is the executable of crates/asrun: `rt run` there leaves it as out/asrun. See bench/machine.py for what is printed.
set -eu
asrun=${1:?"bench/machine.sh ASRUN [ROUNDS]"}
sh "$(dirname "$0")/original/beside.sh" machine machine "$asrun" --rounds "${2:-5}"
