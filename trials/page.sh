#!/bin/sh
# Tries the page of tools/play.py --web in a headless browser, which is driven from outside.
#
#     trials/page.sh ASRUN ASREMOTE [PART..]
#
# These are the programs: proved ones that `rt ci` leaves, or such as tools/build_unproved.py makes. It does the parts that
# are named, of those that trials/page/trial.py lists, or all. Each checks in the page what has to be there; `share` has
# asrun run what the page exports and compares the lines. Screenshots go into a folder under the system's temporary one,
# whose name is printed. Prints what is wrong, and a last line; the status is 0 where nothing is. Needs python3, and
# Chromium as `chromium` (Debian's package), or as CHROMIUM says.
set -eu
[ $# -ge 2 ] || { echo "usage: trials/page.sh ASRUN ASREMOTE [PART..]" >&2; exit 2; }
for program in "$1" "$2"; do
    [ -x "$program" ] || { echo "there is no $program: run rt ci, or tools/build_unproved.py, first" >&2; exit 2; }
done
command -v "${CHROMIUM:-chromium}" > /dev/null || { echo "there is no ${CHROMIUM:-chromium}" >&2; exit 2; }
exec python3 "$(dirname "$0")/page/trial.py" "$@"
