#!/bin/sh
# Runs a program once for each of its allocations, with that one refused, and says whether each run ended well.
#
#     trials/refused_memory.sh [PROFILE SESSION]
#     trials/refused_memory.sh asremote [PROFILE CONVERSATION [DRIVERS]]
#     trials/refused_memory.sh rows FILE..
#
# The program is asrun with a session, or asremote with a stored conversation: what it printed with `--echo`. The files of
# asrun's first run, or of the conversation in docs/FORMATS.md, are taken if none are named; with `rows` each row of these
# files of crates/examples/data is run so, but those with a failing host call, which asrun can't have. The programs are
# crates/asrun/out/asrun and crates/asremote/out/asremote, which `rt ci`, or `rt run` in the crate, leaves there. Needs a C
# compiler, as the library that counts allocations and refuses one is written and compiled here, in a folder that is
# removed again; and python3 for asremote, whose host, trials/clients/stored.py, keeps in step where less is asked.
#
# A run ended well where
#   - its status and what it wrote are those of a run where nothing is refused (the C library did without that memory), or
#   - its status is 3, it wrote a front of that, whole lines, and `asrun: no memory`, or `asremote: no memory`, on standard
#     error, or
#   - its status is 1, or that of a run where nothing is refused, the first line that it wrote otherwise is an answer of want
#     of memory, before which there may be the ends of objects that this answer gave up, and no event is missing. Asks and posts
#     are compared apart, since all of a reply stand before its events: until then they are the usual ones, and as many as a
#     reply lists host calls, but for those that list `memory`. Where the conversation says `used`, there are as many
#     objects as were made and did not end; and the ticks may be the first line that is otherwise, where a command since the
#     `used` before wants memory in any case, so that it may have stopped sooner.
# Prints a line for each way to end with the number of runs, each run that did not end well, and the number of those.
set -eu
cd "$(dirname "$0")/.."
if [ "${1:-}" = rows ]; then
    shift
    rows=$(mktemp -d)
    trap 'rm -rf "$rows"' EXIT
    python3 trials/rows.py "$rows" "$@"
    bad=0
    for commands in "$rows"/*.session; do
        trials/refused_memory.sh "${commands%.session}.profile" "$commands" > "$rows/told" || { bad=$((bad + 1)); grep ^allocation "$rows/told"; }
        echo "$(basename "$commands" .session): $(tail -n 1 "$rows/told")"
    done
    echo "$bad rows of which some run did not end well"
    [ "$bad" = 0 ]
    exit
fi
name=asrun
profile=crates/asrun/data/first.profile
commands=crates/asrun/data/first.session
case ${1:-} in
asremote)
    name=asremote
    profile=crates/asremote/data/lamps.profile
    commands=crates/asremote/stdout
    shift
    ;;
esac
profile=${1:-$profile}
commands=${2:-$commands}
drivers=${3:-1}
program=crates/$name/out/$name
[ -x "$program" ] || { echo "there is no $program: run rt ci, or rt run in crates/$name, first" >&2; exit 2; }
folder=$(mktemp -d)
trap 'rm -rf "$folder"' EXIT

cat > "$folder/refuse.c" << 'C'
#include <errno.h>
#include <stdio.h>
#include <stdlib.h>
extern void *__libc_malloc(size_t), *__libc_calloc(size_t, size_t), *__libc_realloc(void *, size_t), *__libc_memalign(size_t, size_t);
static long count;
static int refuses(void) {
    const char *number = getenv("REFUSED");
    return ++count == (number ? atol(number) : 0) && (errno = ENOMEM);
}
void *malloc(size_t n) { return refuses() ? 0 : __libc_malloc(n); }
void *calloc(size_t n, size_t each) { return refuses() ? 0 : __libc_calloc(n, each); }
void *realloc(void *p, size_t n) { return refuses() ? 0 : __libc_realloc(p, n); }
void *aligned_alloc(size_t align, size_t n) { return refuses() ? 0 : __libc_memalign(align, n); }
int posix_memalign(void **to, size_t align, size_t n) {
    if (refuses() || !(*to = __libc_memalign(align, n))) return ENOMEM;
    return 0;
}
__attribute__((destructor)) static void tell(void) {
    long all = count;
    FILE *to = getenv("COUNT") ? fopen(getenv("COUNT"), "w") : 0;
    if (to) fprintf(to, "%ld\n", all);
}
C
cc -shared -fPIC -O1 -o "$folder/refuse.so" "$folder/refuse.c"

# The program on its files. The library is loaded into it alone, and not into its host.
refusing() {
    case $name in
    asrun) env LD_PRELOAD="$folder/refuse.so" "$program" --profile "$profile" --session "$commands" ;;
    asremote)
        python3 trials/clients/stored.py "$commands" \
            env LD_PRELOAD="$folder/refuse.so" "$program" --profile "$profile" --drivers "$drivers"
        ;;
    esac
}
run() {
    refusing > "$folder/out" 2> "$folder/err"
}
whole=0
COUNT="$folder/count" run || whole=$?
mv "$folder/out" "$folder/whole"
number=$(cat "$folder/count")

# Whether want of memory is the first thing that was written otherwise, and no event is missing.
wanted_memory() {
    awk '
        FILENAME == ARGV[1] && /^(ask|post) / { usual_asks[++most_asks] = $0; next }
        FILENAME == ARGV[1] { usual[++lines] = $0; next }
        /^(ask|post) / { asks++ }
        /^(ask|post) / && !otherwise && $0 != usual_asks[++asked] { wrong = 1 }
        /^(ask|post) / { next }
        /^host / { calls++ }
        /^host .* memory$/ { unasked++ }
        /^host .* made #[0-9]+$/ { alive++ }
        /^end / { alive-- }
        /^objects / && $2 != alive { wrong = 1 }
        /^done$/ { if (asks > calls || asks < calls - unasked) wrong = 1; asks = calls = unasked = 0 }
        /^(fault|refused) / && tolower($0) ~ /memory$/ { wanted = 1 }
        !otherwise && $0 != usual[++at] { otherwise = 1 }
        otherwise && !told && !/^end / { told = 1; memory = /^ticks / ? wanted : tolower($0) ~ /memory$/ }
        /^ticks / { wanted = 0 }
        END { exit !memory || wrong }
    ' "$folder/whole" "$folder/out"
}

ended_well() {
    lines=$(wc -l < "$folder/out")
    case $1 in
    "$whole") cmp -s "$folder/out" "$folder/whole" && return 0 ;;
    3) head -n "$lines" "$folder/whole" | cmp -s - "$folder/out" && grep -qx "$name: no memory" "$folder/err" && return 0 ;;
    esac
    { [ "$1" = 1 ] || [ "$1" = "$whole" ]; } && wanted_memory
}

at=1
bad=0
while [ "$at" -le "$number" ]; do
    status=0
    REFUSED=$at run || status=$?
    if ended_well "$status"; then
        echo "status $status: $(tr '\n' ';' < "$folder/out")" >> "$folder/ways"
    else
        echo "allocation $at refused: status $status: $(tr '\n' ';' < "$folder/out")"
        bad=$((bad + 1))
    fi
    at=$((at + 1))
done
sort "$folder/ways" | uniq -c | sort -rn
echo "$number allocations refused in turn, $bad runs that did not end well"
[ "$bad" = 0 ]
