#!/bin/sh
# Tries that nothing stays of a driver's objects that are gone.
#
#     trials/gone.sh
#
# Makes a program, without proofs, that makes a million objects in `Objects` (ang_drivers) in each of some ways and lets
# them go (trials/gone/program.txt), and runs it with no more than 32 KiB beside what it took when it started: what is
# beyond is refused. Wants the kit and a C compiler, and a minute.
#
# Prints a line for each way. The status is 0 where none wanted memory.
set -eu
cd "$(dirname "$0")/.."
folder=$(mktemp -d)
trap 'rm -rf "$folder"' EXIT
cp -r crates crates.txt tools HANDLES "$folder"
mkdir -p "$folder/crates/trial_gone/src"
cp trials/gone/program.txt "$folder/crates/trial_gone/src/main.rt"
echo "trial_gone: ang_kinds ang_host ang_drivers" >> "$folder/crates.txt"
(cd "$folder" && python3 tools/build_unproved.py trial_gone "$folder/program")

cat > "$folder/few.c" << 'C'
#include <errno.h>
#include <malloc.h>
#include <stddef.h>
extern void *__libc_malloc(size_t), *__libc_realloc(void *, size_t), *__libc_memalign(size_t, size_t);
extern void __libc_free(void *);
static size_t taken;
static int refuses(size_t more) { return taken + more > 32768 && (errno = ENOMEM); }
static void *counted(void *p) {
    if (p) taken += malloc_usable_size(p);
    return p;
}
void free(void *p) {
    if (p) taken -= malloc_usable_size(p);
    __libc_free(p);
}
void *malloc(size_t n) { return refuses(n) ? 0 : counted(__libc_malloc(n)); }
void *calloc(size_t n, size_t each) {
    char *p = malloc(n * each);
    for (size_t i = 0; p && i < n * each; i++) p[i] = 0;
    return p;
}
void *realloc(void *p, size_t n) {
    size_t before = p ? malloc_usable_size(p) : 0;
    if (n > before && refuses(n - before)) return 0;
    void *to = __libc_realloc(p, n);
    if (to) taken += malloc_usable_size(to) - before;
    return to;
}
void *aligned_alloc(size_t align, size_t n) { return refuses(n) ? 0 : counted(__libc_memalign(align, n)); }
int posix_memalign(void **to, size_t align, size_t n) {
    if (refuses(n) || !(*to = counted(__libc_memalign(align, n)))) return ENOMEM;
    return 0;
}
C
cc -shared -fPIC -O1 -fno-builtin -o "$folder/few.so" "$folder/few.c"
LD_PRELOAD="$folder/few.so" "$folder/program" | tee "$folder/said"
[ "$(grep -c ': the last key is 999999$' "$folder/said")" = 4 ]
