#!/usr/bin/env bash
# Runs sources on sites with each allocation failing in turn, and prints what came of the runs.
#
#   bench/refused-memory.sh [PROGRAM] [STEP]
#
# It builds nothing of np: PROGRAM is the built program, by default crates/np/out/np. Every STEPth allocation is tried, by default
# each. A small library that gcc makes stands before the allocator and refuses the one call. A run in which an allocation was
# refused has to end with exit status 6 and to write nothing; or, where only a hint found no room, as it does without. The columns
# of each row are the allocations of a run that gets all, the runs of either kind, and the others, which should be none.
set -euo pipefail
cd "$(dirname "$0")/.."
source bench/parts.sh
step=${2:-1}

cat >"$folder/refusing.c" <<'C'
#define _GNU_SOURCE
#include <dlfcn.h>
#include <fcntl.h>
#include <stdatomic.h>
#include <stdlib.h>
#include <sys/mman.h>

/* np ends without a last call here, so the count stands in a file from the start */
static atomic_long own, *made = &own;
static long refused;

__attribute__((constructor)) static void begin(void) {
    const char *number = getenv("REFUSED"), *name = getenv("COUNTED");
    int file = name ? open(name, O_RDWR) : -1;
    refused = number ? atol(number) : 0;
    if (file >= 0)
        made = mmap(NULL, sizeof own, PROT_READ | PROT_WRITE, MAP_SHARED, file, 0);
}

static int is_refused(void) {
    return atomic_fetch_add(made, 1) + 1 == refused;
}

void *malloc(size_t size) {
    static void *(*real)(size_t);
    if (!real)
        real = dlsym(RTLD_NEXT, "malloc");
    return is_refused() ? NULL : real(size);
}

void *realloc(void *block, size_t size) {
    static void *(*real)(void *, size_t);
    if (!real)
        real = dlsym(RTLD_NEXT, "realloc");
    return is_refused() ? NULL : real(block, size);
}
C
gcc -O1 -shared -fPIC -o "$folder/refusing.so" "$folder/refusing.c" -ldl

# row NAME WORD..: what came of this call with each allocation refused in turn
row() {
    local name=$1 all wanting=0 same=0 others=0 status
    shift
    head -c 8 /dev/zero >"$folder/count"
    LD_PRELOAD="$folder/refusing.so" COUNTED="$folder/count" "$program" "$@" >"$folder/whole"
    all=$(od -An -t d8 "$folder/count" | tr -d ' ')
    for ((number = 1; number <= all; number += step)); do
        status=0
        LD_PRELOAD="$folder/refusing.so" REFUSED=$number "$program" "$@" >"$folder/out" 2>"$folder/err" || status=$?
        if [ "$status" = 6 ] && [ ! -s "$folder/out" ] && [ ! -s "$folder/err" ]; then
            wanting=$((wanting + 1))
        elif [ "$status" = 0 ] && cmp -s "$folder/out" "$folder/whole" && [ ! -s "$folder/err" ]; then
            same=$((same + 1))
        else
            others=$((others + 1))
            echo "allocation $number of $name: status $status, $(wc -c <"$folder/out") and $(wc -c <"$folder/err") bytes written"
        fi
    done
    printf '%-34s %12d %12d %12d %12d\n' "$name" "$all" "$wanting" "$same" "$others"
}

printf 'sites home ; main at home = print 7\n' >"$folder/print.np"
printf 'sites home ; main at home = new c : ^Int in (<main@?>c!9 | c?x -> print x)\n' >"$folder/own.np"
printf '%-34s %12s %12s %12s %12s\n' run allocations 'status 6' 'as ever' others
for links in rings tray inbox; do
    row "a print, $links" run "$folder/print.np" --serial --links "$links"
    row "a letter, $links" run examples/letter.np --serial --links "$links"
    row "a message to itself, $links" run "$folder/own.np" --serial --links "$links"
done
row 'a letter, on threads' run examples/letter.np
