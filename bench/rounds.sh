#!/usr/bin/env bash
# Prints how many rounds runs on threads take, over each kind of links: rings of agents at four sites that pass one token (`load N`),
# and the two sources of `sites-source.sh` with 4 to 128 sites, with as great a budget as they may have.
#
#   bench/rounds.sh [PROGRAM] [RUNS]
#
# It builds nothing of np: PROGRAM is the built program, by default crates/np/out/np. A small library that gcc makes stands before
# the call that starts a thread and counts. A round over n sites starts n - 1 threads, since one site takes its turn on the thread
# that starts the others. Each run is made RUNS times, by default 20; the columns are the least, the middle and the greatest count.
# How long a site looks for what comes before its turn ends quiet depends on what else the machine does, and so do the rounds.
set -euo pipefail
cd "$(dirname "$0")/.."
source bench/parts.sh

cat >"$folder/starts.c" <<'C'
#define _GNU_SOURCE
#include <dlfcn.h>
#include <fcntl.h>
#include <pthread.h>
#include <stdlib.h>
#include <unistd.h>

/* np ends without a last call here, so a byte is written for each start */
int pthread_create(pthread_t *thread, const pthread_attr_t *how, void *(*what)(void *), void *with) {
    static int (*real)(pthread_t *, const pthread_attr_t *, void *(*)(void *), void *);
    static int file;
    if (!real) {
        real = dlsym(RTLD_NEXT, "pthread_create");
        file = open(getenv("STARTS"), O_WRONLY | O_APPEND);
    }
    if (write(file, "x", 1) != 1)
        abort();
    return real(thread, how, what, with);
}
C
gcc -O1 -shared -fPIC -o "$folder/starts.so" "$folder/starts.c" -ldl

# rounds_of NAME SITES WORD..: a row of the rounds over each kind of links
rounds_of() {
    local name=$1 sites=$2 kind run
    shift 2
    for kind in rings tray inbox; do
        for ((run = 0; run < rounds; run++)); do
            : >"$folder/starts"
            LD_PRELOAD="$folder/starts.so" STARTS="$folder/starts" "$program" "$@" --links "$kind" >"$folder/told" ||
                case $? in 1) ;; *) exit 1 ;; esac
            echo $(($(stat -c %s "$folder/starts") / (sites - 1)))
        done | sort -n | awk -v name="$name" -v kind="$kind" '{ all[NR] = $1 } END {
            printf "%-18s %-6s %8d %8d %8d\n", name, kind, all[1], all[int((NR + 1) / 2)], all[NR] }'
    done
}

printf '%-18s %-6s %8s %8s %8s\n' run links least middle greatest
for agents in 10 30 100; do
    rounds_of "load $agents" 4 load "$agents"
done
for kind in posts own; do
    for sites in 4 16 32 64 128; do
        bench/sites-source.sh "$kind" "$sites" >"$folder/sites.np"
        budget=$((6400000 / sites))
        rounds_of "$kind, $sites sites" "$sites" run "$folder/sites.np" --budget $((budget < 200000 ? budget : 200000))
    done
done
