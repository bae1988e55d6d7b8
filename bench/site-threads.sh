#!/usr/bin/env bash
# Prints the time that runs on sites take, over each kind of links: on threads, and one site after another.
#
#   bench/site-threads.sh [PROGRAM] [ROUNDS]
#
# It builds nothing: PROGRAM is the built program, by default crates/np/out/np. Each run is made ROUNDS times, by default 20. The
# first rows are rings of agents that pass one token (`load N`), in which the sites have little to do at once; then come two
# sites with work of their own, of which neither waits for the other; then the two sources of `sites-source.sh` with 4 to 128 sites,
# and with as great a budget as they may have. Wall time is what passes; processor time is the sum over all threads; the last column
# is the wall time on threads by that of turns one after another over the same kind of links. Run it on an idle machine.
set -euo pipefail
cd "$(dirname "$0")/.."
source bench/parts.sh

# times WORD..: milliseconds of wall time and of processor time, of one call
times() {
    local TIMEFORMAT='%R %U %S'
    { time for ((round = 0; round < rounds; round++)); do "$program" "$@" >"$folder/told" ||
        case $? in 1) ;; *) exit 1 ;; esac; done; } 2>&1 |
        awk -v rounds="$rounds" '{ printf "%10.2f %10.2f", $1 * 1000 / rounds, ($2 + $3) * 1000 / rounds }'
}

# rows NAME WORD..: two rows for each kind of links, one after another and on threads
rows() {
    local name=$1 serial threads kind
    shift
    for kind in rings tray inbox; do
        serial=$(times "$@" --serial --links "$kind")
        threads=$(times "$@" --links "$kind")
        printf '%-22s %-16s %s\n' "$name" "serial, $kind" "$serial"
        printf '%-22s %-16s %s %8.2f\n' "$name" "threads, $kind" "$threads" \
            "$(awk -v threads="$threads" -v serial="$serial" 'BEGIN { serial += 0; print threads / (serial < 0.01 ? 0.01 : serial) }')"
    done
}

# two agents count at two sites, and neither hears of the other
{
    echo 'sites home far ;'
    echo 'main at home ='
    echo 'agent b = migrate to far -> new d : ^Int in (*d?x -> d!(x + 1) | d!0) in'
    echo 'new c : ^Int in (*c?x -> c!(x + 1) | c!0)'
} >"$folder/two.np"

printf '%-22s %-16s %10s %10s %8s\n' run how 'wall ms' 'busy ms' ratio
for agents in 10 30 100; do
    rows "load $agents" load "$agents"
done
rows 'two sites, 200,000' run "$folder/two.np" --budget 200000
for kind in posts own; do
    for sites in 4 16 32 64 128; do
        bench/sites-source.sh "$kind" "$sites" >"$folder/sites.np"
        budget=$((6400000 / sites))
        rows "$kind, $sites sites" run "$folder/sites.np" --budget $((budget < 200000 ? budget : 200000))
    done
done
