#!/usr/bin/env bash
# Prints how many events a second the program makes on rings of agents that pass one token.
#
#   bench/ring.sh [PROGRAM] [ROUNDS]
#
# It builds nothing: PROGRAM is the built program, by default crates/np/out/np. Each ring is run ROUNDS times, by default
# 20. A ring of N agents is `bench/ring-source.sh N`: the token goes round ten times, in 81 N + 37 events, of which each hop
# takes eight. What the start of the process, the reading of the source and the check of its types take is measured by
# `check` of the same source; the last column is of the rest, that is of the run alone.
set -euo pipefail
cd "$(dirname "$0")/.."
source bench/parts.sh

printf '%8s %8s %12s %14s %26s\n' agents events 'ms a run' 'of it reading' 'events a second, run alone'
for agents in 10 30 100; do
    events=$((81 * agents + 37))
    bench/ring-source.sh "$agents" >"$folder/ring.np"
    reading=$(took check "$folder/ring.np")
    whole=$(took high "$folder/ring.np")
    row "$agents" "$events" "$reading" "$whole"
done
