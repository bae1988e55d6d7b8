#!/usr/bin/env bash
# Prints how many events a second the program makes on full binary trees of parallel processes.
#
#   bench/events.sh [PROGRAM] [ROUNDS]
#
# It builds nothing: PROGRAM is the built program, by default crates/np/out/np. Each tree is run ROUNDS times, by
# default 20. A tree of N leaves has N - 1 forks and N stops; a run has at most 10,000 events. What the start of the
# process, the reading of the source and the check of its types take is measured by `check` of the same tree; the last
# column is of the rest, that is of the run alone. In this the copy of the source's process that a run starts with is
# counted too, also where the budget ends the run before all of it was used.
set -euo pipefail
cd "$(dirname "$0")/.."
source bench/parts.sh

printf '%8s %8s %12s %14s %26s\n' leaves events 'ms a run' 'of it reading' 'events a second, run alone'
for depth in 11 12 13; do
    leaves=$((1 << depth))
    events=$((2 * leaves - 1 > 10000 ? 10000 : 2 * leaves - 1))
    source_of "$(tree "$depth" 0)" >"$folder/tree.np"
    reading=$(took check "$folder/tree.np")
    whole=$(took high "$folder/tree.np")
    row "$leaves" "$events" "$reading" "$whole"
done
