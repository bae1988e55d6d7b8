#!/usr/bin/env bash
# Prints how many events a second the serial run makes at the low level and at the high level, on rings of agents that pass one
# token.
#
#   bench/low-events.sh [PROGRAM] [ROUNDS]
#
# It builds nothing: PROGRAM is the built program of the worked examples, by default crates/np_examples/out/np_examples, because no
# mode of np runs a low program in one thread. Each ring is run ROUNDS times at each level, by default 20: as so many examples of one
# file, which the program is run on once. A ring of N agents is `bench/ring-source.sh N`: its run has 81 N + 37 events, and that of its low
# program 680 N + 215. The examples ask for these numbers and for the last line, so a run that has others ends the script.
#
# What the start of the process, the reading of the source and the check of its types take is measured by examples of `check`; the
# last column is of the rest. At the low level the translation is counted in it.
set -euo pipefail
cd "$(dirname "$0")/.."
set -- crates/np/out/np "${2:-20}" "${1:-crates/np_examples/out/np_examples}"
source bench/parts.sh

printf '%5s %8s %8s %12s %14s %26s\n' level agents events 'ms a run' 'of it reading' 'events a second, run alone'
for agents in 10 30 100; do
    bench/ring-source.sh "$agents" >"$folder/ring.np"
    high_events=$((81 * agents + 37))
    low_events=$((680 * agents + 215))
    lines=("lines $((10 * agents + 1))" 'out at rest')
    reading=$(tried 'words check a' 'out well typed')
    high=$(tried 'words high a' "${lines[@]}" "events $high_events")
    low=$(tried 'low run' "${lines[@]}" "events $low_events")
    printf '%5s ' high
    row "$agents" "$high_events" "$reading" "$high"
    printf '%5s ' low
    row "$agents" "$low_events" "$reading" "$low"
done
