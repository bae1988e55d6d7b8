#!/usr/bin/env bash
# Prints how many events a second go into the past of the last line of a run, on rings of agents that pass one token.
#
#   bench/pasts.sh [PROGRAM] [ROUNDS] [EXAMPLES]
#
# It builds nothing: PROGRAM is the built program, by default crates/np/out/np, and EXAMPLES the built program of the worked examples, by
# default crates/np_examples/out/np_examples. Each call is made ROUNDS times, by default 20. The source of a ring of N agents is that of
# `gen N`, and the history that of the run of its low program, which has 680 N + 215 events and prints 10 N lines.
#
# `past` of a line follows the history twice, the second time up to the line, and then goes back over the events in
# front of it. A history without its last line is read to its end and then refused. So what `past` takes beyond that
# is the following and the going back; the events that are counted are all those of the history. The last column says
# how many of them led to the line.
set -euo pipefail
cd "$(dirname "$0")/.."
source bench/parts.sh

printf '%8s %8s %12s %12s %16s   %s\n' agents events reading past 'events a second' 'milliseconds; what led to the last line'
for agents in 10 30 100; do
    "$program" gen "$agents" >"$folder/ring.np"
    "$examples" history "$folder/ring.np" >"$folder/whole.history"
    head -n -1 "$folder/whole.history" >"$folder/open.history"
    reading=$(took replay "$folder/ring.np" "$folder/open.history")
    past=$(took past "$folder/ring.np" "$folder/whole.history" --line $((10 * agents)))
    awk -v agents="$agents" -v events=$((680 * agents + 215)) -v rounds="$rounds" \
        -v one="$reading" -v all="$past" -v led="$(tail -n 1 "$folder/told")" 'BEGIN {
        rest = all > one ? all - one : 1
        printf "%8d %8d %12.2f %12.2f %16d   %s\n", \
            agents, events, one / rounds / 1e6, all / rounds / 1e6, events * rounds / rest * 1e9, led
    }'
done
