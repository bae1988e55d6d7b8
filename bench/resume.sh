#!/usr/bin/env bash
# Prints how long it takes to stop a run at half its events and to resume it, beside the time of the whole run.
#
#   bench/resume.sh [PROGRAM] [ROUNDS]
#
# It builds nothing: PROGRAM is the built program, by default crates/np/out/np. Each call is made ROUNDS times, by default 20. The source is
# that of `gen 100`, a ring of 100 agents that pass one token, whose run on sites has 68,215 events. The script looks for the least budget
# with which the run has half of them or more, and keeps the history of that run.
#
# `resume` reads this history, has the sites do its events again, and then does the rest of the run. The whole run does all
# events once and reads and writes no history. The last column says how many times as long it takes to stop and to resume. The rows are one
# site after another, and on threads over each kind of links.
set -euo pipefail
cd "$(dirname "$0")/.."
source bench/parts.sh

agents=100
events=$((680 * agents + 215))
most=200000

# stopped BUDGET: how many events the run has that this budget stops. Its history stands in the file stopped then
stopped() {
    "$program" run "$folder/ring.np" --serial --history --budget "$1" >"$folder/stopped" || case $? in 1) ;; *) exit 1 ;; esac
    awk '/^end$/ { exit } within { count++ } /^history 2$/ { within = 1 } END { print count + 0 }' "$folder/stopped"
}

# rested WORDS..: nanoseconds of all rounds of the program with these words, whose run has to come to rest
rested() {
    took "$@"
    [ "$(tail -n 1 "$folder/told")" = 'at rest' ] || { echo "$1 did not come to rest" >&2; exit 1; }
}

"$program" gen "$agents" >"$folder/ring.np"
low=1
high=$most
while [ "$low" -lt "$high" ]; do
    middle=$(((low + high) / 2))
    made=$(stopped "$middle")
    if [ $((2 * made)) -ge "$events" ]; then high=$middle; else low=$((middle + 1)); fi
done
saved=$(stopped "$low")

printf 'the whole run has %d events, and the run that a budget of %d stops has %d\n' "$events" "$low" "$saved"
printf '%-16s %12s %12s %12s %8s\n' how 'whole ms' 'stopped ms' 'resumed ms' ratio
for how in '--serial' '--links rings' '--links tray' '--links inbox'; do
    read -ra options <<<"$how"
    whole=$(rested run "$folder/ring.np" --budget "$most" "${options[@]}")
    halt=$(took run "$folder/ring.np" --budget "$low" --history "${options[@]}")
    resumed=$(rested resume "$folder/ring.np" "$folder/stopped" --budget "$most" "${options[@]}")
    awk -v how="$how" -v whole="$whole" -v halted="$halt" -v resumed="$resumed" -v rounds="$rounds" 'BEGIN {
        printf "%-16s %12.2f %12.2f %12.2f %8.2f\n", \
            how, whole / rounds / 1e6, halted / rounds / 1e6, resumed / rounds / 1e6, (halted + resumed) / (whole < 1 ? 1 : whole)
    }'
done
