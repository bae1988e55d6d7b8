#!/usr/bin/env bash
# Prints how many events a second are written to a history, read from it, replayed, and made by the serial run, on rings of agents that
# pass one token; and how much memory the reading of a long history takes.
#
#   bench/replay.sh [PROGRAM] [ROUNDS] [EXAMPLES]
#
# It builds nothing: PROGRAM is the built program, by default crates/np/out/np, and EXAMPLES the built program of the worked examples, by
# default crates/np_examples/out/np_examples. Each call is made ROUNDS times, by default 20. The source of a ring of N agents is that of
# `gen N`, and the history that of the run of its low program, which has 680 N + 215 events.
#
# A history without its last line is read to its end and then refused. So `upgrade` of it reads and does no more, and `replay` of it
# checks and translates the source, reads the history, and does no more. What the writing and the replaying take is the rest of the same
# calls with the whole history. The serial run is that of `bench/low-events.sh`, with the translation.
#
# The last lines are of a history of some 60,000,000 bytes: the most memory that the process has at once, as GNU time tells it, and how
# often the text would go into it.
set -euo pipefail
cd "$(dirname "$0")/.."
source bench/parts.sh

# rate EVENTS NANOSECONDS: events a second of all rounds
rate() {
    awk -v events="$1" -v took="$2" -v rounds="$rounds" 'BEGIN { printf "%d", events * rounds / (took < 1 ? 1 : took) * 1e9 }'
}

# ring AGENTS: the source, its history, and the history without its last line
ring() {
    "$program" gen "$1" >"$folder/ring.np"
    "$examples" history "$folder/ring.np" >"$folder/whole.history"
    head -n -1 "$folder/whole.history" >"$folder/open.history"
    [ "$(wc -l <"$folder/open.history")" -eq $((680 * $1 + 216)) ] || { echo "$1 agents: another number of events" >&2; exit 1; }
}

: >"$folder/empty.history"
printf '%8s %8s %12s %12s %12s %12s   %s\n' agents events written read replayed 'serial run' 'events a second'
for agents in 10 30 100; do
    ring "$agents"
    events=$((680 * agents + 215))
    start=$(took upgrade "$folder/empty.history")
    reading=$(took upgrade "$folder/open.history")
    writing=$(took upgrade "$folder/whole.history")
    refused=$(took replay "$folder/ring.np" "$folder/open.history")
    replaying=$(took replay "$folder/ring.np" "$folder/whole.history")
    checked=$(tried 'words check a' 'out well typed')
    made=$(tried 'low run' "lines $((10 * agents + 1))" 'out at rest' "events $events")
    printf '%8d %8d %12d %12d %12d %12d\n' "$agents" "$events" \
        "$(rate "$events" $((writing - reading)))" "$(rate "$events" $((reading - start)))" \
        "$(rate "$events" $((replaying - refused)))" "$(rate "$events" $((made - checked)))"
done

# long BYTES: the events of the last ring again and again, as many whole lines as go into so many bytes
long() {
    sed -e 1d "$folder/open.history" >"$folder/lines"
    local times=$(($1 / $(stat -c %s "$folder/lines") + 1))
    for ((time = 0; time < times; time++)); do
        cat "$folder/lines"
    done >"$folder/many"
    echo 'history 2'
    head -c "$1" "$folder/many" | sed -e '$d'
}

# memory NAME WORDS..: the most memory of the program with these words
memory() {
    local name=$1 most
    shift
    command time -f %M -o "$folder/most" "$program" "$@" >"$folder/told" 2>&1 || true
    most=$(tail -n 1 "$folder/most")
    awk -v name="$name" -v most="$most" -v bytes="$bytes" 'BEGIN {
        printf "%-22s %12d bytes of text %12d bytes of memory, %.2f times as many\n", name, bytes, most * 1024, most * 1024 / bytes
    }'
}

long 60000000 >"$folder/long.history"
bytes=$(stat -c %s "$folder/long.history")
memory 'read' upgrade "$folder/long.history"
echo end >>"$folder/long.history"
memory 'read and written' upgrade "$folder/long.history"
