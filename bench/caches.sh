#!/usr/bin/env bash
# Prints how many messages go through the daemon, and what a run takes, with the central infrastructure and with caches, on rings of agents
# that pass one token.
#
#   bench/caches.sh [PROGRAM] [ROUNDS]
#
# It builds nothing: PROGRAM is the built program, by default crates/np/out/np. Each run is made ROUNDS times, by
# default 20. The first ring is that of `gen N`, in which each agent moves before it hands the token on; its times are
# those of `load N`. In the second no agent moves: it is the same source without its migrations, so all agents stay at
# the first site and each hint in a cache stays true. Its times are those of `run`, which also writes the 10 N lines
# that are printed.
#
# The counts are read off what `run --serial --history --high` writes, where the sites take turns one after another;
# on threads another schedule may give others with caches. `events` are the lines of the history. `messages` are those
# to an agent wherever it is: the Post events of the high-level run that is read off. `by daemon` are those that the
# daemon took and passed on, among them those that a messenger sent on because it did not find the agent. The daemon
# takes each by its server of `message`, a replicated input, in an event of kind Rep. In a line of a history
#
#   SITE KIND ACTOR OTHER NODE ROLE MADE1 MADE2 [HIGH]
#
# a Rep has as its ACTOR the mark of the replicated input, which stays as it is. So the Rep events with the mark of
# that server are counted. The mark is found in the first events of the daemon. Its process is one bracket of the map,
# main's lock and its servers, under the mark S.12, where S is the number of sites. Each Fork of S.12 splits off the
# last part that is left, which gets the mark MADE1. With the central infrastructure the last part is the server of
# `dack`, and that of `message` stands before it; with caches that of `where` stands behind both. So the mark of the
# server of `message` is made by the second Fork of S.12, and with caches by the third. The map is left under S.12,
# and no other process comes to stand there.
#
# The times are of whole calls, in seconds: one site after another, and on threads. Run it on an idle machine.
set -euo pipefail
cd "$(dirname "$0")/.."
source bench/parts.sh

budget=200000
daemon=4.12

# rested WORD..: nanoseconds of all rounds of the program with these words, whose run has to come to rest
rested() {
    took "$@"
    [ "$(tail -n 1 "$folder/told")" = 'at rest' ] || { echo "$* did not come to rest" >&2; exit 1; }
}

# counted AGENTS KIND: the events of a run of ring.np with this infrastructure, its messages, and those that the
# daemon took. The run has to come to rest and to print ten lines for each agent. Names are compared as words: as
# numbers 0.3 and 0.30 would be equal.
counted() {
    local fork=2
    [ "$2" = central ] || fork=3
    "$program" run "$folder/ring.np" --serial --history --high --budget "$budget" --infra "$2" >"$folder/counted"
    awk -v agents="$1" -v kind="$2" -v daemon="$daemon" -v fork="$fork" '
        /^history [12]$/ { part = "history"; next }
        /^high 1$/ { part = "high"; next }
        /^end$/ { part = "behind"; next }
        part == "" { said++ }
        part == "history" {
            events++
            if ($2 == "Fork" && ($3 "") == (daemon "") && ++forks == fork) server = $7 ""
            if ($2 == "Rep" && ($3 "") == server) taken++
        }
        part == "high" && $2 == "Post" { messages++ }
        END {
            if (said != 10 * agents || server == "" || $0 != "at rest") {
                print agents " agents, " kind ": not the run of a ring" >"/dev/stderr"
                exit 1
            }
            printf "%10d %10d %10d", events, messages, taken
        }' "$folder/counted"
}

# row RING AGENTS KIND WORD..: the counts of ring.np with this infrastructure, and the times of these words with it
row() {
    local ring=$1 agents=$2 kind=$3 counts serial threads
    shift 3
    counts=$(counted "$agents" "$kind")
    serial=$(rested "$@" --infra "$kind" --serial)
    threads=$(rested "$@" --infra "$kind")
    awk -v ring="$ring" -v agents="$agents" -v kind="$kind" -v counts="$counts" \
        -v serial="$serial" -v threads="$threads" -v rounds="$rounds" 'BEGIN {
        printf "%-8s %8d %-8s %s %12.4f %12.4f\n", ring, agents, kind, counts, serial / rounds / 1e9, threads / rounds / 1e9
    }'
}

printf '%-8s %8s %-8s %10s %10s %10s %12s %12s\n' ring agents infra events messages 'by daemon' 'serial s' 'threads s'
for agents in 10 30 100; do
    "$program" gen "$agents" >"$folder/ring.np"
    for kind in central cache; do
        row moving "$agents" "$kind" load "$agents"
    done
    sed -e 's/migrate to s[0-3] -> //' "$folder/ring.np" >"$folder/still.np"
    mv "$folder/still.np" "$folder/ring.np"
    for kind in central cache; do
        row still "$agents" "$kind" run "$folder/ring.np" --budget "$budget"
    done
done
