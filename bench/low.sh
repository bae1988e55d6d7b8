#!/usr/bin/env bash
# Prints how many bytes of low text a second the program writes, on rings of agents that pass one token.
#
#   bench/low.sh [PROGRAM] [ROUNDS]
#
# It builds nothing: PROGRAM is the built program, by default crates/np/out/np. The low text of each ring is written ROUNDS
# times, by default 20. A ring of N agents is `bench/ring-source.sh N`: it has a creation, a migration and two posts for each
# agent. The last column is of the whole, from the start of the process on. What the start, the reading of the source and the
# check of its types take of it is measured by `check` of the same source; the translation and the writing are the rest.
set -euo pipefail
cd "$(dirname "$0")/.."
source bench/parts.sh

printf '%8s %8s %12s %14s %16s\n' agents bytes 'ms a text' 'of it reading' 'bytes a second'
for agents in 10 30 100; do
    bench/ring-source.sh "$agents" >"$folder/ring.np"
    reading=$(took check "$folder/ring.np")
    whole=$(took low "$folder/ring.np")
    awk -v agents="$agents" -v bytes="$(stat -c %s "$folder/told")" -v whole="$whole" -v reading="$reading" -v rounds="$rounds" 'BEGIN {
        printf "%8d %8d %12.2f %14.2f %16d\n", agents, bytes, whole / rounds / 1e6, reading / rounds / 1e6, bytes * rounds / whole * 1e9
    }'
done
