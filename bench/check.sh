#!/usr/bin/env bash
# Prints how many process nodes a second the program checks, on full binary trees of parallel processes.
#
#   bench/check.sh [PROGRAM] [ROUNDS]
#
# It builds nothing: PROGRAM is the built program, by default crates/np/out/np. Each tree is checked ROUNDS times, by
# default 20. A tree of N leaves has 4 N - 1 nodes: N - 1 compositions, and a `new`, a `let` and an output at each leaf.
# The last column is of the whole check, from the start of the process on. What the reading of the source and the resolving
# of its names take of it is measured on the same tree beside a use of a name that stands for nothing, which is found
# behind the tree; the check of types is the rest, of which there is little.
set -euo pipefail
cd "$(dirname "$0")/.."
source bench/parts.sh

printf '%8s %12s %14s %16s\n' nodes 'ms a check' 'of it reading' 'nodes a second'
for depth in 10 12 14; do
    nodes=$((4 * (1 << depth) - 1))
    process=$(tree "$depth" 'new c : ^Int in let x = 1 in c!x')
    source_of "$process" >"$folder/tree.np"
    source_of "($process|print nothing)" >"$folder/refused.np"
    reading=$(took check "$folder/refused.np")
    whole=$(took check "$folder/tree.np")
    awk -v nodes="$nodes" -v whole="$whole" -v reading="$reading" -v rounds="$rounds" 'BEGIN {
        printf "%8d %12.2f %14.2f %16d\n", nodes, whole / rounds / 1e6, reading / rounds / 1e6, nodes * rounds / whole * 1e9
    }'
done
