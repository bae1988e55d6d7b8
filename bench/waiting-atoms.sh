#!/usr/bin/env bash
# Prints how many instructions an event of a run on one site takes, where one agent has so many waiting atoms.
#
#   bench/waiting-atoms.sh [PROGRAM]
#
# It builds nothing: PROGRAM is the built program, by default crates/np/out/np. In the first column the atoms wait on one channel
# for what never comes, while another atom of the agent goes on counting: the instructions are those by which a run of 30,000 events
# exceeds one of 25,000. In the second, each input that waits is woken by the one before it: the instructions are those by which a run
# in which almost all were woken exceeds one in which a quarter was. They are counted by valgrind, so the load of the machine does
# not matter.
set -euo pipefail
cd "$(dirname "$0")/.."
source bench/parts.sh

# waiting NUMBER LEAF: the process that is NUMBER leaves side by side, as a balanced tree
waiting() {
    if (($1 == 1)); then
        printf '%s' "$2"
    else
        printf '('
        waiting $(($1 / 2)) "$2"
        printf '|'
        waiting $(($1 - $1 / 2)) "$2"
        printf ')'
    fi
}

# spent WORD..: the instructions of a call whose budget is spent
spent() {
    instructions "$@" || true
}

printf '%8s %16s %16s\n' atoms 'while they wait' 'woken in turn'
for atoms in 10 100 1000 10000; do
    {
        printf 'sites home ; main at home = new c : ^Int in ('
        waiting "$atoms" 'c?x -> 0'
        printf '| new d : ^Int in (*d?x -> d!(x + 1) | d!0))\n'
    } >"$folder/idle.np"
    {
        printf 'sites home ; main at home = new c : ^Int in ('
        waiting "$atoms" 'c?x -> c!(x + 1)'
        printf '| c!0)\n'
    } >"$folder/woken.np"
    less=$(spent run "$folder/idle.np" --serial --budget 25000)
    more=$(spent run "$folder/idle.np" --serial --budget 30000)
    quarter=$((atoms + atoms / 4 + 2))
    few=$(spent run "$folder/woken.np" --serial --budget "$quarter")
    most=$(spent run "$folder/woken.np" --serial --budget $((2 * atoms)))
    printf '%8d %16d %16d\n' "$atoms" $(((more - less) / 5000)) $(((most - few) / (2 * atoms - quarter)))
done
