#!/usr/bin/env bash
# Writes the source of a ring of N agents, N from 1 to 100, that pass one token ten times round.
#
#   bench/ring-source.sh N
#
# The token is a number. Each agent that gets it moves to the next site, hands it on as the next number, and tells main
# what it was; main prints each number once, from 0 to 10 N - 1, and sends the token round again.
set -euo pipefail
agents=$1

echo 'sites s0 s1 s2 s3 ;'
echo 'main at s0 = new go : ^Int in new tick : ^Int in'
for ((i = 1; i <= agents; i++)); do
    before=main
    ((i == 1)) || before=a$((i - 1))
    echo "agent a$i = *go?k -> migrate to s$((i % 4)) -> (<$before@?>go!k + 1 | <main@?>tick!k) in"
done
echo "(*tick?k -> print k | *go?k -> if k < $((10 * agents)) then <a$agents@?>go!k else 0 | go!0)"
