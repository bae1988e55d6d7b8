#!/usr/bin/env bash
# Writes a source of N sites, 2 to 128, with an agent at each site but the first.
#
#   bench/sites-source.sh posts N > posts.np      each agent sends main 40 numbers, wherever main is
#   bench/sites-source.sh own N > own.np          each agent counts for ever, and sends nothing
set -euo pipefail

case ${1:-} in
posts) body='*d?x -> if x < 40 then (d!(x + 1) | <main@?>c!x) else 0' ;;
own) body='*d?x -> d!(x + 1)' ;;
*) echo 'usage: bench/sites-source.sh posts|own N' >&2 && exit 2 ;;
esac
sites=${2:?how many sites}

echo "sites $(for ((site = 0; site < sites; site++)); do printf 's%d ' "$site"; done);"
echo 'main at s0 ='
echo 'new c : ^Int in'
for ((site = 1; site < sites; site++)); do
    echo "agent b$site = migrate to s$site -> new d : ^Int in ($body | d!0) in"
done
echo 0
