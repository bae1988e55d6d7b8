#!/usr/bin/env bash
# Prints how many instructions an event of a run on sites takes, where the sites take their turns one after another, on rings of
# agents that pass one token.
#
#   bench/site-instructions.sh [PROGRAM]
#
# It builds nothing: PROGRAM is the built program, by default crates/np/out/np. `load N --serial` runs the source of `gen N`, a ring
# of N agents on four sites, which makes 680 N + 215 events. The instructions are counted by valgrind, so the load of the machine
# does not matter. Those of `low` of the same source (the start of the process, the reading, the types, the translation and its
# text) are taken off.
set -euo pipefail
cd "$(dirname "$0")/.."
source bench/parts.sh

whole() {
    instructions load "$1" --serial
}

reading() {
    instructions low "$folder/ring.np"
}

rings 680 215
