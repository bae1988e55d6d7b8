#!/usr/bin/env bash
# Prints how many instructions an event of the serial run takes, on rings of agents that pass one token.
#
#   bench/instructions.sh [PROGRAM]
#
# It builds nothing: PROGRAM is the built program, by default crates/np/out/np. The source of a ring of N agents is that of
# `gen N`; its run at the high level has 81 N + 37 events. The instructions are counted by valgrind, so the load of the machine does
# not matter. Those of `check` of the same source (the start of the process, the reading, the types) are taken off those of
# `high`.
set -euo pipefail
cd "$(dirname "$0")/.."
source bench/parts.sh

whole() {
    instructions high "$folder/ring.np"
}

reading() {
    instructions check "$folder/ring.np"
}

rings 81 37
