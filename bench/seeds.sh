#!/usr/bin/env bash
# Runs a source by many seeds, and has np follow each run.
#
#   bench/seeds.sh SOURCE [SEEDS] [INFRA] [NP] [NP_LOOK]
#
# It builds nothing: NP and NP_LOOK are the built programs, by default crates/np/out/np and crates/np_look/out/np_look. For each
# of the seeds 1 to SEEDS, by default 1,000, the run of the low program with INFRA, by default central, is replayed by np, and
# resumed by it; and the run of the source by the same seed is followed by np_look. Each has to print what the run printed, so the
# runs have to come to rest. It prints how many runs were followed, and how many different outputs came; with a run that was not
# followed it ends with status 1.
set -euo pipefail
cd "$(dirname "$0")/.."
source=${1:?"a source is missing"}
seeds=${2:-1000}
infra=${3:-central}
np=${4:-crates/np/out/np}
look=${5:-crates/np_look/out/np_look}
folder=$(mktemp -d)
trap 'rm -rf "$folder"' EXIT

# What stands before the history, and before the last line.
printed() { sed '/^history [12]$/,$d; /^high 1$/,$d; /^at rest$/d; /^budget spent$/d; /^a run of /d' "$1"; }

failed=0
for ((seed = 1; seed <= seeds; seed++)); do
    "$look" run "$source" --seed "$seed" --level low --infra "$infra" --history >"$folder/low" || [ $? -eq 1 ]
    "$np" replay "$source" "$folder/low" --infra "$infra" >"$folder/replayed" || true
    "$np" resume "$source" "$folder/low" --infra "$infra" --serial >"$folder/resumed" || true
    "$look" run "$source" --seed "$seed" --level high --history >"$folder/high" || [ $? -eq 1 ]
    "$look" follow "$source" "$folder/high" >"$folder/followed" || true
    for pair in low:replayed low:resumed high:followed; do
        if ! cmp -s <(printed "$folder/${pair%:*}") <(printed "$folder/${pair#*:}") ||
            ! grep -q '^a run of \|^at rest$' "$folder/${pair#*:}"; then
            echo "seed $seed: the ${pair%:*} run is not followed"
            failed=1
        fi
    done
    printed "$folder/low" | tr '\n' '/' >>"$folder/outputs-low"
    echo >>"$folder/outputs-low"
    printed "$folder/high" | tr '\n' '/' >>"$folder/outputs-high"
    echo >>"$folder/outputs-high"
done
for level in high low; do
    echo "$level: $seeds runs, $(sort -u "$folder/outputs-$level" | wc -l) outputs"
done
exit "$failed"
