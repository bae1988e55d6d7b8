#!/usr/bin/env bash
# Prints how many bytes a second the program reads and writes back, on sources of three sizes.
#
#   bench/show.sh [PROGRAM] [ROUNDS]
#
# It builds nothing: PROGRAM is the built program, by default crates/np/out/np. Each source is shown ROUNDS times, by
# default 5. The sources are spaces (which are refused at their end), a list of names, deep but legal nesting, and
# tuples of strings. What the start of the process takes is measured on a source of a few bytes, and left out; where
# what is left is less than a tenth of it, no figure is given.
set -euo pipefail
cd "$(dirname "$0")/.."
program=${1:-crates/np/out/np}
rounds=${2:-5}
folder=$(mktemp -d)
trap 'rm -r "$folder"' EXIT

# times TEXT COUNT [BETWEEN]: the text so often, with this between
times() {
    awk -v text="$1" -v count="$2" -v between="${3:-}" 'BEGIN {
        for (i = 0; i < count; i++) printf "%s%s", i ? between : "", text
    }'
}

spaces() { times ' ' "$1"; }

names() {
    printf 'sites '
    awk -v bytes="$1" 'BEGIN { for (i = 0; done < bytes - 64; i++) { name = "a" i " "; done += length(name); printf "%s", name } }'
    printf '; main at a0 = 0\n'
}

# Each chain of 75 inputs has some 530 bytes, and 60 of them stand in a bracket: 194 levels in all at the most.
nesting() {
    local chain bracket
    chain="$(times 'c?x -> ' 75)0"
    bracket="($(times "$chain" 60 '|'))"
    printf 'sites a ; main at a = (0|%s)\n' "$(times "$bracket" $(($1 / ${#bracket})) '|')"
}

# Tuples of 16 strings of 1,000 bytes, at most 16 in a tuple, and these at most 16 in the outer one.
strings() {
    local tuple
    tuple="[$(times "\"$(times x 1000)\"" 16 ' ')]"
    printf 'sites a ; main at a = print [%s]\n' "$(awk -v tuple="$tuple" -v count=$(($1 / ${#tuple})) 'BEGIN {
        for (i = 0; i < count; i++) printf "%s%s", i % 16 ? "" : (i ? "][" : "["), tuple
        printf "]"
    }')"
}

# took FILE: nanoseconds of all rounds
took() {
    local begin end
    begin=$(date +%s%N)
    for ((round = 0; round < rounds; round++)); do
        "$program" show "$1" >"$folder/shown" 2>&1 || [ $? -eq 3 ]
    done
    end=$(date +%s%N)
    echo $((end - begin))
}

printf 'sites a ; main at a = 0\n' >"$folder/least.np"
least=$(took "$folder/least.np")
printf '%10s %10s %12s %16s\n' source bytes 'ms a source' 'bytes a second'
for source in spaces names nesting strings; do
    for size in 65536 262144 1048576; do
        "$source" "$size" | head -c 1048576 >"$folder/source.np"
        bytes=$(stat -c %s "$folder/source.np")
        whole=$(took "$folder/source.np")
        awk -v source="$source" -v bytes="$bytes" -v whole="$whole" -v least="$least" -v rounds="$rounds" 'BEGIN {
            rest = whole - least
            speed = rest > least / 10 ? sprintf("%d", bytes * rounds / rest * 1e9) : "too short"
            printf "%10s %10d %12.2f %16s\n", source, bytes, (rest > 0 ? rest : 0) / rounds / 1e6, speed
        }'
    done
done
