# What the scripts of this folder share. It is sourced by them, and not run.

program=${1:-crates/np/out/np}
rounds=${2:-20}
examples=${3:-crates/np_examples/out/np_examples}
folder=$(mktemp -d)
trap 'rm -r "$folder"' EXIT

# tree DEPTH LEAF: the process that is a full binary tree whose 2^DEPTH leaves are LEAF
tree() {
    local text=$2
    for ((level = 0; level < $1; level++)); do
        text="($text|$text)"
    done
    echo "$text"
}

# source_of PROCESS: the source with this process of main
source_of() {
    printf 'sites home ; main at home = %s\n' "$1"
}

# took WORDS..: nanoseconds of all rounds of the program with these words; a status that is no refusal of words,
# sources or histories ends the script
took() {
    local begin end
    begin=$(date +%s%N)
    for ((round = 0; round < rounds; round++)); do
        "$program" "$@" >"$folder/told" 2>&1 || case $? in 1 | 2 | 3 | 7) ;; *) exit 1 ;; esac
    done
    end=$(date +%s%N)
    echo $((end - begin))
}

# instructions WORD..: of one call of the program, counted by valgrind
instructions() {
    valgrind --tool=cachegrind --cache-sim=no --cachegrind-out-file=/dev/null "$program" "$@" 2>&1 >/dev/null |
        awk '/I *refs/ { gsub(",", "", $NF); print $NF }'
}

# rings EACH MORE: a row for each of the rings of 10, 30 and 100 agents, whose run has EACH events an agent and MORE. The source stands in
# ring.np, and the script's own `whole AGENTS` and `reading` print the instructions of the run and of what is taken off.
rings() {
    local events all start
    printf '%8s %8s %24s\n' agents events 'instructions an event'
    for agents in 10 30 100; do
        "$program" gen "$agents" >"$folder/ring.np"
        events=$(($1 * agents + $2))
        all=$(whole "$agents")
        start=$(reading)
        printf '%8d %8d %24d\n' "$agents" "$events" $(((all - start) / events))
    done
}

# row SIZE EVENTS READING WHOLE: the size, the events of a run, its milliseconds, those of its reading, and events a second
row() {
    awk -v size="$1" -v events="$2" -v reading="$3" -v whole="$4" -v rounds="$rounds" 'BEGIN {
        rest = whole > reading ? whole - reading : 1
        printf "%8d %8d %12.2f %14.2f %26d\n", size, events, whole / rounds / 1e6, reading / rounds / 1e6, events * rounds / rest * 1e9
    }'
}

# examples_of CALL LINE..: a file of so many equal examples as there are rounds, each of the source ring.np, with this call and these lines
examples_of() {
    local call=$1
    shift
    for ((round = 0; round < rounds; round++)); do
        printf '%s\n' "example Round $round" "$call" 'text a' 'file ring.np' "$@" ''
    done
}

# tried CALL LINE..: nanoseconds of all rounds of the example with this call and these lines
tried() {
    local begin end
    examples_of "$@" >"$folder/rounds.txt"
    begin=$(date +%s%N)
    "$examples" "$folder/rounds.txt" >"$folder/told"
    end=$(date +%s%N)
    tail -n 1 "$folder/told" | grep -q '^all files: all calls passed$' || { head -n 5 "$folder/told" >&2; exit 1; }
    echo $((end - begin))
}
