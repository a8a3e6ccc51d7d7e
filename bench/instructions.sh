#!/usr/bin/env bash
# Counts instructions by valgrind: what a command of each kind costs between scripts of 20,000 and 100,000 commands of one domain in
# the usual heap, and what the first complete collection costs that queues finalisers. It counts for each program that its words name,
# else for the proved one and for its twin without a proof, bench/twin, which it builds. It claims nothing.
. "$(dirname "${BASH_SOURCE[0]}")/begin.sh"
programs=("$@")
if [ $# = 0 ]; then
    program_here proved
    rustc -O --edition 2024 -o "$work/twin" "$top/bench/twin/main.rs"
    programs=("$work/proved" "$work/twin")
fi

# The commands that come before those that are counted, one line each, and those that are done over and over, with k for their number.
declare -A before=(
    [load]='alloc 1 0 4' [store]='alloc 1 0 4|int 2 7' [get_key]='ephe 1 2|set_key 1 0 0'
    [set_key]='ephe 1 2' [check_key]='ephe 1 2|set_key 1 0 0' [get_data]='ephe 1 2|set_data 1 0' [set_data]='ephe 1 2'
    [cas]='alloc 1 0 4|int 2 0|int 3 0'
)
declare -A again=(
    [private]='alloc 1 0 4|int 2 k|store 1 k%4 2|load 3 1 k%4' [shared]='int 1 k|store 0 0 1|load 2 0 0|store 0 15 1|load 2 0 15'
    [large]='alloc 1 0 126|store 1 k%126 0|load 2 1 k%126|drop 1' [alloc_4]='alloc 1 0 4' [alloc_126]='alloc 1 0 126'
    [allocmaj_4]='allocmaj 1 0 4' [int]='int 1 7' [load]='load 2 1 1' [store]='store 1 1 2' [poll]='poll' [move]='move 1 0'
    [drop]='drop 1' [set_key]='set_key 1 0 0' [get_key]='get_key 2 1 0' [check_key]='check_key 1 0' [set_data]='set_data 1 0'
    [get_data]='get_data 2 1' [cas]='cas 1 1 2 3'
)
kinds=(private shared large alloc_4 alloc_126 allocmaj_4 int load store poll move drop set_key get_key check_key set_data get_data cas)

# A script of $1 commands of the kind $2, beyond those that come before them. An exchange is of version 2 alone.
script() {
    awk -v commands="$1" -v before="${before[$2]:-}" -v again="${again[$2]}" -v version="$(($([ "$2" = cas ] && echo 1) + 1))" 'BEGIN {
        print "heap " version "\ndomain 0"
        first = split(before, prepared, "|")
        for (i = 1; i <= first; i++) print prepared[i]
        each = split(again, lines, "|")
        for (i = 1; i <= each; i++) {
            modulus[i] = index(lines[i], "k%126") ? 126 : index(lines[i], "k%4") ? 4 : 0
            counts[i] = substr(lines[i], length(lines[i])) == "k"
        }
        for (k = 0; k < commands / each; k++) {
            for (i = 1; i <= each; i++) {
                line = lines[i]
                # A substitution is dear, so none is made where nothing is to be put in.
                if (modulus[i] == 126) sub(/k%126/, k % 126, line)
                if (modulus[i] == 4) sub(/k%4/, k % 4, line)
                if (counts[i]) sub(/k$/, k, line)
                print line
            }
        }
    }'
}

# How many instructions a run of the script makes in the program $1, with the words $2.. .
count() {
    local program=$1
    shift
    valgrind --tool=callgrind --callgrind-out-file="$work/counted" "$program" run --domains 1 "$@" <"$work/script" >"$work/out" 2>"$work/error"
    awk '/^summary:/ { print $2 }' "$work/counted"
}

# What one command of the kind $1 costs in each program.
costs() {
    local program
    for program in "${programs[@]}"; do
        script 20000 "$1" >"$work/script"
        few=$(count "$program")
        script 100000 "$1" >"$work/script"
        echo $((($(count "$program") - few) / 80000))
    done
}

# What the first complete collection over $1 registrations costs in each program, beyond a run without it.
first_collections() {
    local program
    for program in "${programs[@]}"; do
        halves "$1" 0 >"$work/script"
        none=$(count "$program" --minor 4096 --pools 600)
        halves "$1" 1 >"$work/script"
        echo $(($(count "$program" --minor 4096 --pools 600) - none))
    done
}

line() {
    printf '%-28s' "$1"
    shift
    printf '%12s' "$@"
    echo
}

line "a command" "${programs[@]##*/}"
for kind in ${KINDS:-"${kinds[@]}"}; do
    mapfile -t each < <(costs "$kind")
    line "$kind" "${each[@]}"
done
for registrations in ${REGISTRATIONS-20000 100000}; do
    mapfile -t each < <(first_collections "$registrations")
    line "$registrations registrations" "${each[@]}"
done
