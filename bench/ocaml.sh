#!/usr/bin/env bash
# Times the work of some scripts beside the same work in compiled OCaml, bench/ocaml, and prints the time that `camlheap run` takes for
# one operation divided by OCaml's: for commands on private blocks, complete collections over blocks in a chain and over ephemerons
# half of which are dead, and one that queues and runs finalisers. bench/ocaml/heap.ml says what isn't comparable. The fastest of
# several runs counts. It claims nothing. Where no OCaml is installed it says so, and times nothing.
. "$(dirname "${BASH_SOURCE[0]}")/begin.sh"
cp "$top/bench/ocaml/heap.ml" "$work/heap.ml"
if command -v ocamlfind >/dev/null; then
    compile=(ocamlfind ocamlopt)
elif command -v ocamlopt >/dev/null; then
    compile=(ocamlopt)
else
    echo "there is no ocamlopt, so nothing is compared with OCaml"
    exit 0
fi
(cd "$work" && "${compile[@]}" -o ocaml heap.ml)
program_here camlheap
runs=${RUNS:-5}

# The least number of several runs of a command that prints one.
least() {
    for _ in $(seq "$runs"); do "$@"; done | awk 'NR == 1 || $1 < least { least = $1 } END { print least }'
}

# Nanoseconds of one run of the script $1.
once() {
    local start=$EPOCHREALTIME
    "$work/camlheap" run --domains 1 --pools 300 <"$1" >"$work/out"
    awk -v start="$start" -v end="$EPOCHREALTIME" 'BEGIN { print (end - start) * 1e9 }'
}

# Prints one line: what is timed, and the ratio. One run takes $2 ns with the operations and $3 ns without, there are $4 of them, and one
# takes OCaml $5 ns.
ratio() {
    awk -v what="$1" -v with="$2" -v without="$3" -v count="$4" -v ocaml="$5" 'BEGIN {
        here = (with - without) / count
        printf "%s: camlheap %.4g ns, OCaml %.4g ns, ratio %.2f\n", what, here, ocaml, here / ocaml
    }'
}

repeat() {
    awk -v line="$1" -v times="$2" 'BEGIN { for (k = 0; k < times; k++) print line }'
}

# A script that does $1 with the count $2, and then has $3 complete collections.
script() {
    awk -v what="$1" -v count="$2" '
    # Keeps the block in register 3, or 2, in a field of the block in register 1, 125 in each, which the last field links.
    function keep(k, r) { print "store 1 " k % 125 " " r }
    function keeper(k) {
        if (k % 125) return
        print "allocmaj 4 0 126"
        if (k > 0) print "store 4 125 1"
        print "move 1 4"
    }
    function one(k) {
        if (what == "private") print "alloc 1 0 4\nint 2 " k "\nstore 1 1 2\nload 3 1 1"
        if (what == "chain") print "allocmaj " 1 + k % 2 " 0 1\nstore " 1 + k % 2 " 0 " 2 - k % 2
        if (what == "ephemerons" && k % 2 == 0) {
            keeper(k / 2)
            print "ephe 3 1\nephe 2 1\nset_key 2 0 0"
            keep(k / 2, 2)
        }
        if (what == "finalisers" && k % 4 == 0) {
            keeper(k / 4)
            print "allocmaj 2 0 1\nfinalise 2 1 5\nfinalise 2 2 5\nallocmaj 3 0 1\nfinalise 3 3 5\nfinalise 3 4 5"
            keep(k / 4, 3)
        }
    }
    BEGIN {
        print "heap 1\ndomain 0"
        for (k = 0; k < count; k++) one(k)
        if (what == "ephemerons" || what == "finalisers") print "drop 2\ndrop 3\ndrop 4"
    }'
    repeat full_major "$3"
}

# Times $3 complete collections after $1 with the count $2, beyond one of them.
collections() {
    script "$1" "$2" 1 >"$work/one"
    script "$1" "$2" $(($3 + 1)) >"$work/many"
    ratio "a full_major, $1 $2" "$(least once "$work/many")" "$(least once "$work/one")" "$3" "$(least "$work/ocaml" "$1" "$2" "$3")"
}

"$work/ocaml" private 1 1 >/dev/null
echo "processors: $(nproc), load: $(cut -d' ' -f1 /proc/loadavg), OCaml $("${compile[@]}" -version)"
script private 0 0 >"$work/none"
script private 50000 0 >"$work/all"
ratio "a command on private blocks" "$(least once "$work/all")" "$(least once "$work/none")" 200000 "$(least "$work/ocaml" private 50000 100)"
for count in 10000 60000; do
    collections chain "$count" 40
done
collections ephemerons 10000 40
script finalisers 100000 0 >"$work/none"
{ cat "$work/none"; echo full_major; } >"$work/first"
{ cat "$work/none"; echo minor; } >"$work/minor"
ratio "the first full_major, finalisers 100000, with their runs" "$(least once "$work/first")" "$(least once "$work/minor")" 1 \
    "$(least "$work/ocaml" finalisers 100000 1)"
