#!/usr/bin/env bash
# Counts by valgrind what a later complete collection over chains of ephemerons takes, in instructions: those in which the data of each
# ephemeron are the key of the next, linked in the order in which a domain lists them, against it, and in an order drawn by chance; the
# same with the ephemerons dealt to several domains; and those in which the data are a block whose field leads to the next key. All
# domains are in one thread, so the counts are the same in each run; of a program that needs a thread for each domain it says `none`.
# It counts for each program that its words name, else for the proved one. It claims nothing.
. "$(dirname "${BASH_SOURCE[0]}")/begin.sh"
programs=("$@")
if [ $# = 0 ]; then
    program_here camlheap
    programs=(camlheap)
else
    cp "${programs[@]}" "$work/"
fi
chmod -R a+rwX "$work"
. "$top/examples/limited.sh"

# A script of $4 domains with a chain of $1 ephemerons, linked in the order $2, through fields where $3 is `fields`, and $5 complete
# collections. Each domain makes its share of the ephemerons and keeps them in blocks of 1000; domain 0 waits until all stand there,
# links them, and collects.
chain() {
    awk -v count="$1" -v order="$2" -v through="$3" -v domains="$4" -v times="$5" '
    function make(d, k) {
        for (k = 0; k < count; k++) {
            if (k % 1000 == 0) print d == 0 ? "allocmaj 1 0 1022\nstore 0 " 1 + k / 1000 " 1" : "load 1 0 " 1 + k / 1000
            if (k % domains == d) print "ephe 2 1\nstore 1 " k % 1000 " 2"
        }
    }
    function link(k) {
        print "load 1 0 " 1 + int(k / 1000) "\nload 2 1 " k % 1000 "\nset_key 2 0 3"
        if (through == "fields") print "allocmaj 4 0 1\nset_data 2 4\nallocmaj 3 0 1\nstore 4 0 3"
        else print "allocmaj 3 0 1\nset_data 2 3"
    }
    function wait(polls) { for (; polls > 0; polls--) print "poll" }
    BEGIN {
        print "heap 2\ndomain 0"
        make(0)
        if (domains > 1) wait(20000)
        print "allocmaj 3 0 1\nstore 0 0 3"
        srand(5)
        for (k = 0; k < count; k++) place[k] = order == "against" ? count - 1 - k : k
        for (k = count - 1; order == "shuffled" && k > 0; k--) {
            other = int(rand() * (k + 1))
            kept = place[k]
            place[k] = place[other]
            place[other] = kept
        }
        for (k = 0; k < count; k++) link(place[k])
        print "drop 1\ndrop 2\ndrop 3\ndrop 4"
        for (k = 0; k < times; k++) print "full_major"
        for (d = 1; d < domains; d++) {
            print "domain " d
            wait(3000)
            make(d)
            print "drop 1\ndrop 2"
        }
    }'
}

# How many instructions a run of the script makes in the program $1, with $2 domains, or `none` where not $3 blocks are left at last.
count() {
    limited 1 valgrind --tool=callgrind --callgrind-out-file="$work/counted" "$work/$1" run --domains "$2" --minor 4096 --pools 800 \
        <"$work/script" >"$work/out" 2>"$work/error" || true
    if [ "$(awk '/^live/ { live = $2 } END { print live + 0 }' "$work/out")" -lt "$3" ]; then
        echo none
    else
        awk '/^summary:/ { print $2 }' "$work/counted"
    fi
}

# Prints a row: what a later collection over the chain takes in each program.
row() {
    local program few many
    printf '%-8s%-10s%-8s%-9s' "$@"
    for program in "${programs[@]##*/}"; do
        chain "$@" 2 >"$work/script"
        few=$(count "$program" "$4" $((2 * $1)))
        chain "$@" 4 >"$work/script"
        many=$(count "$program" "$4" $((2 * $1)))
        if [ "$few" = none ] || [ "$many" = none ]; then printf '%14s' none; else printf '%14d' $(((many - few) / 2)); fi
    done
    echo
}

printf '%-8s%-10s%-8s%-9s' links order through domains
printf '%14s' "${programs[@]##*/}"
echo
for links in 1000 2000; do
    for order in along against shuffled; do row "$links" "$order" data 1; done
done
for domains in 2 4; do
    for order in along against shuffled; do row 250 "$order" data "$domains"; done
done
row 500 against data 2
for links in 125 250 500; do row "$links" along fields 1; done
