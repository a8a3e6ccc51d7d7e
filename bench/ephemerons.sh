#!/usr/bin/env bash
# Times complete collections of ephemerons: of 10^3, 10^4 and about 10^5 ephemerons of one key, half of which nothing leads to, and
# of chains of ephemerons, each of whose data is the key of the one that was made before, so that a look through the list in the
# order of making finds one more datum to mark. The fastest of several runs counts. It claims nothing.
. "$(dirname "${BASH_SOURCE[0]}")/begin.sh"
program_here camlheap
runs=${RUNS:-7}

# Seconds of one run of the script $1, the least of several. Its last reply must be $2.
seconds() {
    for _ in $(seq "$runs"); do
        start=$(date +%s.%N)
        "$work/camlheap" run --domains 1 --minor 4096 --pools 600 <"$1" >"$work/out"
        end=$(date +%s.%N)
        if [ "$(tail -n 1 "$work/out")" = "$2" ]; then echo "$start $end"; fi
    done | awk '{ t = $2 - $1; if (NR == 1 || t < least) least = t } END { print NR ? least : "none" }'
}

# A script that makes $1 ephemerons of one key. Each second one is dropped at once; the key of each other one is the common
# block, and a field of a block keeps it, 125 in each, which the last field links. Then come $2 complete
# collections, and at last the command $3.
halves() {
    awk -v count="$1" -v times="$2" -v last="$3" 'BEGIN {
        print "heap 1\ndomain 0"
        for (k = 0; k < count / 2; k++) {
            if (k % 125 == 0) {
                print "allocmaj 4 0 126"
                if (k > 0) print "store 4 125 1"
                print "move 1 4"
            }
            print "ephe 3 1\nephe 2 1\nset_key 2 0 0\nstore 1 " k % 125 " 2"
        }
        print "drop 2\ndrop 3\ndrop 4"
        for (k = 0; k < times; k++) print "full_major"
        print last
    }'
}

# A chain of $1 ephemerons, kept in blocks of 120 fields, and $2 complete collections. The ephemerons are made first, and then
# linked from the last to the first.
chain() {
    awk -v count="$1" -v times="$2" 'BEGIN {
        print "heap 1\ndomain 0"
        for (k = 0; k < count; k++) {
            if (k % 120 == 0) print "allocmaj 1 0 126\nstore 0 " 1 + int(k / 120) " 1"
            print "ephe 2 1\nstore 1 " k % 120 " 2"
        }
        print "allocmaj 3 0 1\nstore 0 0 3"
        for (k = count - 1; k >= 0; k--) {
            print "load 1 0 " 1 + int(k / 120) "\nload 2 1 " k % 120
            print "set_key 2 0 3\nallocmaj 3 0 1\nset_data 2 3"
        }
        print "drop 1\ndrop 2\ndrop 3"
        for (k = 0; k < times; k++) print "full_major"
    }'
}

for count in 1000 10000 99000; do
    halves "$count" 0 minor >"$work/minor"
    halves "$count" 0 full_major >"$work/first"
    halves "$count" 40 full_major >"$work/many"
    blocks=$(((count / 2 + 124) / 125))
    last="live $((count / 2 + 1 + blocks)) $((count / 2 * 4 + 18 + 128 * blocks))"
    awk -v n="$count" -v minor="$(seconds "$work/minor" ok)" -v first="$(seconds "$work/first" "$last")" -v many="$(seconds "$work/many" "$last")" 'BEGIN {
        printf "%d ephemerons, half of them dead: the first full_major takes %.2f ms more than a minor collection, each later one %.3f ms, %.0f ns for each that is left\n", n, (first - minor) * 1e3, (many - first) / 40 * 1e3, (many - first) / 40 / (n / 2) * 1e9
    }'
done
for count in 250 500 1000; do
    chain "$count" 1 >"$work/one"
    chain "$count" 11 >"$work/many"
    blocks=$(((count + 119) / 120))
    last="live $((1 + blocks + 2 * count + 1)) $((18 + 128 * blocks + 7 * count + 3))"
    awk -v n="$count" -v one="$(seconds "$work/one" "$last")" -v many="$(seconds "$work/many" "$last")" 'BEGIN {
        printf "a chain of %d in the worst order: a full_major takes %.2f ms, %.2f us for each ephemeron\n", n, (many - one) / 10 * 1e3, (many - one) / 10 / n * 1e6
    }'
done
