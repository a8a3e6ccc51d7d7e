#!/usr/bin/env bash
# Times allocations in the major heap, 100,000 blocks of each size class or as many as the largest heap has room for, and prints
# what a block of the second half costs beside one of the first. The fastest of several runs counts. It claims nothing.
. "$(dirname "${BASH_SOURCE[0]}")/begin.sh"
program=${CAMLHEAP:-$top/camlheap}
runs=${RUNS:-7}
TIMEFORMAT='%3U %3S'
# The largest heap, less the pools that are kept free for promotion and the one that is taken at the start.
pools=2048
drawable=2040

# A script of one domain that allocates $1 blocks of $2 fields.
script() {
    awk -v blocks="$1" -v fields="$2" 'BEGIN {
        print "heap 1"
        print "domain 0"
        for (k = 0; k < blocks; k++) print "allocmaj 1 0 " fields
    }'
}

# The processor seconds of a run of $1 blocks of $2 fields, none of which is answered `full`.
seconds() {
    script "$1" "$2" >"$work/script"
    for _ in $(seq "$runs"); do
        { time "$program" run --domains 1 --minor 4096 --pools "$pools" <"$work/script" >"$work/out"; } 2>&1
    done | awk '{ t = $1 + $2; if (NR == 1 || t < least) least = t } END { print least }'
    if grep -q full "$work/out"; then
        echo "pools.sh: the heap has no room for $1 blocks of $2 fields" >&2
        exit 1
    fi
}

echo "processors: $(nproc), load: $(cut -d' ' -f1 /proc/loadavg)"
for fields in 2 6 14 30 62 126; do
    words=$((fields + 2))
    room=$((drawable * (4096 / words)))
    blocks=$((room < 100000 ? room / 2 * 2 : 100000))
    none=$(seconds 0 "$fields")
    half=$(seconds $((blocks / 2)) "$fields")
    all=$(seconds "$blocks" "$fields")
    awk -v w="$words" -v n="$blocks" -v z="$none" -v h="$half" -v a="$all" 'BEGIN {
        first = (h - z) / (n / 2); second = (a - h) / (n / 2)
        printf "blocks of %3d words: %6d blocks, %.0f ns a block in the first half, %.0f in the second, ratio %.2f\n", w, n, first * 1e9, second * 1e9, second / first
    }'
done
