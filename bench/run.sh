#!/usr/bin/env bash
# Times `camlheap run` on generated scripts: 10,000 and 100,000 commands in all, with 1, 2 and 4 domains.
# Prints commands per second, and the ratios between sizes and between numbers of domains. It claims nothing.
. "$(dirname "${BASH_SOURCE[0]}")/begin.sh"

# A script of $1 domains with $2 commands in all: stores to and loads from the shared block, each domain in its own field.
script() {
    awk -v domains="$1" -v commands="$2" 'BEGIN {
        print "heap 1"
        for (d = 0; d < domains; d++) {
            print "domain " d
            for (k = 0; k < commands / domains; k++) {
                if (k % 4 == 0) print "int 1 " k
                else if (k % 4 == 1) print "store 0 " d " 1"
                else if (k % 4 == 2) print "load 2 0 " d
                else print "move 3 2"
            }
        }
    }'
}

# Seconds of one run of $1 domains with $2 commands, the least of three.
seconds() {
    script "$1" "$2" >"$work/script"
    for _ in 1 2 3; do
        start=$(date +%s.%N)
        "$top/camlheap" run --domains "$1" <"$work/script" >"$work/out"
        end=$(date +%s.%N)
        echo "$start $end"
    done | awk '{ t = $2 - $1; if (NR == 1 || t < least) least = t } END { print least }'
}

"$top/camlheap" run --domains 1 <"$top/examples/chain.heap" >/dev/null
echo "processors: $(nproc)"
for domains in 1 2 4; do
    small=$(seconds "$domains" 10000)
    large=$(seconds "$domains" 100000)
    awk -v d="$domains" -v s="$small" -v l="$large" 'BEGIN {
        printf "domains %d: 10000 commands %.0f a second, 100000 commands %.0f a second, cost a command large / small %.2f\n", d, 10000 / s, 100000 / l, (l / 100000) / (s / 10000)
    }'
    echo "$domains $large" >>"$work/all"
done
awk 'NR == 1 { one = $2 } { printf "100000 commands with %d domains take %.2f of the time with 1\n", $1, $2 / one }' "$work/all"
