#!/usr/bin/env bash
# Times complete collections over 10^4 and 10^5 registrations of finalisers, of each kind, half of them on blocks to which nothing
# leads. Each block has two. The fastest of several runs counts. It claims nothing.
# With the word stress it runs scripts of 1 to 8 domains, each of up to 600 commands drawn by chance, and checks that each run ends,
# that each command has its reply, and that no finaliser runs twice.
. "$(dirname "${BASH_SOURCE[0]}")/begin.sh"
program_here camlheap
runs=${RUNS:-7}

# Seconds of one run of the script $1, the least of several. So many finalisers as $2 must have run, and the last reply of a
# collection must be $3.
seconds() {
    for _ in $(seq "$runs"); do
        start=$(date +%s.%N)
        "$work/camlheap" run --domains 1 --minor 4096 --pools 600 <"$1" >"$work/out"
        end=$(date +%s.%N)
        if [ "$(grep -c '^fin \|^last ' "$work/out")" = "$2" ] && [ "$(grep '^live' "$work/out" | tail -n 1)" = "$3" ]; then
            echo "$start $end"
        fi
    done | awk '{ t = $2 - $1; if (NR == 1 || t < least) least = t } END { print NR ? least : "none" }'
}

# A script with $1 registrations of the kind $2, of which each block has two. Each second block is dropped at once; a field of another
# block keeps each other one, 125 in each, which the last field links. Then come $3 complete collections.
halves() {
    awk -v count="$1" -v kind="$2" -v times="$3" 'BEGIN {
        dst = kind == "finalise" ? " 5" : ""
        print "heap 1\ndomain 0"
        for (k = 0; k < count / 4; k++) {
            if (k % 125 == 0) {
                print "allocmaj 4 0 126"
                if (k > 0) print "store 4 125 1"
                print "move 1 4"
            }
            print "allocmaj 2 0 1\n" kind " 2 1" dst "\n" kind " 2 2" dst
            print "allocmaj 3 0 1\n" kind " 3 3" dst "\n" kind " 3 4" dst "\nstore 1 " k % 125 " 3"
        }
        print "drop 2\ndrop 3\ndrop 4\nminor"
        for (k = 0; k < times; k++) print "full_major"
    }'
}

# What a collection leaves in which $1 blocks with finalisers live, and $2 that keep half of them.
live() {
    echo "live $(($1 + $2 + 1)) $(($1 * 3 + $2 * 128 + 18))"
}

# A script of $1 domains with commands drawn by chance from the seed $2. Each registration of a domain has a number of its own.
by_chance() {
    awk -v domains="$1" -v seed="$2" '
    function any(n) { return int(rand() * n) }
    function command(k) {
        if (k < 24) return "alloc " any(8) " 0 " 1 + any(3)
        if (k < 30) return "allocmaj " any(8) " 0 " 1 + any(3)
        if (k < 36) return "ephe " any(8) " " 1 + any(2)
        if (k < 40) return "set_key " any(8) " " any(2) " " any(8)
        if (k < 44) return "set_data " any(8) " " any(8)
        if (k < 48) return "get_data " any(8) " " any(8)
        if (k < 58) return "store " any(8) " " any(3) " " any(8)
        if (k < 64) return "load " any(8) " " any(8) " " any(3)
        if (k < 72) return "finalise " any(8) " " number++ " " any(8)
        if (k < 78) return "finalise_last " any(8) " " number++
        if (k < 90) return "drop " any(8)
        if (k < 93) return "minor"
        if (k < 96) return "major"
        return "full_major"
    }
    BEGIN {
        srand(seed)
        print "heap 1"
        for (d = 0; d < domains; d++) {
            print "domain " d
            number = 0
            for (left = any(600); left > 0; left--) print command(any(100))
        }
    }'
}

# What is wrong in the output $2 of the script $1.
wrong() {
    awk 'FNR == 1 { file++ } /^heap/ { next } /^domain/ { d = $2; next }
        file == 1 { commands[d]++; next }
        /^(fin|last) / { if (ran[d, $2]++) print "domain " d ": " $0 " twice"; next }
        { replies[d]++ }
        END { for (d in commands) if (commands[d] != replies[d]) print "domain " d ": " replies[d] + 0 " replies to " commands[d] }' "$1" "$2"
}

if [ "${1:-}" = stress ]; then
    for domains in 1 2 4 8; do
        for seed in $(seq "$runs"); do
            by_chance "$domains" "$seed" >"$work/script"
            timeout 60 "$work/camlheap" run --domains "$domains" --minor 4096 --pools $((40 * domains + 20)) <"$work/script" >"$work/out"
            wrong "$work/script" "$work/out" >&2
            grep -c '^fin \|^last ' "$work/out" || true
        done | awk -v domains="$domains" '{ ran += $1 } END { print domains " domains: " NR " runs, " ran + 0 " finalisers ran" }'
    done
    exit
fi

for kind in finalise finalise_last; do
    for count in 10000 100000; do
        halves "$count" "$kind" 0 >"$work/minor"
        halves "$count" "$kind" 1 >"$work/first"
        halves "$count" "$kind" 41 >"$work/many"
        keepers=$(((count / 4 + 124) / 125))
        # The finaliser that ran last leaves its block in a register.
        if [ "$kind" = finalise ]; then
            first=$(live $((count / 2)) "$keepers") many=$(live $((count / 4 + 1)) "$keepers")
        else
            first=$(live $((count / 4)) "$keepers") many=$first
        fi
        awk -v n="$count" -v kind="$kind" -v minor="$(seconds "$work/minor" 0 "")" -v first="$(seconds "$work/first" $((count / 2)) "$first")" \
            -v many="$(seconds "$work/many" $((count / 2)) "$many")" 'BEGIN {
            printf "%d registrations of %s, half of them on dead blocks: the first full_major takes %.2f ms more than none, with the runs of those that it queues, each later one %.3f ms, %.0f ns for each that is left\n", n, kind, (first - minor) * 1e3, (many - first) / 40 * 1e3, (many - first) / 40 / (n / 2) * 1e9
        }'
    done
done
