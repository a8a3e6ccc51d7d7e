#!/usr/bin/env bash
# Times collections of the major heap: how many blocks a second 1, 2 and 4 domains mark, what a block costs that is freed and one
# that is left, the time of a `full_major` beside 10^3, 10^4 and 10^5 blocks that are left, and what blocks cost in lists that go
# to and fro between the pools of two domains. The fastest of several runs counts. It claims nothing.
# With the word `dead` it times nothing: 1, 2, 4 and 8 domains make 100,000 blocks in the least heap, each dropped at once but one,
# with threads and without, and the runs that hang, end badly or answer an allocation `full` are counted. It ends with 1 where
# there is one.
. "$(dirname "${BASH_SOURCE[0]}")/begin.sh"
program_here camlheap
runs=${RUNS:-7}

. "$top/examples/limited.sh"

# Seconds of one run with $1 domains of the script $2, the least of several: in threads, or where $3 is `alone` in one thread, which
# turns all domains. Each `full_major` of domain 0 but those before the last $4 must find $5 blocks; other runs don't count.
seconds() {
    local run=("$work/camlheap" run --domains "$1" --minor 4096 --pools 300)
    if [ "${3:-}" = alone ]; then
        run=(limited 1 "${run[@]}")
    fi
    for _ in $(seq "$runs"); do
        start=$(date +%s.%N)
        "${run[@]}" <"$2" >"$work/out"
        end=$(date +%s.%N)
        found=$(sed '/^domain 1$/,$d' "$work/out" | grep '^live' | tail -n "$4" | sort -u | cut -d' ' -f2 | tr '\n' ' ')
        if [ "$found" = "$5 " ]; then echo "$start $end"; fi
    done | awk '{ t = $2 - $1; if (NR == 1 || t < least) least = t } END { print NR ? least : "none" }'
}

# The lines of a chain of $1 blocks of one field. Two registers take turns, so that each block leads to the one before.
chain() {
    awk -v blocks="$1" 'BEGIN { for (k = 0; k < blocks; k++) { r = 1 + k % 2; print "allocmaj " r " 0 1\nstore " r " 0 " 3 - r } }'
}

# A script of $1 domains that each make a chain of $2 blocks, which a field of the common block leads to in the end. Domain 0 waits
# a while, until the others are done, and then asks for $3 complete collections.
chains() {
    local domain
    echo "heap 1"
    for ((domain = 0; domain < $1; domain++)); do
        echo "domain $domain"
        chain "$2"
        if [ "$2" -gt 0 ]; then echo "store 0 $domain $((1 + ($2 - 1) % 2))"; fi
        if [ "$domain" = 0 ]; then
            if [ "$1" -gt 1 ]; then repeat poll 70000; fi
            repeat full_major "$3"
        fi
    done
}

repeat() {
    awk -v line="$1" -v times="$2" 'BEGIN { for (k = 0; k < times; k++) print line }'
}

# Seconds of one `full_major`: what a run of 181 takes beyond a run of one. $1 domains each hold a chain of $2 blocks.
collection() {
    local one many left=$(($1 * $2 + 1))
    chains "$1" "$2" 1 >"$work/one"
    chains "$1" "$2" 181 >"$work/many"
    one=$(seconds "$1" "$work/one" "${3:-}" 1 "$left")
    many=$(seconds "$1" "$work/many" "${3:-}" 181 "$left")
    awk -v one="$one" -v many="$many" 'BEGIN { print one == "none" || many == "none" ? "none" : (many - one) / 180 }'
}

marking() {
    local domains
    for domains in 1 2 4; do
        awk -v d="$domains" -v t="$(collection "$domains" $((60000 / domains)))" 'BEGIN {
            if (t == "none") printf "domains %d: in no run all chains were there\n", d
            else printf "domains %d: 60000 blocks are marked, and left by the sweep, in %.2f ms, %.2f million a second\n", d, t * 1e3, 0.06 / t
        }'
    done
}

# A script that makes $1 blocks and keeps none, and then asks for the collection $2.
dropped() {
    echo "heap 1"
    echo "domain 0"
    repeat "allocmaj 1 0 1" "$1"
    echo "drop 1"
    echo "$2"
    echo "full_major"
}

# The same where each block leads to the one before, and all are left.
kept() {
    echo "heap 1"
    echo "domain 0"
    chain "$1"
    echo "$2"
    echo "full_major"
}

# What the first of two collections costs beside a minor collection in its place.
sweeping() {
    local what left
    for what in dropped kept; do
        left=$([ "$what" = kept ] && echo 90001 || echo 1)
        "$what" 90000 full_major >"$work/full"
        "$what" 90000 minor >"$work/minor"
        echo "$what $(seconds 1 "$work/full" "" 1 "$left") $(seconds 1 "$work/minor" "" 1 "$left")"
    done | awk '{ printf "90000 blocks that are %s: a collection takes %.0f ns a block\n", $1, ($2 - $3) / 90000 * 1e9 }'
}

sizes() {
    local blocks none
    none=$(collection 1 0)
    for blocks in 1000 10000 99900; do
        awk -v b="$blocks" -v t="$(collection 1 "$blocks")" -v none="$none" 'BEGIN {
            printf "%d blocks are left: a full_major takes %.3f ms, %.0f ns a block beyond the %.3f ms of an empty heap\n", b, t * 1e3, (t - none) / b * 1e9, none * 1e3
        }'
    done | tee "$work/sizes"
    awk '{ t[NR] = $10 } END { printf "ratio of the last to the first, a block: %.2f\n", t[3] / t[1] }' "$work/sizes"
}

# A script of two domains that make two lists, $1 blocks in all. In one thread they go on by turns, one command each. A domain puts
# its new block behind the last of one list, which the other one made, and then behind the last of the other list. Registers 1 and
# 2 of a domain hold its own last blocks of the two lists. Domain 0 then asks for $2 complete collections.
lists() {
    awk -v blocks="$1" -v collections="$2" 'BEGIN {
        print "heap 1"
        for (d = 0; d < 2; d++) {
            print "domain " d
            # The first block of a list hangs from the common block.
            print "allocmaj " 1 + d " 0 1\nstore 0 " d " " 1 + d "\npoll"
            for (k = 1; k < blocks / 2; k++) {
                own = 1 + (d + k) % 2
                # The last block of that list: its first, or what the other domain has put behind the own last one.
                if (k == 1) print "load 3 0 " 1 - d
                else print "load 3 " own " 0"
                print "allocmaj " own " 0 1\nstore 3 0 " own
            }
            if (d == 0) for (k = 0; k < collections; k++) print "full_major"
        }
    }'
}

turns() {
    local one many
    lists 66600 1 >"$work/one"
    lists 66600 181 >"$work/many"
    one=$(seconds 2 "$work/one" alone 1 66601)
    many=$(seconds 2 "$work/many" alone 181 66601)
    awk -v one="$one" -v many="$many" -v chain="$(collection 1 66600 alone)" 'BEGIN {
        printf "66600 blocks in lists by turns in two domains'\'' pools: %.2f ms, in a chain of one domain: %.2f ms\n", (many - one) / 180 * 1e3, chain * 1e3
    }'
}

# A script of $1 domains that make 100,000 blocks of all size classes, 200,000 commands in all. The first is kept, and each other
# one is dropped at once.
dead() {
    awk -v domains="$1" 'BEGIN {
        split("1 6 14 30 62 126 254 510 1022", fields, " ")
        print "heap 2"
        for (d = 0; d < domains; d++) {
            print "domain " d
            for (k = 0; k < 100000 / domains; k++) {
                print "allocmaj " (d == 0 && k == 0 ? 2 : 1) " 0 " fields[k % 9 + 1]
                print "drop 1"
            }
        }
    }'
}

# Runs the script of dead blocks once in the least heap and prints how it went.
outcome() {
    local limit=$1 domains=$2 status=0
    local run=("$work/camlheap" run --domains "$domains" --minor 4096 --pools $((19 * domains + 1)))
    if [ "$limit" != none ]; then
        run=(bash -c '. "$0"; limited "$@"' "$top/examples/limited.sh" "$limit" "${run[@]}")
    fi
    timeout 120 "${run[@]}" <"$work/dead" >"$work/out" || status=$?
    if [ "$status" = 124 ]; then echo hangs
    elif [ "$status" != 0 ]; then echo "status $status"
    elif grep -q full "$work/out"; then echo full
    elif [ "$(grep -c '^blk' "$work/out")" != 100000 ]; then echo wrong
    else echo right
    fi
}

all_dead() {
    local domains limit
    for domains in 1 2 4 8; do
        dead "$domains" >"$work/dead"
        for limit in none 1 2; do
            for _ in $(seq "${RUNS:-20}"); do
                outcome "$limit" "$domains"
            done | sort | uniq -c | sed "s/^/domains $domains, limit $limit:/"
        done
    done | tee "$work/counts"
    ! grep -q 'hangs\|wrong\|full\|status' "$work/counts"
}

echo "processors: $(nproc), load: $(cut -d' ' -f1 /proc/loadavg)"
if [ "${1:-}" = dead ]; then
    all_dead
    exit
fi
marking
sweeping
sizes
turns
