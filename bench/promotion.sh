#!/usr/bin/env bash
# Times minor collections: words made and copied a second by 1, 2 and 4 domains in one run, the share of a pause that copying
# takes, and what a copied block costs beside 10^3 and 10^5 blocks of the major heap. The fastest of several runs counts. It
# claims nothing.
# With the word `stress` it times nothing: 1 to 8 domains store young blocks into a block that all have and load those of the
# others, 200,000 commands in all with the smallest areas, 20 times each, with threads and without. Each output is checked, and
# the runs that hang or print something wrong are counted. It ends with 1 where there is one. With the words `stress major` the
# domains ask for collections of the major heap in place of minor ones.
. "$(dirname "${BASH_SOURCE[0]}")/begin.sh"
program_here camlheap
runs=${RUNS:-15}

. "$top/examples/limited.sh"

# Seconds of one run with $1 domains of the script $2, the least of several: in threads, or where $3 is `alone` in one thread, which
# turns all domains. None of the commands may be answered `full`.
seconds() {
    local run=("$work/camlheap" run --domains "$1" --minor 65536 --pools 2048)
    if [ "${3:-}" = alone ]; then
        run=(limited 1 "${run[@]}")
    fi
    for _ in $(seq "$runs"); do
        start=$(date +%s.%N)
        "${run[@]}" <"$2" >"$work/out"
        end=$(date +%s.%N)
        echo "$start $end"
    done | awk '{ t = $2 - $1; if (NR == 1 || t < least) least = t } END { print least }'
    if grep -q full "$work/out"; then
        echo "promotion.sh: a block was refused" >&2
        exit 1
    fi
}

# A script of $1 domains that each make $2 young blocks of 126 fields in a chain, $3 times. A collection follows each
# chain: what it leads to is held by register 1 where $4 is `kept`, and by none where it is `dropped`.
chains() {
    awk -v domains="$1" -v blocks="$2" -v rounds="$3" -v what="$4" 'BEGIN {
        print "heap 1"
        for (d = 0; d < domains; d++) {
            print "domain " d
            for (r = 0; r < rounds; r++) {
                print "int 1 0"
                for (k = 0; k < blocks; k++) print "alloc 2 0 126\nstore 2 0 1\nmove 1 2"
                print "drop 2"
                if (what == "dropped") print "drop 1"; else print "poll"
                print "minor"
            }
        }
    }'
}

# A script of $1 domains of which the first asks for $2 pauses.
pauses() {
    awk -v domains="$1" -v pauses="$2" 'BEGIN {
        print "heap 1"
        for (d = 0; d < domains; d++) {
            print "domain " d
            if (d == 0) for (k = 0; k < pauses; k++) print "minor"
        }
    }'
}

# As many lines as the chains have, and no block.
polls() {
    awk -v domains="$1" -v lines="$2" 'BEGIN {
        print "heap 1"
        for (d = 0; d < domains; d++) {
            print "domain " d
            for (k = 0; k < lines; k++) print "poll"
        }
    }'
}

# 32,000 blocks of 128 words are made and copied, by all domains together. They take fewer than half of the pools, so that no
# collection of the major heap begins. In threads: how many words a second, the making of the blocks included; what a run of as
# many polls takes is taken off. In one thread, where no domain waits for another: what copying takes of a pause. For that a run
# in which all blocks are dropped before each collection is taken off; a domain asks once in a round, and what a pause takes in
# which nothing is copied is told by a script of pauses alone.
words() {
    local domains rounds
    for domains in 1 2 4; do
        rounds=$((64 / domains))
        chains "$domains" 500 "$rounds" kept >"$work/kept"
        chains "$domains" 500 "$rounds" dropped >"$work/dropped"
        polls "$domains" $((rounds * 1504)) >"$work/polls"
        pauses "$domains" 5000 >"$work/pauses"
        pauses "$domains" 0 >"$work/none"
        awk -v d="$domains" -v kept="$(seconds "$domains" "$work/kept")" -v polls="$(seconds "$domains" "$work/polls")" \
            -v alone="$(seconds "$domains" "$work/kept" alone)" -v dropped="$(seconds "$domains" "$work/dropped" alone)" \
            -v pauses="$(seconds "$domains" "$work/pauses" alone)" -v none="$(seconds "$domains" "$work/none" alone)" 'BEGIN {
            copying = alone - dropped
            pausing = 64 * (pauses - none) / 5000
            printf "domains %d: %.0f million words made and copied a second; in one thread copying takes %.0f ns a block, %.1f %% of the pauses\n", d, 32000 * 128 / (kept - polls) / 1e6, copying / 32000 * 1e9, 100 * copying / (copying + pausing)
        }'
    done
}

# A script of one domain that makes $1 blocks of the major heap, 2 fields each, none of which is freed, and then 40 chains of
# 500 young blocks, which are kept or dropped as $2 says.
beside() {
    awk -v old="$1" 'BEGIN {
        print "heap 1"
        print "domain 0"
        for (k = 0; k < old; k++) print "allocmaj 4 0 2"
    }'
    chains 1 500 40 "$2" | tail -n +3
}

live() {
    local old
    for old in 1000 100000; do
        beside "$old" kept >"$work/kept"
        beside "$old" dropped >"$work/dropped"
        awk -v o="$old" -v kept="$(seconds 1 "$work/kept" alone)" -v dropped="$(seconds 1 "$work/dropped" alone)" 'BEGIN {
            printf "beside %d blocks of the major heap: %.0f ns a copied block\n", o, (kept - dropped) / 20000 * 1e9
        }'
    done | tee "$work/live"
    awk '{ t[NR] = $(NF - 4) } END { printf "ratio %.2f\n", t[2] / t[1] }' "$work/live"
}

# The stress: $1 domains. In each round a domain stores a block of two equal integers into its field of the common block, loads
# another domain's block and its integers, stores a block that leads to this one, and loads another such block and what it leads to.
# It asks for the collection $2 twice.
sharing() {
    awk -v domains="$1" -v collection="$2" 'BEGIN {
        print "heap 1"
        rounds = int(200000 / domains / 22)
        for (d = 0; d < domains; d++) {
            print "domain " d
            for (i = 0; i < rounds; i++) {
                n = d * 1000000 + i
                e = (d + i) % domains
                f = (d + 3 * i + 1) % domains
                print "alloc 1 0 2\nint 2 " n "\nstore 1 0 2\nstore 1 1 2\nstore 0 " d " 1\n" collection
                print "load 3 0 " e "\nload 4 3 0\nload 5 3 1"
                print "alloc 6 0 2\nstore 6 0 3\nstore 6 1 1\nstore 0 " 8 + d " 6\n" collection
                print "load 7 0 " 8 + f "\nload 8 7 0\nload 9 8 0\nload 10 8 1"
                print "alloc 11 0 126\ndrop 11\nalloc 11 0 126\ndrop 11"
            }
        }
    }'
}

# Reads the stress script's output and prints whether it is right. A domain makes four blocks a round, so a label tells the round.
checked() {
    awk -v domains="$1" '
        function wrong(why) { print "wrong: line " NR ": " why; bad = 1; exit }
        function label(text, kind,    p, serial) {
            if (text !~ /^blk [0-9]+:[0-9]+$/) wrong("no block: " text)
            split(substr(text, 5), p, ":")
            from = p[1]; serial = p[2]
            if ((serial - 1) % 4 != kind) wrong("not of that kind: " text)
            number = "int " (from * 1000000 + (serial - 1 - kind) / 4)
            return serial
        }
        $1 == "domain" { d = $2; if (d != next_domain++) wrong("order"); place = 0; round = 0; behind = "type"; delete newest; delete newest_pair; next }
        place % 22 == 0 || place % 22 == 9 || place % 22 == 18 || place % 22 == 20 {
            made = 4 * round + (place % 22 == 0 ? 1 : place % 22 == 9 ? 2 : place % 22 == 18 ? 3 : 4)
            if ($0 != "blk " d ":" made) wrong("made " made)
        }
        place % 22 == 6 {
            empty = $0 == "int 0"
            if (!empty) {
                serial = label($0, 0)
                if (from != (d + round) % domains) wrong("another domain")
                if (from == d && serial != 4 * round + 1) wrong("not its own last block")
                if (serial < newest[from]) wrong("an older block")
                newest[from] = serial
                held = $0
            }
        }
        place % 22 == 7 || place % 22 == 8 { if ($0 != (empty ? "type" : number)) wrong("the integer") }
        place % 22 == 14 {
            empty = $0 == "int 0"
            if (!empty) {
                serial = label($0, 1)
                if (from != (d + 3 * round + 1) % domains) wrong("another domain")
                if (from == d && serial != 4 * round + 2) wrong("not its own last pair")
                if (serial < newest_pair[from]) wrong("an older pair")
                newest_pair[from] = serial
            }
        }
        place % 22 == 15 {
            # Where there is no pair yet, register 8 keeps what it held.
            if (empty) { if ($0 != "type") wrong("no pair") }
            else if ($0 == "int 0") behind = "type"
            else { label($0, 0); behind = number }
        }
        place % 22 == 16 || place % 22 == 17 { if ($0 != behind) wrong("the integer behind a pair") }
        place % 22 ~ /^(1|2|3|4|5|10|11|12|13|19|21)$/ { if ($0 != "ok") wrong("not ok") }
        { place++; if (place % 22 == 0) round++ }
        END { if (!bad) print next_domain == domains && round == int(200000 / domains / 22) ? "right" : "wrong: too short" }
    ' "$work/out"
}

# Runs the stress script once and prints how it went.
outcome() {
    local limit=$1 domains=$2 status=0
    local run=("$work/camlheap" run --domains "$domains" --minor 4096 --pools 2048)
    if [ "$limit" != none ]; then
        run=(bash -c '. "$0"; limited "$@"' "$top/examples/limited.sh" "$limit" "${run[@]}")
    fi
    timeout 120 "${run[@]}" <"$work/stress" >"$work/out" || status=$?
    if [ "$status" = 124 ]; then echo hangs
    elif [ "$status" != 0 ]; then echo "status $status"
    else checked "$domains"
    fi
}

stress() {
    for domains in ${DOMAINS:-1 2 3 4 5 6 7 8}; do
        sharing "$domains" "$1" >"$work/stress"
        for limit in none 1 2; do
            for _ in $(seq "${RUNS:-20}"); do
                outcome "$limit" "$domains"
            done | sort | uniq -c | sed "s/^/domains $domains, limit $limit:/"
        done
    done | tee "$work/counts"
    ! grep -q 'hangs\|wrong\|status' "$work/counts"
}

echo "processors: $(nproc), load: $(cut -d' ' -f1 /proc/loadavg)"
if [ "${1:-}" = stress ]; then
    stress "${2:-minor}"
    exit
fi
words
live
