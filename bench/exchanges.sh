#!/usr/bin/env bash
# Eight domains raise one counter, a field of the shared block, with 25,000 commands `cas` in all, 20 times each with threads and
# without: alone, beside minor collections and cycles, and with a block in place of each number, which the domain has just made.
# Each output is checked, and the runs that hang or print something wrong are counted. It ends with 1 where there is one.
# PROGRAM names another program to be run, RUNS how often, LIMITS which limits of threads, and KINDS which scripts.
. "$(dirname "${BASH_SOURCE[0]}")/begin.sh"
program_here program

. "$top/examples/limited.sh"

domains=8
tries=3125

# Each domain tries to raise the counter from 0 to 1, from 1 to 2 and so on, up to the number of its tries, and then loads it. Whoever
# tries a step first is answered `yes`, and the others `no`. A domain that has tried a step finds the counter beyond it. So each step has
# one `yes`, and whoever has tried all loads the number of all `yes`.
# Of the kind `beside` each domain makes young blocks meanwhile, asks for cycles and polls.
counter() {
    awk -v domains="$domains" -v tries="$tries" -v kind="$1" 'BEGIN {
        print "heap 2"
        for (d = 0; d < domains; d++) {
            print "domain " d "\nint 1 0"
            for (k = 0; k < tries; k++) {
                print "int " 1 + (k + 1) % 2 " " k + 1 "\ncas 0 0 " 1 + k % 2 " " 1 + (k + 1) % 2
                if (kind == "beside") print k % 100 == d ? "major" : k % 10 == 9 ? "alloc 3 0 1022" : "poll"
            }
            print "load 4 0 0"
        }
    }'
}

# Each domain puts a block that it has just made into the field, where it holds the block that the domain loaded before. So each `yes` puts
# another block, and each block that is loaded was put by a `yes`, or is the 0 from the start.
blocks() {
    awk -v domains="$domains" -v tries="$tries" 'BEGIN {
        print "heap 2"
        for (d = 0; d < domains; d++) {
            print "domain " d
            for (k = 0; k < tries; k++) {
                print "load 1 0 0\nalloc 2 0 1\nint 3 " k "\nstore 2 0 3\ncas 0 0 1 2\ndrop 2"
                print k % 100 == d ? "major" : "poll"
            }
            print "load 1 0 0\nload 4 1 0"
        }
    }'
}

# Whether the output is one of a counter's script: each step has one `yes`, and each domain loads their number.
counted() {
    awk -v domains="$domains" -v tries="$tries" '
        function wrong(why) { print "wrong: line " NR ": " why; bad = 1; exit }
        $1 == "domain" { if ($2 != next_domain++) wrong("order"); step = 0; next }
        $1 == "yes" { if (raised[step++]++) wrong("a step that was made twice"); next }
        $1 == "no" { step++; next }
        $1 == "int" { if ($2 != tries) wrong("the last value"); loads++; next }
        $1 != "ok" && $1 != "blk" { wrong("another reply") }
        END {
            if (bad) exit
            for (step = 0; step < tries; step++) if (raised[step] != 1) { print "wrong: step " step; exit }
            print loads == domains && next_domain == domains ? "right" : "wrong: too short"
        }' "$work/out"
}

# Whether the output is one of the script of blocks: no two `yes` had the same block or 0 before them, what each took the place of was put
# by a `yes`, and one block is left, which has its number still.
put_once() {
    awk -v domains="$domains" -v tries="$tries" '
        function wrong(why) { print "wrong: " why; bad = 1; exit }
        $1 == "domain" { next_domain++; place = 0; next }
        place == 7 * tries { last[next_domain] = $0; place++; next }
        place == 7 * tries + 1 { number[next_domain] = $0; place++; next }
        place % 7 == 0 { found = $0 }
        place % 7 == 1 { made = $0; step[made] = int(place / 7) }
        place % 7 == 4 && $0 == "yes" { if (found in behind) wrong(found " was taken twice"); behind[found] = made; put[made] = 1; done++ }
        place % 7 == 4 && $0 != "yes" && $0 != "no" { wrong("another reply: " $0) }
        { place++ }
        END {
            if (bad) exit
            # From the 0 at the start one goes along all that was put.
            for (at = "int 0"; at in behind; at = behind[at]) length_of_all++
            if (length_of_all != done) wrong("not one chain")
            for (d = 1; d <= domains; d++) {
                if (!(last[d] in put)) wrong("what is left was never put")
                if (number[d] != "int " step[last[d]]) wrong("another number")
            }
            print next_domain == domains ? "right" : "wrong: too short"
        }' "$work/out"
}

# Runs the script of this kind once and prints how it went.
outcome() {
    local limit=$1 kind=$2 status=0
    local run=("$work/program" run --domains "$domains" --minor 4096 --pools 600)
    if [ "$limit" != none ]; then
        run=(bash -c '. "$0"; limited "$@"' "$top/examples/limited.sh" "$limit" "${run[@]}")
    fi
    timeout 300 "${run[@]}" <"$work/script" >"$work/out" || status=$?
    if [ "$status" = 124 ]; then echo hangs
    elif [ "$status" != 0 ]; then echo "status $status"
    elif [ "$kind" = blocks ]; then put_once
    else counted
    fi
}

for kind in ${KINDS:-alone beside blocks}; do
    if [ "$kind" = blocks ]; then blocks; else counter "$kind"; fi >"$work/script"
    for limit in ${LIMITS:-none 1 2}; do
        for _ in $(seq "${RUNS:-20}"); do
            outcome "$limit" "$kind"
        done | sort | uniq -c | sed "s/^/$kind, limit $limit:/"
    done
done | tee "$work/counts"
! grep -q 'hangs\|wrong\|status' "$work/counts"
