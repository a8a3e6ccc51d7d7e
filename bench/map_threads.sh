#!/usr/bin/env bash
# Has DOMAINS domains (8 without it), each with a seat in a thread, make CALLS calls in all (100,000 without it) on one weak map that they
# share, RUNS times (100 without it): half of the runs on one and half on two processors, beside a busy process for each of these. By turns
# the map has 4, 64 and 1,000 keys that are kept, and always 8 that are dropped and replaced. bench/map_orders, which isn't proved, looks in
# each output for one order of all calls in which each domain keeps its own, each call lies between the stamps that its thread took, and each
# lookup answers what was put last and not taken since. Counted are the outputs that have such an order, those that have none, and the runs
# that hang, which are those that don't end within LIMIT seconds (120 without it). Of the first SPOILT runs (12 without it) 10 changed outputs
# of each kind are judged too. First the judge is compared with a trial of all orders on small histories. It ends with 1 where an output has
# no order, or a run hangs or fails. PROGRAM names another build of bench/map_threads, which is proved and built first without it.
. "$(dirname "${BASH_SOURCE[0]}")/begin.sh"
. "$top/bench/busy.sh"
trap 'leave; rm -rf "$work"' EXIT
. "$top/bench/room.sh"

if [ -z "${PROGRAM:-}" ]; then
    room map_threads "$top/bench/map_threads" run_session weak_maps run_seats run_turns model_core heap_rule
    PROGRAM=$work/map_threads
fi
rustc -O --edition 2024 -o "$work/map_orders" "$top/bench/map_orders/main.rs"
"$work/map_orders" --self-test "${SELF_TEST:-5000}" | tee "$work/self_test"

domains=${DOMAINS:-8}
each=$((${CALLS:-100000} / domains))
keys=(4 64 1000)

# Runs the program once on the processors $1, with the seed $2, and prints how it went: of one that ended, the milliseconds and the verdict.
outcome() {
    local processors=$1 seed=$2 status=0 start
    start=$(date +%s%N)
    timeout -k 1 "${LIMIT:-120}" taskset -c "$processors" "$PROGRAM" "$domains" "$each" "${keys[$((seed % 3))]}" "$seed" >"$work/out" || status=$?
    if [ "$status" = 124 ] || [ "$status" = 137 ]; then echo hangs
    elif [ "$status" != 0 ]; then echo "status $status"
    else echo "$((($(date +%s%N) - start) / 1000000)) ms, keys ${keys[$((seed % 3))]}, $("$work/map_orders" "$work/out" || true)"
    fi
}

# Judges changed outputs of some of the runs.
spoil() {
    if [ "$1" -le "${SPOILT:-12}" ] && [ -s "$work/out" ]; then
        "$work/map_orders" --spoil 10 "$1" "$work/out" >>"$work/spoilt" || true
    fi
}

run_all() {
    local processors=$1 number=$2 seed
    for seed in $(seq "$number" 2 "${RUNS:-100}"); do
        keep_busy "$processors" "$number"
        outcome "$processors" "$seed" | sed "s/^/processors $processors: /" | tee -a "$work/runs"
        leave
        spoil "$seed"
    done
}

run_all 0 1
run_all 0,1 2

# What was told of the runs, in sums.
awk '
    function told(word) { return match($0, word " [0-9]+") ? substr($0, RSTART + length(word) + 1, RLENGTH - length(word) - 1) : 0 }
    / legal: / && !/not legal/ {
        legal++; split($0, at, ": "); ms = at[2] + 0; time[$2] += ms; if (ms > most[$2]) most[$2] = ms; runs[$2]++
        n = split("puts full found none taken bound met lost", words, " ")
        for (i = 1; i <= n; i++) sum[words[i]] += told(words[i])
        if (match($0, /legal: [0-9]+ calls/)) calls += substr($0, RSTART + 7, RLENGTH - 13)
        next
    }
    /not legal/ { wrong++; next }
    / hangs$/ { hung++; next }
    { failed++ }
    END {
        printf "runs: %d legal, %d not legal, %d hung, %d failed\n", legal, wrong, hung, failed
        for (p in runs) printf "processors %s mean %.2f s, the slowest %.2f s\n", p, time[p] / runs[p] / 1000, most[p] / 1000
        printf "calls %d: puts done %d, full %d; lookups that found %d, none %d; takes done %d, none %d\n", calls, sum["puts"], sum["full"], sum["found"], sum["none"], sum["taken"], sum["bound"]
        printf "calls that met another on their key %d; bindings that a collection must have taken %d\n", sum["met"], sum["lost"]
    }' "$work/runs"
awk '{ made[$2] += $3; refused[$2] += $5; lost[$2] += $7 } END { for (k in made) printf "changed %s: %d, refused %d, legal only with a lost binding %d\n", k, made[k], refused[k], lost[k] }' "$work/spoilt" | sort
! grep -q 'not legal\|hangs\|status' "$work/runs"
