#!/usr/bin/env bash
# Counts by valgrind what a call on a weak map costs that a program makes on a session of its own, and what a `get` costs that it makes by a
# seat. The keys are drawn by chance among 1,000, 10,000 and 100,000: the mean of 2,000 calls, and the dearest of 400. `move` takes a key out
# and puts it again. The program is bench/maps, which is proved and built first. SESSION names another such program. It claims nothing.
# With the word `times` it times a `get` among 10,000 keys instead, beside a lookup in a table of ephemerons by OCaml 5, where
# bench/ocaml5.sh finds one: the difference of the fastest of several runs that draw keys and look them up, and of those that draw.
. "$(dirname "${BASH_SOURCE[0]}")/begin.sh"

. "$top/bench/room.sh"

if [ -z "${SESSION:-}" ]; then
    room session_maps "$top/bench/maps" run_session weak_maps run_seats model_core heap_rule
    SESSION=$work/session_maps
fi

# Runs the program on $1 keys with $2 calls of the kind $3 by the caller $4, under valgrind with the words from $5 on. Each call must find its
# key.
run() {
    rm -rf "$work/counted" && mkdir "$work/counted"
    valgrind --tool=callgrind --callgrind-out-file="$work/counted/all" "${@:5}" "$SESSION" "${@:1:4}" >"$work/out" 2>"$work/error"
    if [ "$(cat "$work/out")" != "$1 keys, $2 found" ]; then
        echo "maps.sh: not each call found its key: $(cat "$work/out")" >&2
        exit 1
    fi
}

# The instructions of such a run.
count() {
    run "$@"
    awk '/^summary:/ { print $2 }' "$work/counted/all"
}

# The most instructions between two calls in such a run.
most() {
    run "$@" --dump-before='session_maps::call*'
    rm "$work/counted/all" "$work/counted/all.1"
    awk '/^(summary|totals):/ { if ($2 > most) most = $2 } END { print most }' "$work"/counted/all.*
}

# Seconds of a run of the words $1.., the least of several.
least() {
    local start
    for _ in $(seq "${RUNS:-7}"); do
        start=$EPOCHREALTIME
        "$@" >"$work/out"
        echo "$start $EPOCHREALTIME"
    done | awk '{ t = $2 - $1; if (NR == 1 || t < least) least = t } END { print least }'
}

times() {
    local calls=2000000
    "$top/bench/ocaml5.sh" alone "$work/alone" || exit
    echo "$(least "$SESSION" 10000 "$calls" pick session) $(least "$SESSION" 10000 "$calls" get session) $(least "$work/alone" picks 10000 "$calls") $(least "$work/alone" lookups 10000 "$calls")" |
        awk -v n="$calls" '{ here = ($2 - $1) / n * 1e9; there = ($4 - $3) / n * 1e9; printf "get of one of 10000 keys: %.0f ns, in OCaml %.0f ns, ratio %.2f\n", here, there, here / there }'
}

if [ "${1:-}" = times ]; then
    times
    exit
fi
# Prints what calls cost among $1 keys by the caller $2, of the kinds from $3 on.
tell() {
    local keys=$1 caller=$2 none pick kind mean
    none=$(count "$keys" 0 pick "$caller")
    pick=$((($(count "$keys" 2000 pick "$caller") - none) / 2000))
    for kind in "${@:3}"; do
        mean=$((($(count "$keys" 2000 "$kind" "$caller") - none) / 2000 - pick))
        echo "$kind of one of $keys keys by a $caller: $mean instructions, the dearest of 400 $(($(most "$keys" 400 "$kind" "$caller") - pick))"
    done
}

for keys in 1000 10000 100000; do
    tell "$keys" session get put move
    tell "$keys" seat get
done
