#!/usr/bin/env bash
# Counts by valgrind what a lookup costs in a table that a program makes on a session of its own, which may have more bindings than a text
# of a table has lines for: of the key that was bound first, whose cell is the last of its bucket, of the one in the middle, and of the
# last, whose cell is the first. The program is bench/bindings, which is proved and built first. SESSION names another such program. It
# claims nothing.
. "$(dirname "${BASH_SOURCE[0]}")/begin.sh"

. "$top/bench/room.sh"

if [ -z "${SESSION:-}" ]; then
    room session_bindings "$top/bench/bindings" example_cache run_session weak_tables weak_laws heap_rule model_core
    SESSION=$work/session_bindings
fi

# The instructions of a run that binds $1 keys and looks the one in register $3 up $2 times.
instructions() {
    valgrind --tool=callgrind --callgrind-out-file="$work/counted" "$SESSION" "$@" >"$work/out" 2>"$work/error"
    if [ "$(cat "$work/out")" != "$1 bindings, $2 found" ]; then
        echo "bindings.sh: not all was bound and found: $(cat "$work/out")" >&2
        exit 1
    fi
    awk '/^summary:/ { print $2 }' "$work/counted"
}

names=('' last first middle)
gets=100
for keys in 64 1000 4000 10000; do
    none=$(instructions "$keys" 0 1)
    for register in 1 3 2; do
        many=$(instructions "$keys" "$gets" "$register")
        echo "get of the ${names[register]} of $keys keys by a session: $(((many - none) / gets)) instructions"
    done
done
