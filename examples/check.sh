#!/usr/bin/env bash
# Runs each example, or those that its words name, RUNS times (200 without it) and counts its outputs: first as it is,
# then where the system refuses every thread, then where it refuses all but one. Ends with 1 where an output is none of
# those that stand beside it, or a run wasn't counted.
#
# An example is NAME.heap, NAME.replay or NAME.table, here or in a folder, and its words are those in NAME.args. Else a script is run, and a
# schedule with a script replayed, with a domain for each section, and a text of `table` has that word alone. One with words alone reads
# nothing. PROGRAM names another program to be run.
set -u
runs=${RUNS:-200}
top=$(cd "$(dirname "${BASH_SOURCE[0]}")/.." && pwd) || exit 1
examples=$top/examples
work=$(mktemp -d) || exit 1
trap 'rm -rf "$work"' EXIT
if [ -z "${PROGRAM:-}" ]; then
    "$top/camlheap" run --domains 1 <"$examples/chain.heap" >/dev/null || exit 1
    PROGRAM=$top/crates/camlheap/out/camlheap
fi
cp "$PROGRAM" "$work/camlheap" && chmod 755 "$work" || exit 1

. "$examples/limited.sh"

# The names of all examples, those in a folder with it.
all_names() {
    find "$examples" \( -name '*.heap' -o -name '*.replay' -o -name '*.table' -o -name '*.args' \) -printf '%P\n' |
        sed 's/\.[a-z]*$//' | sort -u
}

names=("$@")
[ $# -gt 0 ] || mapfile -t names < <(all_names)

# Runs the example $1 once, under the limit $2 if there is one, and prints the name of the file that has its output.
outcome() {
    local words word=none script=/dev/null kind expected
    for kind in heap replay table; do
        [ ! -e "$examples/$1.$kind" ] || { word=$kind && script=$examples/$1.$kind; }
    done
    case $word in
        heap) words=(run --domains "$(grep -c '^domain ' "$script")") ;;
        replay) words=(replay --domains "$(grep -c '^domain ' "$script")") ;;
        *) words=("$word") ;;
    esac
    [ ! -e "$examples/$1.args" ] || read -r -a words <"$examples/$1.args"
    ${2:+limited "$2"} "$work/camlheap" "${words[@]}" <"$script" >"$work/out" || { echo "status $?"; return; }
    for expected in "$examples/$1".*expected; do
        if cmp -s "$work/out" "$expected"; then
            basename "$expected"
            return
        fi
    done
    echo wrong
}

for limit in "" 1 2; do
    for name in "${names[@]}"; do
        for _ in $(seq "$runs"); do
            outcome "$name" "$limit"
        done | sort | uniq -c | sed "s|^|limit ${limit:-none}, $name:|"
    done
done | tee "$work/counts"
counted=$(awk -F': *' '{ sum += $2 } END { print sum + 0 }' "$work/counts")
if [ "$counted" != $((3 * runs * ${#names[@]})) ]; then
    echo "check.sh: only $counted runs were counted" >&2
    exit 1
fi
! grep -q ':.*\(wrong\|status\)' "$work/counts"
