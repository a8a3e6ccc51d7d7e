#!/usr/bin/env bash
# Runs texts of tables by the program. First random texts, whose outputs the machine of bench/tables/machine.py judges, and where CHECKER
# names the program of history_check that one too, also with a reply changed. Then a text of as
# many fresh keys as a text has lines for, of which five are held at a time, on the least heap: it must have no line `full`. Last it counts
# instructions by valgrind: what `get` costs by how many bindings there are, and what a command costs that a session is handed beside one
# of a script. bench/bindings.sh counts `get` among more bindings than a text has lines for. COUNT says how many random texts there are,
# 2000 without it. It ends with 1 where an output is wrong. PROGRAM names another program than the proved one.
. "$(dirname "${BASH_SOURCE[0]}")/begin.sh"
if [ -n "${PROGRAM:-}" ]; then
    program=$PROGRAM
else
    "$top/camlheap" table <"$top/examples/bindings.table" >/dev/null
    cp "$top/crates/camlheap/out/camlheap" "$work/camlheap"
    program=$work/camlheap
fi

python3 "$top/bench/tables/machine.py" random "$program" "${COUNT:-2000}"
if [ -n "${CHECKER:-}" ]; then
    python3 "$top/bench/tables/machine.py" judge "$program" "$CHECKER" "${COUNT:-2000}"
fi

# The lines of a text of $1 fresh keys, each of which is bound. A register holds a key until it gets the fifth after it.
fresh() {
    awk -v keys="$1" 'BEGIN {
        print "table 1"
        for (k = 0; k < keys; k++) print "key " k % 5 + 1 "\nput " k % 5 + 1 " " k
    }'
}

fresh 5000 >"$work/fresh"
"$program" table --minor 4096 --pools 51 <"$work/fresh" >"$work/out"
python3 "$top/bench/tables/machine.py" check "$work/fresh" "$work/out" 4096 51
echo "5000 fresh keys, five held at a time, in the least heap: $(grep -c full "$work/out" || true) lines full"

# The instructions of a run of the words $2.. over the file $1.
instructions() {
    local input=$1
    shift
    valgrind --tool=callgrind --callgrind-out-file="$work/counted" "$program" "$@" <"$input" >"$work/out" 2>"$work/error"
    awk '/^summary:/ { print $2 }' "$work/counted"
}

# What a line costs by which the text of $1 is longer than the text of $2, both run by the words $4..; there are $3 such lines.
difference() {
    local long=$1 short=$2 lines=$3
    shift 3
    echo $((($(instructions "$long" "$@") - $(instructions "$short" "$@")) / lines))
}

# A text of $1 bindings, none of which is in a collection before its end, and then $2 times `get` of the key in register $3: the first of
# all keys in 2, the last in 1. A bucket has its cells with the last first.
bound() {
    awk -v keys="$1" -v gets="$2" -v register="$3" 'BEGIN {
        print "table 1\nkey 2\nput 2 0"
        for (k = 1; k < keys; k++) print "key 1\nput 1 " k
        for (k = 0; k < gets; k++) print "get " register
    }'
}

largest=(table --minor 65536 --pools 2048)
for bindings in 64 1000 2000 4000; do
    bound "$bindings" 0 1 >"$work/none"
    { cat "$work/none" && echo count; } >"$work/count"
    there=$("$program" "${largest[@]}" <"$work/count" | tail -n 1)
    for register in 1 2; do
        bound "$bindings" 100 "$register" >"$work/gets"
        echo "get of the $([ "$register" = 1 ] && echo last || echo first) of $bindings keys ($there): $(difference "$work/gets" "$work/none" 100 "${largest[@]}") instructions"
    done
done

# $2 times the line $1.
again() {
    awk -v line="$1" -v times="$2" 'BEGIN { for (k = 0; k < times; k++) print line }'
}

# One command in both: a register is emptied.
for lines in 1000 9000; do
    { echo "table 1" && again "forget 1" "$lines"; } >"$work/session_$lines"
    { printf 'heap 1\ndomain 0\n' && again "drop 1" "$lines"; } >"$work/script_$lines"
done
echo "a register emptied by a session: $(difference "$work/session_9000" "$work/session_1000" 8000 table) instructions, with the line read and its reply written"
echo "by a script: $(difference "$work/script_9000" "$work/script_1000" 8000 run --domains 1) instructions"

"$top/bench/bindings.sh"
