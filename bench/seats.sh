#!/usr/bin/env bash
# Runs the tests of `test_heap::seats` RUNS times each (200 without it) on one and on two processors, beside a busy process for each of
# these, and counts the runs that hang, which are those that don't end within a minute, and those that fail. In one of the tests eight
# threads with a seat each rest, wait for one another outside of the heap, and end at different times; each run compares what they were
# told with what the slow heap prints. It ends with 1 where a run hangs or fails. PROGRAM names another build of the tests.
. "$(dirname "${BASH_SOURCE[0]}")/begin.sh"
. "$top/bench/busy.sh"
trap 'leave; rm -rf "$work"' EXIT
if [ -z "${PROGRAM:-}" ]; then
    (cd "$top/crates/test_heap" && rt test >"$work/built")
    PROGRAM=$top/crates/test_heap/out/test_heap_tests
fi
cp "$PROGRAM" "$work/tests"

tests=(
    seats::eight::eight_threads_are_told_what_the_slow_heap_prints
    seats::threads::one_builds_while_another_dozes
)

# Runs the test $2 once on the processors $1, and prints how it went and, of one that ended well, the hundredths of a second.
outcome() {
    local processors=$1 test=$2 status=0 start
    start=$(date +%s%N)
    timeout -k 1 60 taskset -c "$processors" "$work/tests" "$test" >"$work/out" 2>&1 || status=$?
    if [ "$status" = 124 ] || [ "$status" = 137 ]; then echo hangs
    elif [ "$status" != 0 ]; then echo "status $status"
    else echo "right $((($(date +%s%N) - start) / 10000000))"
    fi
}

# Counts the outcomes of some runs, each behind the words $1, and adds how long the slowest took.
count() {
    awk -v what="$1" '
        $1 == "right" { right++; if ($2 > most) most = $2; next }
        { other[$0]++ }
        END {
            if (right) printf "%s: %d right, the slowest in %.2f s\n", what, right, most / 100
            for (o in other) printf "%s: %d %s\n", what, other[o], o
        }' | tee -a "$work/counts"
}

run_all() {
    local processors=$1 number=$2 test
    keep_busy "$processors" "$number"
    for test in "${tests[@]}"; do
        for _ in $(seq "${RUNS:-200}"); do
            outcome "$processors" "$test"
        done | count "$test, processors $number"
    done
    leave
}

run_all 0 1
run_all 0,1 2
! grep -q 'hangs\|status' "$work/counts"
