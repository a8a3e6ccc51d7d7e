#!/usr/bin/env bash
# Times pauses, with 1, 2, 4 and 8 domains: first on the machine as it is, then beside as many busy processes as there are
# processors. Prints pauses per second; the fastest of three runs counts. It claims nothing.
# With the word `stress` it times nothing: it runs scripts of 1 to 8 domains that each ask for 200 pauses, 20 times each, as
# they are and with all traces but the first ending early, with threads and without, and counts the runs that hang or print
# something wrong. It ends with 1 where there is one.
. "$(dirname "${BASH_SOURCE[0]}")/begin.sh"
busy=()
trap 'rm -rf "$work"; kill "${busy[@]}" 2>/dev/null || true' EXIT
program_here camlheap

# A script of $1 domains. Domain 0 asks for $2 pauses, and each other one for $3.
script() {
    awk -v domains="$1" -v first="$2" -v others="$3" 'BEGIN {
        print "heap 1"
        for (d = 0; d < domains; d++) {
            print "domain " d
            for (k = 0; k < (d == 0 ? first : others); k++) print "minor"
        }
    }'
}

# Seconds of one run of the script $2 with $1 domains, the least of three.
seconds() {
    for _ in 1 2 3; do
        start=$(date +%s.%N)
        timeout 300 "$work/camlheap" run --domains "$1" <"$2" >"$work/out"
        end=$(date +%s.%N)
        echo "$start $end"
    done | awk '{ t = $2 - $1; if (NR == 1 || t < least) least = t } END { print least }'
}

# Times the pauses. The first domain asks, and the others have ended and go along. A run of no pause is taken off.
times() {
    for domains in 1 2 4 8; do
        script "$domains" 20000 0 >"$work/many"
        script "$domains" 0 0 >"$work/none"
        many=$(seconds "$domains" "$work/many")
        none=$(seconds "$domains" "$work/none")
        awk -v d="$domains" -v m="$many" -v n="$none" -v what="$1" 'BEGIN {
            printf "%s, domains %d: %.0f pauses a second (20000 pauses in %.3f s)\n", what, d, 20000 / (m - n), m - n
        }'
    done
}

# Runs the script once and prints how it went.
outcome() {
    local limit=$1 domains=$2 status=0
    local run=("$work/camlheap" run --domains "$domains")
    if [ "$limit" != none ]; then
        run=(bash -c '. "$0"; limited "$@"' "$top/examples/limited.sh" "$limit" "${run[@]}")
    fi
    timeout 60 "${run[@]}" <"$work/stress" >"$work/out" || status=$?
    if [ "$status" = 124 ]; then echo hangs
    elif [ "$status" != 0 ]; then echo "status $status"
    elif sed -e 's/minor/ok/' -e 1d "$work/stress" | cmp -s - "$work/out"; then echo right
    else echo wrong
    fi
}

stress() {
    for domains in 1 2 3 4 5 6 7 8; do
        for others in 200 20; do
            script "$domains" 200 "$others" >"$work/stress"
            for limit in none 1 2; do
                for _ in $(seq 20); do
                    outcome "$limit" "$domains"
                done | sort | uniq -c | sed "s/^/domains $domains, others ask $others times, limit $limit:/"
            done
        done
    done | tee "$work/counts"
    ! grep -q 'hangs\|wrong\|status' "$work/counts"
}

echo "processors: $(nproc)"
if [ "${1:-}" = stress ]; then
    stress
    exit
fi
times "as it is"
for _ in $(seq "$(nproc)"); do
    bash -c 'while :; do :; done' &
    busy+=($!)
done
times "beside busy processes"
