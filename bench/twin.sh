#!/usr/bin/env bash
# Times `camlheap run` beside its twin without a proof, bench/twin, which `rustc -O` builds here: the proved program's time divided by
# the twin's, for runs of 200,000 commands and of collections; what starting takes; what a command costs in scripts of 10^3 to
# 2 * 10^5 commands, in time and, where valgrind is installed, in instructions; and how many system calls a run makes. The two run
# in turn, and the fastest of several runs of each counts. It claims nothing.
# With the word `same` it times nothing: it compares the outputs of both for the examples and for scripts that are drawn by chance,
# and ends with 1 where two differ.
. "$(dirname "${BASH_SOURCE[0]}")/begin.sh"
program_here proved
rustc -O --edition 2024 -o "$work/twin" "$top/bench/twin/main.rs"
runs=${RUNS:-5}

# Seconds of one run of the proved program, and of the twin, with the words $3.. and the script $2: the least of $1 runs each.
both() {
    local times=$1 script=$2 program start
    shift 2
    for _ in $(seq "$times"); do
        for program in proved twin; do
            start=$EPOCHREALTIME
            "$work/$program" run "$@" <"$script" >"$work/out.$program"
            echo "$program $start $EPOCHREALTIME"
        done
    done | awk '
        { t = $3 - $2; if (!($1 in least) || t < least[$1]) least[$1] = t }
        END { printf "%.6f %.6f\n", least["proved"], least["twin"] }'
}

# Prints one line: what is timed, $1, the ratio of the two times $2, and that of what they are beyond the two times $3.
ratio() {
    echo "$2 ${3:-}" | awk -v what="$1" '{
        printf "%s: proved %.2f ms, twin %.2f ms, ratio %.2f", what, $1 * 1e3, $2 * 1e3, $1 / $2
        if (NF > 2) printf ", beyond the start %.2f", ($1 - $3) / ($2 - $4)
        print ""
    }'
}

# Times the script with $2 domains, which is told as $1, beside a run with no command.
beside_start() {
    script "$2" 0 private >"$work/none"
    ratio "$1, domains $2" "$(both "$runs" "$work/script" --domains "$2")" "$(both $((2 * runs)) "$work/none" --domains "$2")"
}

# A script of $1 domains and $2 commands in all, which is one with no command where $2 is 0. What each domain does over and over $3
# tells: `private` makes a block, stores to it and loads from it; `shared` does so with a field of the common block of its own, and
# with one that all use; `large` makes a block of 126 fields, stores to it and loads from it, and drops it before a collection, which
# so has nothing to copy.
script() {
    awk -v domains="$1" -v commands="$2" -v what="$3" '
    function round(k) {
        if (what == "private") return "alloc 1 0 4\nint 2 " k "\nstore 1 " k % 4 " 2\nload 3 1 " k % 4
        if (what == "shared") return "int 1 " k "\nstore 0 " d " 1\nload 2 0 " d "\nstore 0 15 1\nload 2 0 15"
        return "alloc 1 0 126\nstore 1 " k % 126 " 0\nload 2 1 " k % 126 "\ndrop 1"
    }
    BEGIN {
        print "heap 1"
        each = commands / domains / (what == "shared" ? 5 : 4)
        for (d = 0; d < domains; d++) {
            print "domain " d
            for (k = 0; k < each; k++) print round(k)
        }
    }'
}

# A script of $1 domains that each make a chain of $2 blocks. Domain 0 waits a while, until the others are done, and then asks for $3
# complete collections.
chains() {
    awk -v domains="$1" -v blocks="$2" -v collections="$3" 'BEGIN {
        print "heap 1"
        for (d = 0; d < domains; d++) {
            print "domain " d
            for (k = 0; k < blocks; k++) print "allocmaj " 1 + k % 2 " 0 1\nstore " 1 + k % 2 " 0 " 2 - k % 2
            print "store 0 " d " " 2 - blocks % 2
            if (d == 0) for (k = 0; k < 40000 && domains > 1; k++) print "poll"
            if (d == 0) for (k = 0; k < collections; k++) print "full_major"
        }
    }'
}

commands() {
    local what domains
    for what in private shared; do
        for domains in 1 2 4 8; do
            script "$domains" 200000 "$what" >"$work/script"
            beside_start "200000 commands on $what blocks" "$domains"
        done
    done
    for domains in 1 2 4; do
        chains "$domains" $((40000 / domains)) 100 >"$work/script"
        beside_start "40000 blocks and 100 complete collections" "$domains"
    done
}

# The most memory of a run with no command, in KiB.
memory() {
    local program=$1
    shift
    /usr/bin/time -f %M "$work/$program" run "$@" <"$work/empty" 2>&1 >/dev/null
}

# What the start of a heap with $1 domains, $2 words in each minor area and $3 pools takes.
start() {
    local heap=(--domains "$1" --minor "$2" --pools "$3")
    ratio "a run of no command, ${heap[*]}" "$(both $((4 * runs)) "$work/empty" "${heap[@]}")"
    if [ -x /usr/bin/time ]; then
        echo "its memory: proved $(memory proved "${heap[@]}") KiB, twin $(memory twin "${heap[@]}") KiB"
    fi
}

starts() {
    script 1 0 private >"$work/empty"
    start 2 32768 512
    start 8 65536 2048
}

# How many instructions a run of the script makes, in both programs, or twice none where there is no valgrind.
instructions() {
    local program
    if ! command -v valgrind >/dev/null; then
        echo none none
        return
    fi
    for program in proved twin; do
        valgrind --tool=callgrind --callgrind-out-file="$work/counted" "$work/$program" run "$@" <"$work/script" >"$work/out" 2>"$work/error"
        awk '/^summary:/ { printf "%d ", $2 }' "$work/counted"
    done
    echo
}

# What a command costs beyond the start, and beyond the first 200 commands, which touch all memory of the heap that the others use. A
# collection has nothing to copy and a small heap to list, so it takes the same time in each script.
costs() {
    local count times measure heap=(--domains 1 --minor 4096 --pools 22)
    for count in 200 1000 10000 100000 200000; do
        script 1 "$count" large >"$work/script"
        times=$((count < 10000 ? 40 * runs : count == 10000 ? 10 * runs : 2 * runs))
        echo "$count $(both "$times" "$work/script" "${heap[@]}") $(instructions "${heap[@]}")"
    done >"$work/costs"
    for measure in "2 1e9 ns" "4 1 instructions"; do
        awk -v measure="$measure" '
            function cost(i) { return ($i - first[i]) / ($1 - first[1]) * unit[2] }
            function ratio(i) { return sprintf("%.2f", most[i] / least[i]) }
            BEGIN { split(measure, unit, " "); p = unit[1]; t = p + 1 }
            $p == "none" { exit }
            NR == 1 { for (i = 1; i <= NF; i++) first[i] = $i; next }
            {
                for (i = p; i <= t; i++) {
                    if (NR == 2 || cost(i) < least[i]) least[i] = cost(i)
                    if (NR == 2 || cost(i) > most[i]) most[i] = cost(i)
                }
                printf "%d commands: proved %.0f %s each, twin %.0f\n", $1, cost(p), unit[3], cost(t)
            }
            END { if (NR > 1) print "the largest of these beside the least: proved " ratio(p) ", twin " ratio(t) }' "$work/costs"
    done
}

calls() {
    local program
    if ! command -v strace >/dev/null; then
        echo "there is no strace, so system calls aren't counted"
        return
    fi
    script 1 200000 private >"$work/script"
    for program in proved twin; do
        strace -f -c -U calls,name -o "$work/calls" "$work/$program" run --domains 1 <"$work/script" >/dev/null
        awk -v program="$program" '$2 == "total" { print program ": " $1 " system calls in a run of 200000 commands" }' "$work/calls"
    done
}

# A script of $1 domains with up to 3000 commands each, drawn by chance from the seed $2: of version 1 where that is even, else of
# version 2. Of several domains none uses what another one
# does, so that its replies are determined.
by_chance() {
    awk -v domains="$1" -v seed="$2" '
    function any(n) { return int(rand() * n) }
    function fields() { return any(4) ? 1 + any(3) : 1 + any(version == 1 ? 126 : 1022) }
    function alone(k) {
        if (k < 3) return "ephe " any(8) " " 1 + any(3)
        if (k < 7) return "set_key " any(8) " " any(3) " " any(8)
        if (k < 8) return "unset_key " any(8) " " any(3)
        if (k < 10) return "get_key " any(8) " " any(8) " " any(3)
        if (k < 12) return "check_key " any(8) " " any(3)
        if (k < 15) return "set_data " any(8) " " any(8)
        if (k < 16) return "unset_data " any(8)
        if (k < 18) return "get_data " any(8) " " any(8)
        if (k < 20) return "check_data " any(8)
        if (k < 24) return "finalise " any(8) " " any(65536) " " any(8)
        if (k < 27) return "finalise_last " any(8) " " any(65536)
        if (k < 28) return "full_major"
        return command(any(100))
    }
    function command(k) {
        if (version == 2 && k < 8) return "raw " any(8) " " 251 + any(5) " " fields()
        if (version == 2 && k >= 45 && k < 60) return "cas " any(8) " " any(4) " " any(8) " " any(8)
        if (k < 20) return "alloc " any(8) " " any(246) " " fields()
        if (k < 40) return "allocmaj " any(8) " " any(246) " " fields()
        if (k < 60) return "store " any(8) " " any(4) " " any(8)
        if (k < 75) return "load " any(8) " " any(8) " " any(4)
        if (k < 80) return "int " any(8) " " any(1000) - 500
        if (k < 85) return "move " any(8) " " any(8)
        if (k < 97) return "drop " any(8)
        if (k < 98) return "poll"
        return k < 99 ? "minor" : "major"
    }
    BEGIN {
        srand(seed)
        version = 1 + seed % 2
        print "heap " version
        for (d = 0; d < domains; d++) {
            print "domain " d
            if (domains > 1) print "drop 0"
            for (left = any(3000); left > 0; left--) print (domains > 1 ? command(any(100)) : alone(any(56)))
        }
    }'
}

# Runs both with the words $2.. and the script $1, and prints whether they print the same.
compare() {
    local script=$1 program
    shift
    for program in proved twin; do
        timeout 60 "$work/$program" run "$@" <"$script" >"$work/out.$program" 2>"$work/error.$program" || echo "status $?" >>"$work/out.$program"
    done
    if cmp -s "$work/out.proved" "$work/out.twin"; then echo same; else echo differ; fi
}

same() {
    local example words domains pools seed
    for example in "$top"/examples/*.heap; do
        # The twin has no sections that spawn.
        [ "$(head -n 1 "$example")" != 'heap 3' ] || continue
        # One with several right outputs isn't compared.
        if [ ! -e "${example%.heap}.expected" ]; then continue; fi
        words=(run --domains "$(grep -c '^domain ' "$example")")
        if [ -e "${example%.heap}.args" ]; then read -r -a words <"${example%.heap}.args"; fi
        echo "examples $(compare "$example" "${words[@]:1}")"
    done >"$work/compared"
    for domains in 1 2 4 8; do
        for seed in $(seq $((10 * runs))); do
            by_chance "$domains" "$seed" >"$work/script"
            pools=$((domains == 1 ? 20 + seed % 20 : 512))
            echo "domains $domains $(compare "$work/script" --domains "$domains" --minor 4096 --pools "$pools")"
        done
    done >>"$work/compared"
    chains 1 8000 2 >"$work/script"
    echo "a heap that gets full $(compare "$work/script" --domains 1 --minor 4096 --pools 20)" >>"$work/compared"
    sort "$work/compared" | uniq -c
    ! grep -q differ "$work/compared"
}

if [ "${1:-}" = same ]; then
    same
    exit
fi
echo "processors: $(nproc), load: $(cut -d' ' -f1 /proc/loadavg)"
commands
starts
costs
calls
