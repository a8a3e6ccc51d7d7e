#!/usr/bin/env bash
# Measures the tables of docs/figures, and has bench/plots.py write them into docs/FIGURES.md and draw the pictures of the page.
#
#   bench/plots.sh           measures all that count instructions by valgrind: they differ little from machine to machine
#   bench/plots.sh timed     those of times, which want a machine that does nothing else
#   bench/plots.sh tried     those of runs that were judged, or tried under stress: some hours
#   bench/plots.sh all       all of them, in one sitting
#   bench/plots.sh TABLE..   these, by their names
#
# It measures the proved program, or PROGRAM, which is of the commit COMMIT, beside the twin without a proof; the library for C that
# `make -C library` builds, or LIBRARY; and beside OCaml 5 where bench/ocaml5.sh finds one, else columns or tables say `none`. RUNS and
# COUNT, which the scripts take that it calls, are left to them. It claims nothing.
. "$(dirname "${BASH_SOURCE[0]}")/begin.sh"
into=$top/docs/figures
commit=${COMMIT:-$(git -C "$top" rev-parse --short=8 HEAD)}
program_here camlheap
rustc -O --edition 2024 -o "$work/twin" "$top/bench/twin/main.rs"
# Status 3: there is no OCaml 5, and its columns aren't measured.
"$top/bench/ocaml5.sh" alone "$work/alone" || [ $? -eq 3 ]
counted=(commands command_by_size calls full_major_by_blocks collections empty_pauses longest_threads chains bindings maps)
timed=(minor_by_domains threads start beside ocaml5_times gc)
tried=(refused judged stressed)
case "${1:-counted}" in
    counted) tables=("${counted[@]}") ;;
    timed) tables=("${timed[@]}") ;;
    tried) tables=("${tried[@]}") ;;
    all) tables=("${counted[@]}" "${timed[@]}" "${tried[@]}") ;;
    *) tables=("$@") ;;
esac
export PROGRAM

# Instructions that a command with its words takes over the script $work/script.
count() {
    valgrind --tool=callgrind --callgrind-out-file=/dev/null "$@" <"$work/script" 2>&1 >"$work/out" | awk '/Collected/ { print $NF }'
}

# What the program $1 takes in each of $4 repetitions between the scripts $2 and $3, with the words from $5 on.
between() {
    local few many
    cp "$2" "$work/script"
    few=$(count "$work/$1" run --domains 1 "${@:5}")
    cp "$3" "$work/script"
    many=$(count "$work/$1" run --domains 1 "${@:5}")
    echo $(((many - few) / $4))
}

# What OCaml takes in each collection between $3 and $4 of them over $2 things of the kind $1.
alone() {
    local few many
    [ -x "$work/alone" ] || { echo none && return; }
    few=$(count "$work/alone" "$1" "$2" "$3" </dev/null)
    many=$(count "$work/alone" "$1" "$2" "$4" </dev/null)
    echo $(((many - few) / ($4 - $3)))
}

# The quotient of two numbers.
of() { awk -v a="$1" -v b="$2" 'BEGIN { if (b + 0 > 0) printf "%.2f", a / b; else printf "none" }'; }

# What is said of a table that counts instructions: by which script.
head_of() { printf '# commit: %s\n# machine: instructions, counted by valgrind\n# by: `%s`\n' "$commit" "$1"; }

columns() { (IFS=$'\t'; echo "$*"); }

# A script of the kind $1 with $2 things and $3 collections by the command $4.
kept() { awk -v domains=1 -v what="$1" -v count="$2" -v last="$(for _ in $(seq "$3"); do echo "$4"; done)" -f "$top/bench/scripts.awk"; }

# $1 times an allocation of $2 fields, a store and a load.
sizes() {
    awk -v times="$1" -v fields="$2" 'BEGIN {
        print "heap 1\ndomain 0"
        for (k = 0; k < times; k++) print "alloc 1 0 " fields "\nstore 1 " k % fields " 0\nload 2 1 " k % fields
    }'
}

# A chain of $1 blocks of four fields, with $2 minor collections.
copies() {
    awk -v blocks="$1" -v times="$2" 'BEGIN {
        print "heap 1\ndomain 0"
        for (k = 0; k < blocks; k++) print "alloc " 1 + k % 2 " 0 4\nstore " 1 + k % 2 " 0 " 2 - k % 2
        for (k = 0; k < times; k++) print "minor"
    }'
}

# $1 domains that make $2 minor collections in all.
pauses() {
    awk -v domains="$1" -v times="$2" 'BEGIN {
        print "heap 1"
        for (d = 0; d < domains; d++) {
            print "domain " d
            if (d == 0) for (k = 0; k < times; k++) print "minor"
        }
    }'
}

# $2 commands in all of $1 domains on private blocks.
private() {
    awk -v domains="$1" -v times="$2" 'BEGIN {
        print "heap 1"
        for (d = 0; d < domains; d++) {
            print "domain " d
            for (k = 0; k < times / domains / 4; k++) print "alloc 1 0 4\nint 2 " k "\nstore 1 " k % 4 " 2\nload 3 1 " k % 4
        }
    }'
}

# A row of a table of collections: what is counted, what each program takes, OCaml, and the ratios.
row_beside() {
    columns "$1" "$2" "$3" "$4" "$(of "$2" "$3")" "$(of "$2" "$4")"
}

commands() {
    head_of bench/instructions.sh
    columns "a command" camlheap "the twin" ratio
    REGISTRATIONS="" "$top/bench/instructions.sh" "$work/camlheap" "$work/twin" | awk '
        BEGIN {
            name["private"] = "`alloc`, `int`, `store` and `load` on private blocks"
            name["shared"] = "the same on the shared block"
            name["large"] = "on blocks of 126 fields"
            name["alloc_4"] = "`alloc` of four fields"
            name["alloc_126"] = "`alloc` of 126 fields"
            name["allocmaj_4"] = "`allocmaj` of four fields"
        }
        NR > 1 { printf "%s\t%s\t%s\t%.2f\n", ($1 in name) ? name[$1] : "`" $1 "`", $2, $3, $2 / $3 }'
}

command_by_size() {
    local fields
    head_of bench/plots.sh
    columns fields camlheap "the twin"
    for fields in 1 2 4 8 16 32 64 126; do
        sizes 2000 "$fields" >"$work/few"
        sizes 10000 "$fields" >"$work/many"
        columns "$fields" "$(between camlheap "$work/few" "$work/many" 8000)" "$(between twin "$work/few" "$work/many" 8000)"
    done
}

# The columns of a later complete collection over $2 things of the kind $1.
later() {
    local program
    kept "$1" "$2" 1 full_major >"$work/few"
    kept "$1" "$2" 3 full_major >"$work/many"
    for program in camlheap twin; do between "$program" "$work/few" "$work/many" 2 --pools 300; done
    alone "$1" "$2" 1 3
}

full_major_by_blocks() {
    local blocks each
    head_of bench/plots.sh
    columns blocks camlheap "the twin" "OCaml 5"
    for blocks in 1000 3000 10000 30000 60000; do
        mapfile -t each < <(later chain "$blocks")
        columns "$blocks" "${each[@]}"
    done
}

collections() {
    local each program kind number what
    head_of bench/plots.sh
    columns "what is counted" camlheap "the twin" "OCaml 5" "to the twin's" "to OCaml's"
    copies 0 100 >"$work/few"
    copies 0 1100 >"$work/many"
    mapfile -t each < <(for program in camlheap twin; do between "$program" "$work/few" "$work/many" 1000; done; alone minor 0 100 1100)
    row_beside "a minor collection with nothing to copy" "${each[@]}"
    copies 10000 0 >"$work/few"
    copies 10000 1 >"$work/many"
    mapfile -t each < <(for program in camlheap twin; do between "$program" "$work/few" "$work/many" 10000 --minor 65536; done; echo $(($(alone copies 10000 0 1) / 10000)))
    row_beside "a block of four fields, copied by a minor collection" "${each[@]}"
    while read -r kind number what; do
        mapfile -t each < <(later "$kind" "$number")
        row_beside "a later complete collection over $what" "${each[@]}"
    done <<'END'
chain 0 the shared block alone
chain 60000 a chain of 60,000 blocks
ephemerons 20000 20,000 ephemerons
finalise 5000 5,000 registrations of `finalise`
finalise_last 5000 5,000 registrations of `finalise_last`
END
    halves 5000 0 >"$work/few"
    halves 5000 1 >"$work/many"
    mapfile -t each < <(for program in camlheap twin; do between "$program" "$work/few" "$work/many" 1 --minor 4096 --pools 600; done; alone halves 5000 0 1)
    row_beside "the first one over 5,000 registrations of \`finalise\`, half of which run" "${each[@]}"
}

chains() {
    head_of bench/chains.sh
    columns "ephemerons in the chain" linked "the next key is" domains "a later complete collection"
    "$top/bench/chains.sh" "$work/camlheap" | awk 'NR > 1 {
        print $1 "\t" ($2 == "along" ? "in the order of the lists" : $2 == "against" ? "against it" : "by chance") "\t" ($3 == "data" ? "the data" : "in a field of the data") "\t" $4 "\t" $5
    }'
}

# What is said of a table of times.
timed() { printf '# commit: %s\n# machine: %s processors, load %s\n# by: `bench/plots.sh %s`\n' "$commit" "$(nproc)" "$(cut -d' ' -f1 /proc/loadavg)" "$1"; }

# The least time of a run of the program $1 with $2 domains over each of two scripts, and so what lies between, divided by $3.
least() {
    local script start
    for _ in $(seq "${RUNS:-5}"); do
        for script in few many; do
            start=$EPOCHREALTIME
            "$work/$1" run --domains "$2" <"$work/$script" >"$work/out"
            echo "$script $start $EPOCHREALTIME"
        done
    done | awk -v n="$3" '{ t = $3 - $2; if (!($1 in least) || t < least[$1]) least[$1] = t } END { printf "%.2f", (least["many"] - least["few"]) / n * 1e6 }'
}

minor_by_domains() {
    local domains
    timed minor_by_domains
    columns domains camlheap "the twin"
    for domains in 1 2 4 8; do
        pauses "$domains" 0 >"$work/few"
        pauses "$domains" 10000 >"$work/many"
        columns "$domains" "$(least camlheap "$domains" 10000)" "$(least twin "$domains" 10000)"
    done
}

threads() {
    local domains here there first_here first_there
    timed threads
    columns "200,000 commands on private blocks, domains" "camlheap, ms" "to one domain" "the twin, ms" "to one domain"
    for domains in 1 2 4 8; do
        private "$domains" 0 >"$work/few"
        private "$domains" 200000 >"$work/many"
        here=$(least camlheap "$domains" 1000)
        there=$(least twin "$domains" 1000)
        first_here=${first_here:-$here} first_there=${first_there:-$there}
        columns "$domains" "$here" "$(of "$here" "$first_here")" "$there" "$(of "$there" "$first_there")"
    done
}

# The instructions of the thread that makes the most of them, in a run of the script $work/script with $1 domains.
longest() {
    rm -rf "$work/threads" && mkdir "$work/threads"
    valgrind --tool=callgrind --separate-threads=yes --callgrind-out-file="$work/threads/one" "$work/camlheap" run --domains "$1" <"$work/script" >"$work/out" 2>"$work/error"
    awk '/^totals:/ { if ($2 > most) most = $2 } END { print most }' "$work"/threads/one-*
}

longest_threads() {
    local domains start all beyond first first_beyond
    head_of bench/plots.sh
    columns "200,000 commands on private blocks, domains" "the longest thread" "to one domain" "beyond the start" "to one domain"
    for domains in 1 2 4 8; do
        private "$domains" 0 >"$work/script"
        start=$(longest "$domains")
        private "$domains" 200000 >"$work/script"
        all=$(longest "$domains")
        beyond=$((all - start))
        first=${first:-$all} first_beyond=${first_beyond:-$beyond}
        columns "$domains" "$all" "$(of "$all" "$first")" "$beyond" "$(of "$beyond" "$first_beyond")"
    done
}

# The library for C, built where none is named.
library() {
    if [ -n "${LIBRARY:-}" ]; then echo "$LIBRARY" && return; fi
    make -s -C "$top/library" >&2
    echo "$top/library/out/libcamlheap.a"
}

calls() {
    head_of bench/calls.sh
    columns "a call of the library for C" camlheap
    LIBRARY=$(library) "$top/bench/calls.sh" | awk '{ print "`" $1 "`\t" $2 }'
}

# What a run of $1 domains takes for each command $2 of domain 0, with the words from $3 on. The other sections are empty.
each_of_first() {
    local times
    for times in 20 120; do
        awk -v domains="$1" -v times="$times" -v line="$2" 'BEGIN {
            print "heap 1"
            for (d = 0; d < domains; d++) { print "domain " d; if (d == 0) for (k = 0; k < times; k++) print line }
        }' >"$work/script"
        count "$work/camlheap" run --domains "$1" "${@:3}"
    done | paste -s | awk '{ print int(($2 - $1) / 100) }'
}

# What each `collect` of a replay takes with $1 domains whose sections are empty.
each_collect() {
    local times
    for times in 20 120; do
        awk -v domains="$1" -v times="$times" 'BEGIN {
            print "schedule 1"
            for (k = 0; k < times; k++) print "collect"
            print "end\nheap 1"
            for (d = 0; d < domains; d++) print "domain " d
        }' >"$work/script"
        count "$work/camlheap" replay --domains "$1"
    done | paste -s | awk '{ print int(($2 - $1) / 100) }'
}

empty_pauses() {
    local domains
    head_of bench/plots.sh
    columns "a pause with nothing to do" pools "1 domain" "2 domains" 4 8
    columns '`minor`' 512 $(for domains in 1 2 4 8; do each_of_first "$domains" minor; done)
    columns '`full_major`' 512 $(for domains in 1 2 4 8; do each_of_first "$domains" full_major; done)
    columns '`full_major`' 2048 $(for domains in 1 2 4 8; do each_of_first "$domains" full_major --pools 2048; done)
    columns "\`collect\` of a replay" 512 $(for domains in 1 2 4 8; do each_collect "$domains"; done)
}

bindings() {
    head_of bench/bindings.sh
    printf '# note: A program drives the session itself; a text takes some 500 more, for its line and its reply.\n'
    columns bindings "cells in a bucket" "\`get\` of the last key, whose cell is the first of its bucket" "of the key in the middle" "of the first key, whose cell is the last"
    "$top/bench/bindings.sh" | awk '
        { cost[$6, $4] = $(NF - 1); if (!($6 in seen)) { seen[$6]; order[++n] = $6 } }
        END {
            for (i = 1; i <= n; i++) {
                keys = order[i]; least = int(keys / 64)
                print keys "\t" least (keys % 64 ? " or " least + 1 : "") "\t" cost[keys, "last"] "\t" cost[keys, "middle"] "\t" cost[keys, "first"]
            }
        }'
}

maps() {
    head_of bench/maps.sh
    columns "a call" "made by" keys "in the mean" "the dearest of 400"
    "$top/bench/maps.sh" | awk '{ sub(":", "", $9); print "`" ($1 == "move" ? "take` and `put" : $1) "`\ta " $9 "\t" $5 "\t" $10 "\t" $NF }'
}

# Milliseconds of a run of no command by the program $1, the least of several, with the setting $2 of the C library.
first() {
    local start
    for _ in $(seq "${RUNS:-15}"); do
        start=$EPOCHREALTIME
        GLIBC_TUNABLES=$2 "$work/$1" run --domains 1 <"$work/script" >"$work/out"
        echo "$start $EPOCHREALTIME"
    done | awk '{ t = $2 - $1; if (NR == 1 || t < least) least = t } END { printf "%.1f", least * 1e3 }'
}

# The most memory that a run of no command by the program $1 has, in MB. It isn't told where Python, which asks, has more itself.
memory() {
    python3 -c 'import resource, subprocess, sys
with open(sys.argv[2]) as script:
    subprocess.run([sys.argv[1], "run", "--domains", "1"], stdin=script, stdout=subprocess.DEVNULL, check=True)
most, own = (resource.getrusage(it).ru_maxrss / 1000 for it in (resource.RUSAGE_CHILDREN, resource.RUSAGE_SELF))
print("%.1f" % most if most > 1.2 * own else "less than %.0f" % (1.2 * own))' "$work/$1" "$work/script"
}

start() {
    local program
    timed start
    columns "a run of no command, in the usual heap of 17.3 MB of words" "small pages, ms" "large pages, ms" "memory, MB"
    printf 'heap 1\ndomain 0\n' >"$work/script"
    for program in camlheap twin; do
        columns "${program/twin/the twin}" "$(first "$program" '')" "$(first "$program" glibc.malloc.hugetlb=1)" "$(memory "$program")"
    done
}

# The longest pause of each way, as bench/beside.sh has it with the words $2.., whose work is told as $1.
ways() {
    local what=$1
    shift
    "$top/bench/beside.sh" "$@" | awk -v what="$what" '
        / blocks are .* in one pause:$/ { way = "in one pause"; order[++n] = way }
        / blocks are .* beside:$/ { way = "beside the domain, in polls"; order[++n] = way }
        /, the longest / {
            for (i = 1; i < NF; i++) { if ($i == "of") phases = $(i + 1); if ($i == "longest") took = $(i + 1) }
            if (took > most[way] + 0) { most[way] = took; those[way] = phases }
        }
        END { for (i = 1; i <= n; i++) print what "\t" order[i] "\t" those[order[i]] "\t" most[order[i]] }'
}

beside() {
    timed beside
    columns "what a cycle does" where "phases of its longest pause" "the longest pause, ms"
    ways "marks a chain of 95,000 blocks"
    ways "frees 100,000 dead blocks" garbage
}

ocaml5_times() {
    timed ocaml5_times
    columns what camlheap "OCaml 5" ratio
    "$top/bench/ocaml5.sh" times | awk -F ' [|] ' 'NR > 3 { sub(/^[|] /, "", $1); sub(/ [|]$/, "", $4); print $1 "\t" $2 "\t" $3 "\t" $4 }' || columns "there is no OCaml 5" none none none
}

# The least of RUNS runs (3 without it) of the program $1 of bench/gc with the words $2, by what stands before the word $3 of the line
# that it prints of that; `none` where it isn't built or says nothing of it.
of_gc() {
    local program=$top/bench/gc/out/$1 words
    [ -x "$program" ] || { echo none && return; }
    read -ra words <<<"$2"
    for _ in $(seq "${RUNS:-3}"); do "$program" "${words[@]}" 2>&1; done | awk -v of="$3" '
        match($0, of " [0-9.]+") { t = substr($0, RSTART, RLENGTH); sub(/.* /, "", t); if (!n++ || t + 0 < least + 0) least = t }
        END { print n ? least : "none" }'
}

gc() {
    local name words what of each
    make -s -C "$top/bench/gc" >&2
    timed gc
    columns "a benchmark" "what is told, the least of three runs" camlheap "OCaml 5" malloc "Boehm's collector" "to OCaml's"
    while IFS='|' read -r name words what of; do
        mapfile -t each < <(for it in heap ocaml malloc boehm; do of_gc "${name}_$it" "$words" "$of"; done)
        columns "\`$name $words\`" "$what" "${each[@]}" "$(of "${each[0]}" "${each[1]}")"
    done <<'END'
trees|16 1|processor time, s|processors
trees|14 4|wall time, s|wall
gcbench|18 16 500000 16|processor time, s|processors
cache|10000 1000000 50000|processor time, s|wall [0-9.]+ s, processors
cache|100000 1000000 250000|processor time, s|wall [0-9.]+ s, processors
handles|50000 10|processor time, s|processors
latency|200000 0 1 270|the longest operation, microseconds|an operation.*most
latency|200000 16 1 540|the longest operation, microseconds|an operation.*most
END
}

# A row of a table of runs: what ran, the last line of the script $2 with its words, and which it was. A script that ends with another
# status than 0 ends the sitting.
ran() {
    local what=$1
    shift
    "$top/$1" "${@:2}" >"$work/said"
    columns "$what" "$(tail -n 1 "$work/said")" "\`$*\`"
}

# The same of a script whose lines each count runs that went right.
went_right() {
    local what=$1
    shift
    "$top/$1" "${@:2}" >"$work/said"
    columns "$what" "$(awk '{ for (i = 2; i <= NF; i++) if ($i ~ /^right/) n += $(i - 1) } END { print n + 0 }' "$work/said")" "\`$*\`"
}

refused() {
    head_of examples/hostile.sh | sed '2s/.*/# machine: each request for memory refused in turn/'
    columns "a run" requests "refused ones that end with status 5"
    "$top/examples/hostile.sh" | awk '/^right memory refused, / {
        what = $0; sub(/^right memory refused, /, "", what); sub(/:.*/, "", what)
        counts = $0; sub(/.*: of /, "", counts); split(counts, word, " ")
        print what "\t" word[1] "\t" (word[3] == word[1] ? "all" : word[3])
    }'
}

judged() {
    head_of "the scripts that are named" | sed '2s/.*/# machine: outputs of the proved program/; 3s/`//g'
    columns outputs "what the script says in the end" by
    ran "of random scripts of version 2 with one to eight domains" bench/judge.sh
    ran "of random scripts of one to four domains" bench/check_outputs.sh
    ran "of random scripts of versions 1 to 3 with one to three domains" bench/repeats.sh outputs
    ran "of random scripts with two to four domains, each printed again by a replay of the schedule of its history" bench/repeats.sh schedules
    ran "of random scripts of version 3, in threads and with fewer" bench/spawns.sh
    ran "of random scripts under random schedules" bench/schedules.sh
    ran "of random texts of tables on three sizes of the heap" bench/tables.sh
    ran "of random sections of a table with two to four domains" bench/sections.sh
    ran "of the examples" examples/check.sh
}

stressed() {
    head_of "the scripts that are named" | sed '2s/.*/# machine: some processors, and limits of threads/; 3s/`//g'
    columns what "runs, all of them right" by
    went_right "1 to 8 domains that ask for pauses" bench/pauses.sh stress
    went_right "1 to 8 domains that store and copy young blocks, 200,000 commands" bench/promotion.sh stress
    went_right "8 domains that store, load, read weakly and poll beside cycles" bench/beside.sh stress
    went_right "domains stopped between a look at a field and the store" bench/beside.sh window
    went_right "100,000 blocks dropped at once, in the least heap" bench/collections.sh dead
    ran "random scripts of 1 to 8 domains with finalisers" bench/finalisers.sh stress
    went_right "eight domains with 3,125 commands \`cas\` each on one field" bench/exchanges.sh
    went_right "eight seats on one and on two processors, beside busy processes" bench/seats.sh
}

mkdir -p "$into"
for table in "${tables[@]}"; do
    "$table" >"$work/table"
    mv "$work/table" "$into/$table.tsv"
done
python3 "$top/bench/plots.py"
