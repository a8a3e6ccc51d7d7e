#!/usr/bin/env bash
# Times the marking of the major heap beside running domains: the longest pause where 95,000 blocks are marked in one pause and
# where they are marked beside the domain, and commands a second while a collection goes on and while none does. It claims nothing.
# With the word `words` it counts by valgrind how many words of the table the pause looks at that looks at the most, in both ways.
# With the word `garbage` it times the longest pause where the garbage of 100,000 dead blocks is freed in it, and where it is freed
# beside the domain.
# With the word `together` it times how long domains take that mark the blocks that hang from one, by 1, 2 and 4 domains.
# With the word `stress` it times nothing: 8 domains store, load, read weakly, allocate and poll through hundreds of collections
# and thousands of pauses, 200,000 commands in all, 20 times each, with threads and without. Each output is checked, and the runs
# that hang or print something wrong are counted. It ends with 1 where there is one. With the word `window` the domains run in
# threads, and are stopped for a while where they have loaded one of the fields that all of them store to (bench/watch.c): so a
# domain often stands between its look at what it overwrites and its store, while the others run. It needs gcc.
# PROGRAM names another program to be run, RUNS how often, DOMAINS how many domains, LIMITS which limits of threads, and BLOCKS
# how many blocks are marked.
. "$(dirname "${BASH_SOURCE[0]}")/begin.sh"
program_here camlheap

. "$top/examples/limited.sh"

# How many blocks the chain of each domain has, by which a collection lasts for several polls, and how many a domain makes before
# its rounds: a block that all others load from, an ephemeron, the chain, and three blocks that move.
chain=1024
base=$((chain + 5))

# The stress: $1 domains. Of the shared block a domain has the field of its number, which leads to its own block, in register 14.
# The fields 8 to 11 are stored to by all. Register 15 holds the head of its chain, which is so long that the marking, which comes
# to the last register first, takes some polls until it comes to the own block.
# In each round a domain publishes two new blocks; asks for a collection and polls; moves its three blocks from its own block, which
# isn't scanned yet, to the head of the chain, which is; reads the key of its ephemeron, to which nothing else leads; loads what
# others have published, and keeps it; reads the ephemeron of another; and looks at all of it after another pause or two. Then it
# moves the three blocks back. In each second round its ephemeron gets a new key, which it lets go, and in the others it asks
# whether the key is still there. At the end it goes along the chain.
sharing() {
    awk -v domains="$1" -v chain="$chain" '
        function setup(d,    k) {
            print "allocmaj 14 0 8\nephe 13 2\nstore 14 2 13\nint 12 0"
            for (k = 0; k < chain; k++) print "allocmaj " 11 + k % 2 " 0 2\nstore " 11 + k % 2 " 0 " 12 - k % 2
            print "move 15 " 12 - chain % 2
            print "allocmaj 8 0 2\nint 12 " d "\nstore 8 1 12"
            print "allocmaj 9 0 2\nstore 9 0 8\nallocmaj 10 0 2\nstore 10 0 9\nstore 14 3 10"
            print "drop 8\ndrop 9\ndrop 10\ndrop 11\ndrop 12\nstore 0 " d " 14"
        }
        function round(d, i,    n, other) {
            n = d * 1000000 + i
            other = (d + i) % domains
            print "alloc 1 0 2\nint 2 " n "\nstore 1 0 2\nstore 1 1 2\nstore 14 0 1"
            print "allocmaj 3 0 2\nstore 3 0 2\nstore 3 1 1\nstore 0 " 8 + (d + i) % 4 " 3"
            print "major\npoll"
            print "load 12 14 3\nstore 15 1 12\nint 12 0\nstore 14 3 12"
            print "get_key 2 13 0\nload 12 2 0"
            print "load 4 0 " other "\nload 5 4 0\nload 6 5 0\nload 7 5 1"
            print "load 8 0 " 8 + (d + 3 * i) % 4 "\nload 9 8 0\nload 10 8 1\nload 11 10 0\nstore 14 1 8"
            print "minor\npoll"
            print "load 5 4 2\nget_key 6 5 0\nload 7 6 0\nget_data 6 5\nload 7 6 0"
            print "load 12 14 1\nload 11 12 0\nload 12 12 1\nload 12 12 0"
            print "minor\npoll"
            print "load 12 15 1\nload 11 12 0\nload 11 11 0\nload 11 11 1"
            print "store 14 3 12\nint 12 0\nstore 15 1 12\nload 12 2 0\ndrop 2"
            if (i % 2 == 0) print "alloc 2 0 1\nint 12 " n "\nstore 2 0 12\nset_key 13 0 2\nset_data 13 1\ndrop 2"
            else print "alloc 2 0 126\ncheck_key 13 0\ncheck_data 13\ndrop 2"
        }
        BEGIN {
            print "heap 1"
            rounds = int((200000 / domains - 3 * chain - 30) / 60)
            for (d = 0; d < domains; d++) {
                print "domain " d
                setup(d)
                for (i = 0; i < rounds; i++) round(d, i)
                for (k = 0; k < chain; k++) print "load 15 15 0"
                print "load 12 14 3\nload 12 12 0\nload 12 12 0\nload 12 12 1"
            }
        }'
}

# Reads the stress script and its output and prints whether this is right, and how many collections ended at least, by the keys of
# one domain that were gone. It goes along with what each domain holds: what it has stored into its own blocks is there, what others
# have published is of the right kind and has the number of its round, and a key that is held is there.
checked() {
    awk -v domains="$1" -v base="$base" '
        function wrong(why) { if (!bad) print "wrong: domain " d ", command " place ", " command[d, place] ": " $0 ": " why; bad = 1; exit }
        function is(wanted) { if ($0 != wanted) wrong("not " wanted) }
        function domain_of(block) { split(substr(block, 5), part, ":"); return part[1] + 0 }
        function serial_of(block) { split(substr(block, 5), part, ":"); return part[2] + 0 }
        function is_block(value) { return value ~ /^blk / }
        # What a block is: the shared one, the own block of a domain, its ephemeron, one that it made then, or of its rounds.
        function kind(block,    serial) {
            serial = serial_of(block)
            if (block == "blk 0:0") return "shared"
            if (serial == 1) return "own"
            if (serial == 2) return "ephemeron"
            if (serial <= base) return "early"
            return substr("abc", (serial - base - 1) % 3 + 1, 1)
        }
        function round_of(block) { return int((serial_of(block) - base - 1) / 3) }
        function number_of(block) { return "int " domain_of(block) * 1000000 + round_of(block) }
        # What a field of the register is, where this domain alone has stored to it.
        function own(block, field) { return (block, field) in memory ? memory[block, field] : "int 0" }
        # One of the blocks that a domain has published at a place, not older than the last one that was seen there.
        function newer(from, place_of, wanted, block) {
            if (!is_block(block) || domain_of(block) != from || kind(block) != wanted) wrong("not such a block of domain " from)
            if (serial_of(block) < newest[from, place_of]) wrong("an older block")
            newest[from, place_of] = serial_of(block)
        }
        function loaded(block, field,    from, what) {
            from = domain_of(block); what = kind(block)
            if (what == "shared" && field != d) {
                if ($0 == "int 0" && !(field in seen)) return
                seen[field] = 1
                if (field < domains) is("blk " field ":1")
                else if (!is_block($0) || kind($0) != "b" || (domain_of($0) + round_of($0)) % 4 != field - 8) wrong("not published there")
            } else if (what == "shared" || from == d) is(own(block, field))
            else if (what == "own" && field == 0) { if ($0 != "int 0" || (from, "field") in newest) newer(from, "field", "a", $0) }
            else if (what == "own" && field == 2) is("blk " from ":2")
            else if (what == "b" && field == 1) is("blk " from ":" base + 3 * round_of(block) + 1)
            else if (what ~ /^[abc]$/) is(number_of(block))
            else wrong("no such load")
        }
        # The key of the own ephemeron is gone, with the data: a collection has ended since it was set.
        function gone(    r) {
            if (key == "") return
            for (r = 1; r < 16; r++) if (register[r] == key) wrong("the key is held")
            key = data = ""
            collections++
        }
        function weak(block, is_key,    from, held) {
            from = domain_of(block)
            if (from != d) { if ($0 != "none") newer(from, is_key ? "key" : "data", is_key ? "c" : "a", $0) }
            else {
                held = is_key ? key : data
                if ($0 != "none") is(held)
                else if (held != "") gone()
            }
        }
        function run(    c, at, refuses) {
            split(command[d, place], c, " ")
            at = register[c[3]]
            if (c[1] ~ /^(poll|minor|major)$/) is("ok")
            else if (c[1] == "int") { is("ok"); register[c[2]] = "int " c[3] }
            else if (c[1] == "move") { is("ok"); register[c[2]] = at }
            else if (c[1] == "drop") { is("ok"); register[c[2]] = "" }
            else if (c[1] ~ /^(alloc|allocmaj|ephe)$/) { is("blk " d ":" ++made); register[c[2]] = $0 }
            else if (c[1] == "store") {
                at = register[c[2]]
                refuses = !is_block(at) || kind(at) == "ephemeron" || register[c[4]] == ""
                is(refuses ? "type" : "ok")
                if (!refuses) memory[at, c[3]] = register[c[4]]
            } else if (c[1] == "load") {
                if (!is_block(at) || kind(at) == "ephemeron") is("type")
                else { loaded(at, c[4]); register[c[2]] = $0 }
            } else if (c[1] == "set_key") { is("ok"); key = register[c[4]] }
            else if (c[1] == "set_data") { is("ok"); data = register[c[3]] }
            else if (c[1] ~ /^get_/) {
                if (!is_block(at) || kind(at) != "ephemeron") is("type")
                else { weak(at, c[1] == "get_key"); register[c[2]] = $0 == "none" ? "" : $0 }
            } else if (c[1] ~ /^check_/) {
                if ($0 == "no") gone()
                else { is("yes"); if (key == "") wrong("it was gone") }
            } else wrong("no such command")
        }
        function over() {
            if (place != commands[d]) wrong("too short")
            if (collections > most) most = collections
        }
        NR == FNR && $1 == "domain" { d = $2; next }
        NR == FNR { command[d, ++commands[d]] = $0; next }
        $1 == "domain" {
            if (next_domain) over()
            d = $2
            if (d != next_domain++) wrong("order")
            place = made = collections = 0
            key = data = ""
            delete register; delete memory; delete newest; delete seen
            register[0] = "blk 0:0"
            next
        }
        { place++; if (place > commands[d]) wrong("too long"); run() }
        END {
            if (bad) exit
            over()
            if (!bad) print next_domain == domains ? "right, collections " most : "wrong: too few domains"
        }
    ' "$work/stress" "$work/out"
}

# Runs the stress script once, by the words behind the number of domains, and prints how it went.
outcome() {
    local domains=$1 status=0
    shift
    timeout 300 "$@" run --domains "$domains" --minor 4096 --pools 600 <"$work/stress" >"$work/out" 2>"$work/err" || status=$?
    if [ "$status" = 124 ]; then echo hangs
    elif [ "$status" != 0 ]; then echo "status $status"
    else checked "$domains"
    fi
}

# Counts the outcomes of some runs, each behind the words $1, and adds in how many collections a key was gone at least.
count() {
    awk -v what="$1" '
        /^right, collections/ { right++; if (right == 1 || $3 < least) least = $3; next }
        { other[$0]++ }
        END {
            if (right) printf "%s: %d right, at least %d collections in each\n", what, right, least
            for (o in other) printf "%s: %d %s\n", what, other[o], o
        }' | tee -a "$work/counts"
}

stress() {
    local domains limit
    for domains in ${DOMAINS:-8}; do
        sharing "$domains" >"$work/stress"
        for limit in ${LIMITS:-none 1 2}; do
            for _ in $(seq "${RUNS:-20}"); do
                if [ "$limit" = none ]; then outcome "$domains" "$work/camlheap"
                else outcome "$domains" bash -c '. "$0"; limited "$@"' "$top/examples/limited.sh" "$limit" "$work/camlheap"
                fi
            done | count "domains $domains, limit $limit"
        done
    done
    ! grep -q 'hangs\|wrong\|status' "$work/counts"
}

# The same in threads, with stops.
window() {
    local domains=${DOMAINS:-8}
    sharing "$domains" >"$work/stress"
    for _ in $(seq "${RUNS:-20}"); do
        outcome "$domains" "$work/watch" window 600 8 "$work/camlheap"
        tail -n 1 "$work/err" >>"$work/stops"
    done | count "domains $domains, with stops"
    awk '$1 == "uses" { n++; stops += $4; windows += $6; if (n == 1 || $6 < least) least = $6 }
        END { printf "%d stops, %d of them between a look at what is overwritten and the store, at least %d in a run\n", stops, windows, least }' "$work/stops"
    ! grep -q 'hangs\|wrong\|status' "$work/counts"
}

# A script of one domain that makes a chain of $1 blocks and then, $2 times, all of the lines behind.
rounds() {
    awk -v blocks="$1" -v times="$2" -v lines="$3" 'BEGIN {
        print "heap 1\ndomain 0"
        for (k = 0; k < blocks; k++) { r = 1 + k % 2; print "allocmaj " r " 0 1\nstore " r " 0 " 3 - r }
        print "minor"
        for (k = 0; k < times; k++) printf "%s", lines
    }'
}

# The pauses of a script: how many there are of each kind, and the longest.
pauses() {
    echo "$1:"
    "$work/watch" phases 300 "$work/camlheap" run --domains 1 --minor 4096 --pools 300 <"$work/script" 2>&1 >"$work/out" | sed 's/^/  /'
}

# The scripts in which $1 blocks are marked $2 times: in one pause, or beside the domain.
in_one_pause() {
    rounds "$1" "$2" $'full_major\n' >"$work/script"
}

beside() {
    rounds "$1" "$2" "$(echo major && printf 'poll\n%.0s' $(seq $((($1 + 1) / 256 + 2))))"$'\n' >"$work/script"
}

longest() {
    local way blocks=${BLOCKS:-95000}
    for way in in_one_pause beside; do
        "$way" "$blocks" 20
        pauses "$blocks blocks are marked ${way//_/ }"
    done
}

# A script of one domain that makes $1 blocks to which nothing refers, and then runs the lines behind.
dead() {
    awk -v blocks="$1" -v lines="$2" 'BEGIN {
        print "heap 1\ndomain 0"
        for (k = 0; k < blocks; k++) print "allocmaj 1 0 1"
        printf "drop 1\nminor\n%s", lines
    }'
}

# The scripts in which the garbage of $1 blocks is freed: in one pause, or beside the domain.
swept_in_one_pause() {
    dead "$1" $'full_major\n' >"$work/script"
}

swept_beside() {
    dead "$1" "$(echo major && printf 'poll\n%.0s' $(seq $((($1 + 1) / 256 + 10))))"$'\n' >"$work/script"
}

# How long the longest pause takes in which garbage is freed, or is left to be freed beside the domain.
garbage() {
    local way blocks=${BLOCKS:-100000}
    for way in swept_in_one_pause swept_beside; do
        "$way" "$blocks"
        pauses "$blocks dead blocks are ${way//_/ }"
    done
}

# The pauses of marking by the words of the table. It takes half an hour for 95,000 blocks.
words() {
    local way blocks=${BLOCKS:-10000}
    for way in in_one_pause beside; do
        "$way" "$blocks" 1
        echo "$blocks blocks are marked ${way//_/ }:"
        valgrind --tool=lackey --trace-mem=yes --log-fd=9 "$work/camlheap" run --domains 1 --minor 4096 --pools 300 \
            <"$work/script" 9>&1 >"$work/out" | "$work/watch" words 300 4096 | sed 's/^/  /'
    done
}

# Seconds of one run with $1 domains of the script, the least of several.
seconds() {
    for _ in $(seq "${RUNS:-7}"); do
        start=$(date +%s.%N)
        "$work/camlheap" run --domains "$1" --minor 65536 <"$work/script" >"$work/out"
        end=$(date +%s.%N)
        echo "$start $end"
    done | awk '{ t = $2 - $1; if (NR == 1 || t < least) least = t } END { print least }'
}

# A script of $1 domains with $2 commands each behind the command $3 of domain 0: `shared` stores to and loads from a field of the
# shared block, `made` makes a block, stores the one before into it and loads it.
commands() {
    awk -v domains="$1" -v count="$2" -v first="$3" -v what="$4" 'BEGIN {
        print "heap 1"
        for (d = 0; d < domains; d++) {
            print "domain " d
            print "allocmaj 1 0 2\nallocmaj 2 0 2"
            print d == 0 ? first : "int 3 0"
            for (k = 0; k < count / 4; k++) {
                if (what == "shared") print "store 0 " d " 1\nload 3 0 " d "\nstore 0 " d " 2\nload 4 0 " d
                else print "alloc 3 0 2\nstore 3 0 1\nstore 1 0 3\nload 4 1 0"
            }
        }
    }'
}

speed() {
    local domains what first none some
    for what in shared made; do
        for domains in 1 2 4; do
            for first in minor major; do
                commands "$domains" 0 "$first" "$what" >"$work/script"
                none=$(seconds "$domains")
                commands "$domains" $((190000 / domains)) "$first" "$what" >"$work/script"
                some=$(seconds "$domains")
                echo "$first $none $some"
            done | awk -v d="$domains" -v what="$what" '
                { rate[$1] = 190000 / ($3 - $2) }
                END { printf "%s, domains %d: %.0f commands a second, %.0f while a collection goes on, %.2f of that\n", what, d, rate["minor"], rate["major"], rate["major"] / rate["minor"] }'
        done
    done
}

# A script of $1 domains that make $2 blocks together, which hang from the fields of the shared block by blocks of 126 fields.
# They all wait for the others with commands that do nothing, run the command $3, and poll until all can be marked.
wide() {
    awk -v domains="$1" -v blocks="$2" -v command="$3" 'BEGIN {
        print "heap 1"
        polls = int(blocks / 256) + 50
        for (d = 0; d < domains; d++) {
            print "domain " d "\nallocmaj 1 0 126\nstore 0 " d " 1"
            for (k = 0; k < blocks / domains; k++) {
                if (k % 15876 == 0) print "allocmaj 2 0 126\nstore 1 " int(k / 15876) " 2"
                if (k % 126 == 0) print "allocmaj 3 0 126\nstore 2 " int(k / 126) % 126 " 3"
                print "allocmaj 4 0 1\nstore 3 " k % 126 " 4"
            }
            print "drop 1\ndrop 2\ndrop 3\ndrop 4"
            for (k = 0; k < 15000 / domains; k++) print "int 5 0"
            print command
            for (k = 0; k < polls; k++) print "poll"
        }
    }'
}

# How long the marking of blocks takes that hang from one block, by 1, 2 and 4 domains that poll.
together() {
    local domains command blocks=${BLOCKS:-90000}
    for domains in 1 2 4; do
        for command in minor major; do
            wide "$domains" "$blocks" "$command" >"$work/script"
            echo "$command $(seconds "$domains")"
        done | awk -v d="$domains" -v blocks="$blocks" '
            { t[$1] = $2 }
            END { printf "%d blocks marked by %d domains that poll: %.1f ms\n", blocks, d, 1000 * (t["major"] - t["minor"]) }'
    done
}

echo "processors: $(nproc), load: $(cut -d' ' -f1 /proc/loadavg)"
gcc -O1 -o "$work/watch" "$top/bench/watch.c"
case ${1:-} in
    stress) stress ;;
    window) window ;;
    words) words ;;
    together) together ;;
    garbage) garbage ;;
    *)
        longest
        speed
        ;;
esac
