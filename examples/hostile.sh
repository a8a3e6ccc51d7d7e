#!/usr/bin/env bash
# Runs the program where what stands around it fails: streams that are closed or full, readers that went away, signals,
# refused threads, refused memory, and input that is broken, too long or without end. Prints a line for each case, and
# ends with 1 at the first that is wrong. No case may take more than a minute. It needs gcc for refused memory.
#
# The outputs and fault lines are those of docs/SCRIPTS.md.
set -u
top=$(cd "$(dirname "${BASH_SOURCE[0]}")/.." && pwd) || exit 1
work=$(mktemp -d) || exit 1
trap 'rm -rf "$work"' EXIT
"$top/camlheap" run --domains 1 <"$top/examples/chain.heap" >/dev/null || exit 1
cp "$top/crates/camlheap/out/camlheap" "$top"/examples/{three_domains,sections}.* "$work" && chmod 755 "$work" || exit 1
gcc -shared -fPIC -O1 -o "$work/hostile.so" "$top/examples/hostile.c" || exit 1
cd "$work" || exit 1

. "$top/examples/limited.sh"
export -f limited

# Ends the whole with what was wrong in the case $1.
wrong() {
    echo "WRONG $1: $2"
    exit 1
}

# The case $1: the text $5, run by bash, ends with the status $2, and leaves in `out` what the file $3 has (- is
# nothing), and in `err` the line $4 (nothing where it is empty).
try() {
    local found
    : >out
    : >err
    timeout -k 5 60 bash -c "$5" >out 2>err
    found=$?
    [ "$found" = 124 ] || [ "$found" = 137 ] && wrong "$1" "it hadn't ended after a minute"
    [ "$found" = "$2" ] || wrong "$1" "status $found, and not $2; standard error: $(head -c 200 err)"
    cmp -s out "${3/#-//dev/null}" || wrong "$1" "another output: $(head -c 200 out)"
    [ "$(cat err)" = "$4" ] || wrong "$1" "standard error: $(head -c 200 err)"
    echo "right $1: status $found${4:+, $4}"
}

# A script of one domain with the commands $2.., one in each word, in the file $1.
script() {
    local file=$1
    shift
    printf '%s\n' "heap 1" "domain 0" "$@" >"$file"
}

# A script of one domain with $2 times the command $3, in the file $1.
repeated() {
    { printf 'heap 1\ndomain 0\n'; yes "$3" | head -n "$2"; } >"$1"
}

script plain.heap "alloc 1 0 2" "int 2 7" "store 1 0 2" "load 3 1 0"
printf '%s\n' "domain 0" "blk 0:1" ok ok "int 7" >plain.out
script weak.heap "alloc 1 0 1" "alloc 2 0 1" "int 3 7" "store 2 0 3" "store 1 0 2" "ephe 4 1" "set_key 4 0 1" major \
    "get_key 5 4 0" "drop 1" "drop 2" full_major "load 6 5 0" "load 7 6 0"
printf '%s\n' "domain 0" "blk 0:1" "blk 0:2" ok ok ok "blk 0:3" ok ok "blk 0:1" ok ok "live 4 28" "blk 0:2" "int 7" >weak.out
repeated long.heap 100000 "load 1 0 15"
{ echo "domain 0"; yes "int 0" | head -n 100000; } >long.out
repeated slow.heap 200000 full_major
printf 'heap 1\ndomain 1\n' >fault.heap
usage="usage: camlheap run|replay|table [--domains N] [--minor W] [--pools P] | gen|load BASE N C"
order="script line 2: number 1 out of range"
run="./camlheap run --domains 1"

# Words and plain runs, with which the others compare.
try "a plain run" 0 plain.out "" "$run <plain.heap"
try "a run with weak keys" 0 weak.out "" "$run <weak.heap"
try "a long output" 0 long.out "" "$run <long.heap"
try "no words" 1 - "$usage" "./camlheap </dev/null"
try "an empty word" 1 - "$usage" "./camlheap run '' <plain.heap"
try "a word that is no text" 1 - "$usage" "./camlheap \$'run\\xff' <plain.heap"
try "usage leaves the input unread" 1 plain.heap "$usage" "{ ./camlheap run x; status=\$?; cat; exit \$status; } <plain.heap"

# Standard input.
try "input closed" 3 - "read fault" "$run <&-"
try "input that is a directory" 3 - "read fault" "$run <."
try "input that can't be read" 3 - "read fault" "$run 0>written"
try "empty input" 2 - "script line 1: syntax" "$run </dev/null"
try "input that ends within a line" 2 - "script line 3: syntax" "printf 'heap 1\ndomain 0\nint 1 5' | $run"
try "input in pieces" 0 plain.out "" "{ head -c 20; sleep 0.2; head -c 20; sleep 0.2; cat; } <plain.heap | $run"
try "bytes of every value" 2 - "script line 1: syntax" "printf '\\\\x%02x' {0..255} | xargs -0 printf | $run"
try "bytes of every value behind a heading" 2 - "script line 3: syntax" "{ printf 'heap 1\ndomain 0\n'; printf '\\\\x%02x' {0..255} | xargs -0 printf; } | $run"
try "carriage returns" 2 - "script line 1: syntax" "sed 's/\$/\r/' plain.heap | $run"
try "a number of a million digits" 2 - "script line 3: number 2 out of range" "{ printf 'heap 1\ndomain 0\nint 1 '; head -c 1000000 /dev/zero | tr '\\0' 9; echo; } | $run"
try "200,000 commands" 0 - "" "{ printf 'heap 1\ndomain 0\n'; yes poll | head -n 200000; } | $run | tail -n +200002; exit \${PIPESTATUS[1]}"
try "200,001 commands" 2 - "script line 200003: too many commands" "{ printf 'heap 1\ndomain 0\n'; yes poll | head -n 200001; } | $run"
try "16,777,216 bytes" 2 - "script line 1: syntax" "yes '' | head -c 16777216 | $run"
try "16,777,217 bytes" 2 - "script: more than 16777216 bytes" "yes '' | head -c 16777217 | $run"
try "input without end" 2 - "script: more than 16777216 bytes" "yes poll | $run; exit \${PIPESTATUS[1]}"
try "zeros without end" 2 - "script: more than 16777216 bytes" "$run </dev/zero"

# Standard output and standard error.
try "output closed" 4 - "write fault" "$run <plain.heap >&-"
try "output that can't be written" 4 - "write fault" "$run <plain.heap 1<plain.heap"
try "a full disk, a short output" 4 - "write fault" "$run <plain.heap >/dev/full"
try "a full disk, a long output" 4 - "write fault" "$run <long.heap >/dev/full"
try "a full disk, nothing to write" 2 - "$order" "$run <fault.heap >/dev/full"
try "output and error closed" 4 - "" "$run <plain.heap >&- 2>&-"
try "all three closed" 3 - "" "$run <&- >&- 2>&-"
try "a fault and error closed" 2 - "" "$run <fault.heap 2>&-"
try "a fault and error full" 2 - "" "$run <fault.heap 2>/dev/full"
try "usage and error closed" 1 - "" "./camlheap 2>&-"

# Readers that go away: a failed write, whether the signal SIGPIPE is ignored or not.
head -c 5 plain.out >five.out
try "a reader of five bytes" 4 five.out "write fault" "$run <long.heap | head -c 5; exit \${PIPESTATUS[0]}"
try "a reader of five bytes, SIGPIPE ignored" 4 five.out "write fault" "trap '' PIPE; $run <long.heap | head -c 5; exit \${PIPESTATUS[0]}"
try "a reader that is gone" 4 - "write fault" "{ sleep 0.5; exec $run; } <plain.heap | true; exit \${PIPESTATUS[0]}"
try "a reader that is gone, SIGPIPE ignored" 4 - "write fault" "trap '' PIPE; { sleep 0.5; exec $run; } <plain.heap | true; exit \${PIPESTATUS[0]}"

# A writer that is stopped and goes on while its reader lets it wait, and one whose write a handled signal
# interrupts: it is made again.
try "a slow reader" 0 long.out "" "$run <long.heap | { sleep 0.5; cat; }; exit \${PIPESTATUS[0]}"
# shellcheck disable=SC2016
stopped='mkfifo slow; '$run' <long.heap >slow & exec 3<slow
    for _ in 1 2 3 4 5; do sleep 0.05; kill -STOP $!; sleep 0.05; kill -CONT $!; done
    cat <&3; wait $!; status=$?; rm slow; exit $status'
try "a writer that is stopped" 0 long.out "" "$stopped"
# shellcheck disable=SC2016
interrupted='mkfifo slow; LD_PRELOAD=./hostile.so '$run' <long.heap >slow & exec 3<slow
    sleep 0.5; kill -USR1 $!; sleep 0.1; cat <&3; wait $!; status=$?; rm slow; exit $status'
try "a write that a handled signal interrupts" 0 long.out "" "$interrupted"

# Signals in the middle of a run.
for signal in INT TERM HUP; do
    try "SIG$signal in a long run" $((128 + $(kill -l "$signal"))) - "" \
        "timeout --preserve-status -s $signal 0.1 env --default-signal=$signal $run <slow.heap"
done

# Three domains, where the system refuses all threads, or all but one or two.
for limit in 0 1 2 3; do
    try "three domains in at most $limit threads" 0 three_domains.expected "" \
        "limited $limit ./camlheap run --domains 3 <three_domains.heap"
done

# The case $1: the run of the script $2 with the words $4.., with each request for memory refused in turn, answers that
# memory ran out and writes nothing, or writes what the file $3 has.
refused() {
    local name=$1 script=$2 expected=$3 last k status answered=0
    shift 3
    rm -f requests
    env REQUESTS=requests LD_PRELOAD=./hostile.so ./camlheap "$@" <"$script" >out 2>err
    last=$(cat requests) || wrong "$name" "the requests weren't counted"
    for k in $(seq $((last + 2))); do
        timeout -k 5 60 env REFUSED="$k" LD_PRELOAD=./hostile.so ./camlheap "$@" <"$script" >out 2>err
        status=$?
        if [ $status = 5 ] && [ ! -s out ] && [ "$(cat err)" = "out of memory" ]; then
            answered=$((answered + 1))
        elif [ $status != 0 ] || ! cmp -s out "$expected" || [ -s err ]; then
            wrong "$name" "request $k: status $status; standard error: $(head -c 200 err); output: $(head -c 200 out)"
        fi
    done
    echo "right $name: of $last requests $answered are answered by out of memory, and the others by the whole output"
}

refused "memory refused, a plain run" plain.heap plain.out run --domains 1
refused "memory refused, weak keys" weak.heap weak.out run --domains 1
refused "memory refused, three domains" three_domains.heap three_domains.expected run --domains 3
refused "memory refused, sections of a table" sections.table sections.expected table --domains 2

# The commands that read nothing.
cp "$top"/examples/{gen,load}.expected .
try "gen, input closed" 0 gen.expected "" "./camlheap gen 7 1 5 <&-"
try "gen, output closed" 4 - "write fault" "./camlheap gen 7 1 5 >&-"
try "gen, a full disk" 4 - "write fault" "./camlheap gen 7 8 25000 >/dev/full"
try "gen, a reader that is gone" 4 - "write fault" "{ sleep 0.5; exec ./camlheap gen 7 8 25000; } | true; exit \${PIPESTATUS[0]}"
try "gen, more commands than a script has" 1 - "$usage" "./camlheap gen 7 8 25001"
try "load, input closed" 0 load.expected "" "./camlheap load 7 2 2000 <&-"
try "load, output closed" 4 - "write fault" "./camlheap load 7 2 2000 >&-"
try "load, threads refused" 0 load.expected "" "limited 1 ./camlheap load 7 2 2000"
refused "memory refused, load" /dev/null load.expected load 7 2 2000
refused "memory refused, gen" /dev/null gen.expected gen 7 1 5
