# What the launchers of the proved programs share. A launcher sets `name`, the name of its program, `top`, the folder of the
# repository, and `takes`, how long the first proof is; it reads this file, and then calls `is_fresh`, `build`, `run` and `try`.
# Where the program refuses and standard error is a terminal, `hint` is called with the line that the program ended with.

out=$top/crates/$name/out
program=$out/$name
unproved=$out/$name.unproved
# The file that the gate opens anew as it begins.
gate=$top/.git/rt-ci.lock

# The crates that the program is built of, the lowest first.
crates_below() {
    awk -F' *: *' -v program="$name" '
        { sub(/ *#.*/, ""); uses[$1] = $2 }
        function visit(name,    words, count, i) {
            if (!(name in uses) || name in seen) return
            seen[name] = 1
            count = split(uses[name], words, /[ ,]+/)
            for (i = 1; i <= count; i++) visit(words[i])
            print name
        }
        END { visit(program) }' "$top/crates.txt"
}

# Whether nothing that the program is built of is newer than the file $1.
is_older_than() {
    local crate folders=()
    for crate in $(crates_below); do
        folders+=("$top/crates/$crate/"{src,specs,proofs})
    done
    [ -z "$(find "$top/crates.txt" "${folders[@]}" -newer "$1" -print -quit 2>/dev/null)" ]
}

# Whether the program is that of the last gate, which builds it by two compilers once it is proved, and nothing that it
# is built of has changed since that gate began.
is_of_gate() {
    [ -f "$gate" ] && [ "$program" -nt "$gate" ] && [ "$program.by-rattle" -nt "$gate" ] && is_older_than "$gate"
}

# Whether the program is whole, as the stamp says that stands beside it, and newer than all that it is built of.
is_fresh() {
    [ -x "$program" ] || return 1
    is_of_gate || { [ -e "$program.stamp" ] && is_older_than "$program"; }
}

# Says which program is built, by what it was proved, and when.
built() {
    local by
    if [ ! -x "$program" ]; then
        echo "no proved program is built"
        return
    elif is_of_gate; then
        by="by the gate"
    elif is_fresh; then
        by="by tools/prove.py"
    else
        by="before files of it were changed"
    fi
    echo "the program was proved $by, $(date -r "$program" "+%Y-%m-%d %H:%M")"
}

# Says which program `try` keeps.
tried() {
    local of=""
    [ -x "$unproved" ] || return 0
    is_older_than "$unproved" || of=", before files of it were changed"
    echo "the program of ./$name try isn't proved, built $(date -r "$unproved" "+%Y-%m-%d %H:%M")$of"
}

say() {
    printf '%s: %s\n' "$name" "$1" >&2
}

# Says what the build does and for how long, from its second second on: on a terminal in one line that is written anew, else in a line
# for each crate.
show() {
    [ "$SECONDS" -gt 0 ] || return 0
    local time="$((SECONDS / 60)) min $((SECONDS % 60)) s"
    if [ -t 2 ]; then
        printf '\r\033[K%s: %s, %s' "$name" "$1" "$time" >&2
    elif [ "$1" != "$shown" ]; then
        say "$1, $time"
    fi
    shown=$1
}

# Follows what tools/prove.py says on descriptor 3 to its end, and keeps it in the log. Until it names a crate, $1 is shown.
follow() {
    local line shown="" now=$1
    while show "$now"; do
        # The status is above 128 where the second is over and the proofs go on.
        IFS= read -r -t 1 line <&3 || { [ $? -gt 128 ] && continue; break; }
        printf '%s\n' "$line" >&4
        case $line in
            "proved "*) now=$line ;;
        esac
    done
    [ -t 2 ] && [ -n "$shown" ] && echo >&2
}

# Ends the build, and then this script by the signal $1.
stop() {
    kill "$builder" 2>/dev/null
    wait "$builder"
    [ -t 2 ] && echo >&2
    say "the build was stopped, and the program isn't built"
    trap - "$1"
    kill -s "$1" $$
}

# Waits until no other build of the kind $1 goes on.
lock() {
    command -v rt >/dev/null || { say "there is no command rt, which belongs to the kit that proves and builds the program"; exit 69; }
    mkdir -p "$out" && exec 5>"$out/$1.lock" || exit 70
    flock -n 5 || { say "waiting for another build" && flock 5; }
}

# Has tools/prove.py make the file $2 with the words from $4 on, with the log $1. Until it names a crate, $3 is shown.
make() {
    local log=$1 to=$2 begun
    rm -f "$log" && exec 4>"$log" || exit 70
    begun=$(date +%s.%N)
    SECONDS=0
    exec 3< <(exec "$top/tools/prove.py" "${@:4}" "$name" "$to" 2>&1)
    builder=$!
    trap 'stop INT' INT
    trap 'stop TERM' TERM
    trap 'stop HUP' HUP
    follow "$3"
    trap - INT TERM HUP
    exec 3<&- 4>&-
    wait "$builder" || { say "the program couldn't be built; see $log"; exit 70; }
    # A file that was changed while the program was built is newer than it.
    touch -d "@$begun" "$to"
}

# Proves and builds the program, and keeps how long that took.
build() {
    local took=$out/build.minutes
    lock build
    ! is_fresh || return 0
    rm -f "$program.stamp"
    [ ! -s "$took" ] || takes+=", the last time $(cat "$took") minutes"
    say "proving and building the program: $takes; the log is $out/build.log"
    make "$out/build.log" "$program" "reading the sources"
    : >"$program.stamp" || exit 70
    echo $(((SECONDS + 59) / 60)) >"$took"
    say "the program is built"
    exec 5>&-
}

# Whether the program that isn't proved is newer than all that it is built of.
is_tried() {
    [ -x "$unproved" ] && is_older_than "$unproved"
}

# Builds the program without a proof.
build_unproved() {
    lock try
    ! is_tried || return 0
    make "$out/try.log" "$unproved" "building it, a minute or two the first time" --unproved
    exec 5>&-
}

# Passes the program's standard error on, and hints behind it.
pass_on() {
    local line last=""
    trap '' HUP INT QUIT TERM
    while IFS= read -r line; do
        printf '%s\n' "$line" >&2
        last=$line
    done
    printf '%s' "$line" >&2
    hint "$last" >&2
}

# Runs a program with its words in place of this script. Where standard error is a terminal this script stays, hints behind the
# program, passes signals on to it, and ends as it does.
run() {
    local child passer status last signal
    [ -t 2 ] && [ -e /dev/fd/0 ] || exec "$@"
    exec 6> >(pass_on)
    passer=$!
    # A command in the background would ignore these two.
    env --default-signal=INT,QUIT "$@" <&0 2>&6 6>&- &
    child=$!
    exec 6>&-
    for signal in HUP INT QUIT TERM; do
        trap "kill -s $signal $child 2>/dev/null" "$signal"
    done
    # A signal ends a wait too. Bash's own words on how the program ended aren't shown.
    while { wait "$child"; status=$?; kill -0 "$child"; } 2>/dev/null; do :; done
    { wait "$child"; last=$?; wait "$passer"; } 2>/dev/null
    # Bash may have forgotten how the program ended where a signal ended the wait before; then that wait has said by which.
    [ "$last" -lt 0 ] || [ "$last" -eq 127 ] || status=$last
    trap - HUP INT QUIT TERM
    [ "$status" -le 128 ] || kill -s $((status - 128)) $$
    exit "$status"
}

# Has the file $1 be standard input, or ends as the program does where that can't be read.
read_from() {
    { exec <"$1"; } 2>/dev/null && [ ! -d "$1" ] && return
    echo "read fault" >&2
    [ ! -t 2 ] || say "the file $1 can't be read"
    exit "$2"
}

# Does what the words say at once, by a program that isn't proved.
try() {
    say "this program isn't proved, and checks each step, some hundred times as slowly; ./$name without the word try proves it first"
    is_tried || build_unproved
    run "$unproved" "$@"
}
