#!/usr/bin/env bash
# Runs COUNT random scripts of version 3 (2000 without it), whose sections spawn and join one another, four times: in threads, where the
# system refuses all threads, where it refuses all but one, and on one processor. It looks for a legal history of each output by
# bench/spawns, a search that isn't proved, and ends with 1 where an output has none, or a run doesn't end. PROGRAM names another program
# to be run.
. "$(dirname "${BASH_SOURCE[0]}")/begin.sh"
program_here threads
chmod 755 "$work"
# Runs the program by a command.
by() {
    printf '#!/usr/bin/env bash\n%s\n%s "%s/threads" "$@"\n' "$3" "$2" "$work" >"$work/$1"
    chmod 755 "$work/$1"
}
by rotation 'limited 1' ". $top/examples/limited.sh"
by one_thread 'limited 2' ". $top/examples/limited.sh"
by one_processor 'exec taskset -c 0' ''
rustc -O --edition 2024 -o "$work/spawns" "$top/bench/spawns/main.rs"
failed=0
for program in threads rotation one_thread one_processor; do
    echo "$program:"
    "$work/spawns" "$work/$program" "${COUNT:-2000}" || failed=1
done
exit "$failed"
