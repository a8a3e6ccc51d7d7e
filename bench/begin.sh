# What the scripts of this folder begin with. `top` is the repository, and `work` a folder that goes when the script ends. The functions put
# programs there: those that PROGRAM and CHECKER name, or else the proved ones, which are built first where that is needed.
set -euo pipefail
shopt -s inherit_errexit
export LC_ALL=C
top=$(cd "$(dirname "${BASH_SOURCE[0]}")/.." && pwd)
work=$(mktemp -d)
trap 'rm -rf "$work"' EXIT

# The program camlheap, under the name $1.
program_here() {
    if [ -z "${PROGRAM:-}" ]; then
        "$top/camlheap" run --domains 1 <"$top/examples/chain.heap" >/dev/null
        PROGRAM=$top/crates/camlheap/out/camlheap
    fi
    cp "$PROGRAM" "$work/$1" && chmod 755 "$work"
}

# The program history_check.
checker_here() {
    if [ -z "${CHECKER:-}" ]; then
        "$top/history_check" --domains 1 <"$top/crates/history_check/stdin" >/dev/null
        CHECKER=$top/crates/history_check/out/history_check
    fi
    cp "$CHECKER" "$work/history_check"
}

# A script with $1 registrations of finalise, two on each block. Nothing leads to each second block; a field of another block keeps
# each other one, 125 in each, which the last field links. Then come $2 complete collections.
halves() {
    awk -v count="$1" -v times="$2" 'BEGIN {
        print "heap 1\ndomain 0"
        for (k = 0; k < count / 4; k++) {
            if (k % 125 == 0) {
                print "allocmaj 4 0 126"
                if (k > 0) print "store 4 125 1"
                print "move 1 4"
            }
            print "allocmaj 2 0 1\nfinalise 2 1 5\nfinalise 2 2 5"
            print "allocmaj 3 0 1\nfinalise 3 3 5\nfinalise 3 4 5\nstore 1 " k % 125 " 3"
        }
        print "drop 2\ndrop 3\ndrop 4\nminor"
        for (k = 0; k < times; k++) print "full_major"
    }'
}
