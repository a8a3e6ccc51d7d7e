#!/bin/bash
# What fib and n-queens cost under each evaluator that is named: the least user time of seven runs, the most memory, and the
# instructions of one more call of fib and of one more board, by callgrind, as the difference of a larger and a smaller run.
here=$(cd "$(dirname "$0")" && pwd)
work=$(mktemp -d) || exit 1
trap 'rm -rf "$work"' EXIT

# The definitions of a test, and a call.
program() {
  grep -v '^(print' "$here/tests/$1.lisp"
  echo "(print ($2))"
}

instructions() {
  program "$2" "$3" >"$work/program.lisp"
  valgrind --tool=callgrind --callgrind-out-file=/dev/null "$1" "$work/program.lisp" 2>&1 | sed -n 's/.*Collected : //p'
}

for lisp in "$@"; do
  for what in "fib:fib 27" "n_queens:queens 9"; do
    program "${what%%:*}" "${what#*:}" >"$work/program.lisp"
    for _ in 1 2 3 4 5 6 7; do
      /usr/bin/time -f "%U s, %M KB" "$lisp" "$work/program.lisp" 2>&1 >/dev/null
    done | sort -n | head -1 | sed "s|^|$lisp, ${what#*:}: |"
  done
  command -v valgrind >/dev/null || continue
  # fib calls itself 1973 times of 15, and 177 times of 10.
  echo "$lisp, a call of fib: $((($(instructions "$lisp" fib "fib 15") - $(instructions "$lisp" fib "fib 10")) / 1796)) instructions"
  echo "$lisp, queens 6 after 5: $(($(instructions "$lisp" n_queens "queens 6") - $(instructions "$lisp" n_queens "queens 5"))) instructions"
done
