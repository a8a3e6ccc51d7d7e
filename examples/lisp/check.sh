#!/bin/sh
# Runs each program in tests with the evaluators that are named, and compares what it prints with the file beside it:
# check.sh EVALUATOR.. . Programs that need a collector are for the proved heap alone. Ends with 1 where one differs.
here=$(cd "$(dirname "$0")" && pwd)
failed=0
for lisp in "$@"; do
  count=0
  for program in "$here"/tests/*.lisp; do
    case $lisp in *-malloc | *-boehm) grep -q '^; needs a collector' "$program" && continue ;; esac
    count=$((count + 1))
    timeout 300 "$lisp" "$program" 2>&1 | cmp -s - "${program%.lisp}.expected" && continue
    echo "$lisp $program differs"
    failed=$((failed + 1))
  done
  echo "$lisp: $count programs"
done
[ "$failed" = 0 ]
