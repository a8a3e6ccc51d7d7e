#!/usr/bin/env bash
# Counts instructions: `count.sh NAME PROGRAM WORDS..` prints NAME, the instructions of the program with these words, and what it
# printed; the profile is left in out/counts/NAME.
set -eu
name=$1
shift
mkdir -p out/counts
said=$(valgrind --tool=callgrind --callgrind-out-file="out/counts/$name" "$@" 2>"out/counts/$name.log" | tr '\n' ';')
instructions=$(sed -n 's/.*Collected : \([0-9]*\).*/\1/p' "out/counts/$name.log")
printf '%s\t%s\t%s\n' "$name" "$instructions" "$said"
