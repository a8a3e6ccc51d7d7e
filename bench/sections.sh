#!/usr/bin/env bash
# Runs COUNT random texts of a table with sections (2000 without it), of two to four domains that share a weak map and slots. For each output
# it looks for one order of all lines, by bench/sections, a search that isn't proved, also with one reply changed, and ends with 1 where an
# output has none, or a run doesn't end. PROGRAM names another program to be run.
. "$(dirname "${BASH_SOURCE[0]}")/begin.sh"
program_here camlheap
rustc -O --edition 2024 -o "$work/sections" "$top/bench/sections/main.rs"
"$work/sections" "$work/camlheap" "${COUNT:-2000}"
