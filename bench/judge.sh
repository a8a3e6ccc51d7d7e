#!/usr/bin/env bash
# Runs COUNT random scripts of version 2 (2000 without it), of one to eight domains, and looks for a legal history of each output by
# bench/judge, a search that isn't proved. Of one in ten it changes a line besides, which should leave none. It ends with 1 where an
# output has none. PROGRAM names another program to be run.
. "$(dirname "${BASH_SOURCE[0]}")/begin.sh"
program_here program
rustc -O --edition 2024 -o "$work/judge" "$top/bench/judge/main.rs"
"$work/judge" "$work/program" 1 $((${COUNT:-2000} + 1))
