#!/usr/bin/env bash
# Judges outputs of camlheap by history_check, and repeats them.
#
#   bench/repeats.sh schedules [COUNT]   plays COUNT random scripts (1000 without it) of two to four domains, has history_check print the
#                                        schedule of a history of each output, and replays it: the output must be printed again
#   bench/repeats.sh outputs [COUNT]     plays COUNT random scripts (1000 without it) of versions 1 to 3 of one to three domains: each output
#                                        must be legal. Of one in ten it changes a reply besides, and prints it if it is legal all the same
#
# PROGRAM and CHECKER name other programs for camlheap and history_check. It ends with 1 where an output isn't judged as it should be.
. "$(dirname "${BASH_SOURCE[0]}")/begin.sh"
program_here camlheap
python3 "$top/bench/repeats/main.py" "$work/camlheap" "$top/history_check" "${1:-outputs}" "${FIRST:-1}" "${2:-1000}"
