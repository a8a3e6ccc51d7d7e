#!/usr/bin/env bash
# Replays COUNT random scripts (1000 without it) of one to eight domains under random schedules, three times each beside busy processes,
# and compares each output with that of a plain simulation of the scheduled history on the slow heap, which also says whether an entry
# isn't legal. Its program is bench/schedules/slow_schedules, which is proved and built first. A second simulation, in bench/schedules
# itself, goes over the graph of bench/judge and isn't proved. It ends with 1 where two outputs differ, or an entry isn't legal. PROGRAM
# names another program to be run, and SLOW another simulation.
. "$(dirname "${BASH_SOURCE[0]}")/begin.sh"
busy=()
trap 'kill "${busy[@]}" 2>/dev/null; rm -rf "$work"' EXIT
program_here program

. "$top/bench/room.sh"

if [ -z "${SLOW:-}" ]; then
    room slow_schedules "$top/bench/schedules/slow_schedules" judge_plain model_traces text_script model_core
    SLOW=$work/slow_schedules
fi
rustc -O --edition 2024 -o "$work/schedules" "$top/bench/schedules/main.rs"
for _ in $(seq "$(nproc)"); do
    while :; do :; done &
    busy+=($!)
done
"$work/schedules" "$work/program" "$SLOW" "${COUNT:-1000}"
