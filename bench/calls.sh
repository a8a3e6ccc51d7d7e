#!/usr/bin/env bash
# Counts the instructions of calls of the library for C by valgrind: of each kind the difference of 1,000 and 7,000 calls, without the
# loop and the operands, which calls of a function that does nothing have too.
#
#   bench/calls.sh [KIND..]   of library/out/libcamlheap.a, which `make -C library` builds, or of the archive that LIBRARY names
. "$(dirname "${BASH_SOURCE[0]}")/begin.sh"
cc -O2 -I"$top/library/include" "$top/bench/calls.c" "${LIBRARY:-$top/library/out/libcamlheap.a}" -lpthread -o "$work/calls"

count() {
    valgrind --tool=callgrind --callgrind-out-file="$work/counted" "$work/calls" "$1" "$2" >/dev/null 2>&1
    awk '/^summary:/ { print $2 }' "$work/counted"
}

# The instructions of one call, with the loop around it.
with_loop() {
    echo $((($(count "$1" 7000) - $(count "$1" 1000)) / 6000))
}

around=$(with_loop nothing)
[ $# -gt 0 ] || set -- put_int copy load load_block store cas set_key get_key check_key map_get alloc_2 alloc_4
for kind in "$@"; do
    "$work/calls" "$kind" 7000
    printf '%-12s%6s\n' "$kind" $(($(with_loop "$kind") - around))
done
