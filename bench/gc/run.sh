#!/usr/bin/env bash
# Runs the benchmarks that `make` has built, and prints what each says. `run.sh times` measures processor time, memory and wall time,
# each RUNS times (3 without it), of which the reader takes the least; `run.sh counts` counts instructions by valgrind, on smaller
# inputs, and keeps the profiles in out/counts. What isn't built is left out.
set -u
cd "$(dirname "$0")"
runs=${RUNS:-3}

say() {
    local program=out/$1
    [ -x "$program" ] || return 0
    shift
    for _ in $(seq "$runs"); do
        printf '%s %s\t%s\n' "${program#out/}" "$*" "$("$program" "$@" 2>&1 | tr '\n' ';')"
    done
}

# What the heap's program and those beside it do with the same words.
beside() {
    local name=$1
    shift
    for of in heap ocaml malloc boehm; do say "${name}_$of" "$@"; done
}

times() {
    for domains in 1 2 4; do beside trees 16 "$domains"; done
    beside gcbench 18 16 500000 16
    beside cache 10000 1000000 50000
    beside cache 100000 1000000 250000
    beside handles 50000 10
    for domains in 1 2 4; do OCAMLRUNPARAM=s=65536 beside minors "$domains" 400; done
    for parts in 0 1; do for domains in 1 2 4; do beside marking "$domains" 18 20 "$parts"; done; done
    for polls in 0 64 16; do beside latency 1000000 "$polls" 1; done
    for rows in 100 200 400 800 1000; do beside scattered "$rows"; done
    for shape in 0 1 2; do beside beside "$shape" 300000 16 500; done
    for rows in 540 270 135; do beside full "$rows"; done
}

count() {
    local name=$1 with
    shift
    with=$*
    for of in heap ocaml malloc boehm; do
        [ ! -x "out/${name}_$of" ] || ./count.sh "${name}_${of}_${with// /_}" "out/${name}_$of" "$@"
    done
}

counts() {
    count trees 6 1
    count trees 12 1
    count gcbench 14 12 31250 12
    for keys in 10000 100000; do
        count cache "$keys" 0 0
        count cache "$keys" 100000 0
        count cache "$keys" 100000 50000
    done
    count handles 20000 0
    count handles 20000 5
    count latency 0 0
    count latency 200000 0
    count latency 200000 16
    for shape in 0 1 2; do
        count beside "$shape" 0 16 500
        count beside "$shape" 100000 16 500
    done
}

case ${1:-} in
times | counts) "$1" ;;
*) sed -n '2,4s/^# //p' "$0" >&2; exit 1 ;;
esac
