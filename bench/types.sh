#!/usr/bin/env bash
# Checks an empty plan over domains with many types with the built program, and prints time and peak memory: chains of
# types, with one listed twice, with objects of the lowest, with uses of the lowest and of all, and flat lists.
set -eu
top=$(cd "$(dirname "$0")/.." && pwd)
program=${PLANPLUS:-$top/planplus}
work=$(mktemp -d)
trap 'rm -rf "$work"' EXIT
: > "$work/l"

# chain N: t0 - t1, t1 - t2 and so on
chain() { awk -v n="$1" 'BEGIN { for (i = 0; i < n; i++) print "t" i " - t" i + 1 }'; }

# flat N: N types under object
flat() { awk -v n="$1" 'BEGIN { for (i = 0; i < n; i++) print "t" i }'; }

# objects N: N objects of the lowest type
objects() { awk -v n="$1" 'BEGIN { for (i = 0; i < n; i++) print "o" i; if (n) print "- t0" }'; }

# domain: the types of the input, and a predicate over those that are under t1
domain() { echo "(define (domain d) (:types"; cat; echo ") (:predicates (p ?x - ${1:-t1})))"; }

# problem N [MEMBERS]: N objects of the lowest type
problem() { echo "(define (problem q) (:domain d) (:objects"; objects "$1"; echo ") (:init ${2:-}) (:goal (and)))"; }

measure() {
    echo "$1: domain of $(wc -c < "$work/d") bytes, problem of $(wc -c < "$work/p")"
    /usr/bin/time -f '  %e s, %M KiB' "$program" check "$work/d" "$work/p" "$work/l" | tail -n 1
}

problem 0 > "$work/p"
for size in 1000 2000 16000; do
    chain "$size" | domain > "$work/d"
    measure "a chain of $size types"
    { chain "$size"; echo "t$((size / 2)) - object"; } | domain > "$work/d"
    measure "a chain of $size types, one listed twice"
    { chain "$size"; echo "t$size - t0"; } | domain > "$work/d"
    measure "a ring of $((size + 1)) types"
done
for size in 16000 64000; do
    { flat "$size"; echo t0; } | domain > "$work/d"
    measure "a flat list of $size types, one listed twice"
done
chain 66900 | domain > "$work/d"
measure "a chain of a mebibyte"
flat 144900 | domain > "$work/d"
measure "a flat list of a mebibyte"

for count in 4000 10000; do
    chain 2000 | domain > "$work/d"
    problem "$count" > "$work/p"
    measure "a chain of 2000 types, $count objects of the lowest"
done

# each use of the highest type asks for the way up from the lowest
for size in 1000 10000 60000; do
    chain "$size" | domain "t$size" > "$work/d"
    problem 1000 "$(awk 'BEGIN { for (i = 0; i < 60000; i++) print "(p o" i % 1000 ")" }')" > "$work/p"
    measure "a chain of $size types, 60000 uses of the lowest"
done

# shuffled N: the members of a chain, in an order that goes neither up nor down
shuffled() { awk -v n="$1" 'BEGIN { for (i = 0; i < n; i++) { k = i * 7919 % n; print "t" k " - t" k + 1 } }'; }

# predicates TYPES N: N predicates over types all along a chain, the lowest first
predicates() { awk -v t="$1" -v n="$2" 'BEGIN { for (i = 0; i < n; i++) print "(p" i " ?x - t" int(i * t / n) ")" }'; }

# spread TYPES N: N objects of types all along a chain, the lowest first
spread() { awk -v t="$1" -v n="$2" 'BEGIN { for (i = 0; i < n; i++) print "o" i " - t" int(i * t / n) }'; }

# pairs N USES: uses of N predicates with N objects of types at or below theirs, and one of no predicate
pairs() {
    awk -v n="$1" -v u="$2" 'BEGIN { for (i = 0; i < u; i++) { k = i * 7919 % n; print "(p" int(k + (n - k) * (i % 97) / 97) " o" k ")" } print "(q)" }'
}

# most pairs of types are asked once; the last use is refused, so nothing but reading and typing is measured
for size in 1000 10000 30000; do
    count=$((size < 10000 ? size : 10000))
    { echo "(define (domain d) (:types"; shuffled "$size"; echo ") (:predicates"; predicates "$size" "$count"; echo "))"; } > "$work/d"
    { echo "(define (problem q) (:domain d) (:objects"; spread "$size" "$count"; echo ") (:init"; pairs "$count" 60000; echo ") (:goal (and)))"; } > "$work/p"
    measure "a chain of $size types in no order, 60000 uses all along it, refused"
done
