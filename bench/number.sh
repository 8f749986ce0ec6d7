#!/bin/sh
# Nanoseconds for each operation of `Frac64`, beside a plain Rust implementation that works on
# i128 with Euclid's algorithm. Each number is the least of some runs, since other work on the
# machine only adds. Needs rt and rustc. Usage: bench/number.sh [RUNS [ROUNDS]]
set -eu
here=$(cd "$(dirname "$0")" && pwd)
runs=${1:-9}
rounds=${2:-200}
work=$(mktemp -d)
trap 'rm -rf "$work"' EXIT

(cd "$here/../crates/bench_number" && rt run -- 1 >"$work/built" 2>&1) || { cat "$work/built"; exit 1; }
rustc -O --edition 2024 -o "$work/plain" "$here/number.rs"
proved="$here/../crates/bench_number/out/bench_number"

i=0
while [ "$i" -lt "$runs" ]; do
    "$proved" "$rounds" | sed 's/^/proved /' >>"$work/times"
    "$work/plain" "$rounds" | sed 's/^/plain /' >>"$work/times"
    i=$((i + 1))
done

awk '
{
    what = $2 " " $3
    if (!(what in order)) { order[what] = ++count; names[count] = what }
    if (!(($1, what) in least) || $4 < least[$1, what]) least[$1, what] = $4
    if (what in digest && digest[what] != $5) { print "the two disagree: " what; failed = 1 }
    digest[what] = $5
}
END {
    printf "%-12s %-6s %8s %8s %8s\n", "operands", "call", "proved", "plain", "ratio"
    for (i = 1; i <= count; i++) {
        split(names[i], part, " ")
        a = least["proved", names[i]]; b = least["plain", names[i]]
        printf "%-12s %-6s %8.1f %8.1f %8.2f\n", part[1], part[2], a, b, (b > 0 ? a / b : 0)
    }
    exit failed
}' "$work/times"
