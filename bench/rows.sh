#!/usr/bin/env bash
# Times the rows of crates/bench_rows beside the same loops in C++ (bench/rows.cpp): the least processor time of
# three runs each, taken in turn, and the ratio.
# A `close` is counted in tuples, a `fill` in pushes and look-ups, an `apply` in calls.
set -euo pipefail
cd "$(dirname "$0")/.."
(cd crates/bench_rows && rt run >/dev/null)
program=crates/bench_rows/out/bench_rows
peer=$(mktemp)
trap 'rm -f "$peer"' EXIT
g++ -O2 -march=x86-64-v2 -o "$peer" bench/rows.cpp

# Processor seconds of a command on an input, which comes first.
seconds() {
    local TIMEFORMAT=%U
    { time "${@:2}" <<<"$1" >/dev/null; } 2>&1
}

least() {
    awk -v a="$1" -v b="$2" 'BEGIN { print (a == "" || b < a) ? b : a }'
}

# A line of the table, for an input and how many steps it has.
compare() {
    local input=$1 steps=$2 ours="" theirs=""
    for _ in 1 2 3; do
        ours=$(least "$ours" "$(seconds "$input" "$program")")
        theirs=$(least "$theirs" "$(seconds "$input" "$peer")")
    done
    awk -v i="$input" -v n="$steps" -v a="$ours" -v t="$theirs" \
        'BEGIN { n /= 1e9; printf "%-18s %8.1f ns  C++ %8.1f ns  x%.2f\n", i, a / n, t / n, a / t }'
}

compare "close 10 4 8" 100010000
compare "close 10 4 16" 100010000
compare "close 8 4 32" 16781312
compare "close 12 3 128" 2987712
compare "close 60 2 64" 12963600
compare "fill 1000000 0" 1000000
compare "fill 1000000 20" 21000000
compare "fill 10000 2000" 20010000
compare "apply 10 8 20000000" 20000000
compare "apply 10 64 5000000" 5000000
compare "apply 200 512 500000" 500000
