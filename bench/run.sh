#!/usr/bin/env bash
# All benchmarks one after another: bench/run.sh [PROGRAM], else with the program that `.ci/run` or `rt run` has built.
# The rows are timed where `rt` and g++ are there.
set -euo pipefail
program=$(realpath "${1:-$(dirname "$0")/../crates/uacalc/out/uacalc}")
cd "$(dirname "$0")/.."
if [ ! -x "$program" ]; then
    echo "bench/run.sh: $program is not there" >&2
    exit 1
fi
echo "== reading"
bench/reading.py "$program"
echo "== congruences"
bench/congruences.py "$program"
echo "== commands"
bench/commands.py "$program"
bench/normal_subgroups.py "$program"
echo "== jobs"
bench/jobs.py "$program"
echo "== certificates"
bench/certificates.py "$program"
echo "== closures"
bench/closures.py "$program"
echo "== closures by bases"
bench/bases.py "$program"
if command -v rt > /dev/null && command -v g++ > /dev/null; then
    echo "== rows"
    bench/rows.sh
else
    echo "== rows: not run, since rt or g++ is missing"
fi
