#!/usr/bin/env python3
"""Times a script of 1,000 small commands with one job, with two and with four: bench/jobs.py PROGRAM

Each job has one worker. For each number of jobs the least elapsed time of three runs is printed, with the processor
time of that run, and whether the bytes are those of one job.
"""

import sys
import time

from congruences import block, measured

COMMANDS = 1_000
RUNS = 3


def script():
    """The integers by 12 under addition: closures of two unit vectors, and as many other commands."""
    size = 12
    commands = []
    for width in range(2, 6):
        units = [" ".join(str(int(place == unit)) for place in range(width)) for unit in range(2)]
        commands.append(f"close A {width} [{units[0]}] [{units[1]}] count")
    commands += ["con A", "free A 2 count", "hom A A [1] [5]", "cg A [0 3]"]
    lines = [commands[number % len(commands)] for number in range(COMMANDS)]
    return (block(size, [(2, lambda a, b: (a + b) % size)]) + "\n".join(lines) + "\n").encode()


def timed(program, jobs, text):
    """The bytes, the elapsed and the processor seconds of the quickest run."""
    runs = []
    for _ in range(RUNS):
        start = time.monotonic()
        out, user, _ = measured([program, "--workers", "1", "--jobs", str(jobs)], text)
        runs.append((time.monotonic() - start, user, out))
    elapsed, user, out = min(runs)
    return out, elapsed, user


def main():
    if len(sys.argv) != 2:
        sys.exit(__doc__)
    text = script()
    first = None
    for jobs in (1, 2, 4):
        out, elapsed, user = timed(sys.argv[1], jobs, text)
        first = first or (out, elapsed)
        same = "the same bytes" if out == first[0] else "OTHER BYTES"
        speed = first[1] / elapsed
        print(f"{jobs} jobs: {elapsed:.2f} s, {user:.2f} s of processors, {speed:.2f} times as fast, {same}")


if __name__ == "__main__":
    main()
