#!/usr/bin/env python3
"""Times closures under associative operations: bench/bases.py PROGRAM [SVG], or bench/bases.py --bad PROGRAM [OTHER]

For groups, lattices and semigroups of known sizes, with 1, 2 and 4 workers, the elapsed and the processor time of the run
and its peak memory are printed, and whether the size is the known one. Where a file is named, the elapsed times are drawn
over the numbers of members there, both on logarithmic scales. A run of more than LONG seconds is ended, and so are the
larger ones of its kind with as many workers.

With `--bad` the closures are such as bases serve badly: most of their members come from no others. Where another program is
named, as one that was built before there were bases, the two are run in turn. Of each the least of RUNS elapsed times is
printed, beside those with one worker, which settles tuple by tuple.
"""

import itertools
import math
import os
import random
import subprocess
import sys
import tempfile
import time

from closures import field, integers, projections, script, semilattice

WORKERS = [1, 2, 4]
LONG = 120
RUNS = 3


def chains(size, rank):
    """The power of a chain as a lattice, from its join irreducible vectors."""
    vectors = [[value if i == j else 0 for i in range(rank)] for j in range(rank) for value in range(1, size)]
    return script(size, [(2, min), (2, max)], vectors)


def vectors_of(size, width, count):
    """So many different vectors without the element 0, in an order that is always the same."""
    every = list(itertools.product(range(1, size), repeat=width))
    random.Random(1).shuffle(every)
    return every[:count]


def left_zeros(count):
    """A band in which each product is its first factor: no member comes from others."""
    return script(10, [(2, lambda a, b: a)], vectors_of(10, 4, count))


def zeros(count):
    """A semigroup in which each product is 0: no member but that one comes from others."""
    return script(10, [(2, lambda a, b: 0)], vectors_of(10, 4, count))


def nilpotent(count):
    """A random table of the kind that most associative tables are of: the products of the elements 6 to 11 are random ones
    of 0 to 5, and all others are 0, so each product of three elements is 0."""
    draw = random.Random(2)
    table = [[draw.randrange(6) if a > 5 and b > 5 else 0 for b in range(12)] for a in range(12)]
    vectors = [[draw.randrange(6, 12) for _ in range(8)] for _ in range(count)]
    return script(12, [(2, lambda a, b: table[a][b])], vectors)


def functions(size, variables):
    """All functions over the integers by a number: the ring with its one."""
    plus, times = lambda a, b: (a + b) % size, lambda a, b: a * b % size
    return script(size, [(2, plus), (2, times), (0, lambda: 1)], projections(size, variables))


def bad_cases():
    """Closures with many bases, or with none that serve, of known sizes where these are numbers."""
    yield "left-zero band", left_zeros(4000), 4000
    yield "null semigroup", zeros(4000), 4001
    yield "random associative table", nilpotent(90), None
    yield "functions over the field of 3, 0 at 0", field(3, 2), 6561
    yield "functions over the ring of 3", functions(3, 2), 19683


def least(program, text, workers):
    """The reply of a program, and the least of its elapsed times, or None where it takes long."""
    told = [measured(program, text, f"--workers={workers}", "--budget=20000") for _ in range(RUNS)]
    return None if None in told else (told[0][0], min(elapsed for _, elapsed, _, _ in told))


def bad(programs):
    """Times the bad cases with each program. Answers how many replies are not as known."""
    wrong = 0
    print(f"{'closure':38} workers  {'reply':14}" + "".join(f"  {os.path.basename(program):>12}" for program in programs))
    for name, text, known in bad_cases():
        for workers in WORKERS:
            told = [least(program, text, workers) for program in programs]
            heads = {head for head, _ in filter(None, told)}
            wrong += len(heads) > 1 or (known is not None and heads != {f"closed {known}"})
            times = "".join(f"  {t[1]:12.3f}" if t else f"  {'> ' + str(LONG):>12}" for t in told)
            print(f"{name:38} {workers:7}  {' or '.join(sorted(heads)):14}{times}", flush=True)
    return wrong


def measured(program, text, *words):
    """The first line of the reply, elapsed and processor seconds and peak MiB of a run, or None where it takes long."""
    with tempfile.TemporaryFile() as source, tempfile.TemporaryFile() as reply:
        source.write(text.encode())
        source.seek(0)
        start = time.monotonic()
        run = subprocess.Popen([program, *words], stdin=source, stdout=reply)
        while time.monotonic() - start < LONG:
            pid, status, used = os.wait4(run.pid, os.WNOHANG)
            if pid:
                elapsed = time.monotonic() - start
                run.returncode = os.waitstatus_to_exitcode(status)
                reply.seek(0)
                head = reply.readline().decode().strip()
                return head, elapsed, used.ru_utime + used.ru_stime, used.ru_maxrss / 1024
            time.sleep(0.002)
        run.kill()
        run.wait()
        return None


def drawing(curves):
    """An SVG of curves, each a name with points of members and seconds, on logarithmic scales."""
    wide, high, left, below = 640, 420, 60, 40
    xs = [math.log10(n) for _, points in curves for n, _ in points]
    ys = [math.log10(s) for _, points in curves for _, s in points]
    low, top = math.floor(min(ys)), math.ceil(max(ys))
    begin, end = math.floor(min(xs)), math.ceil(max(xs))

    def at(n, s):
        x = left + (math.log10(n) - begin) / (end - begin) * (wide - left - 150)
        y = high - below - (math.log10(s) - low) / (top - low) * (high - below - 20)
        return round(x, 1), round(y, 1)

    lines = [f'<svg xmlns="http://www.w3.org/2000/svg" width="{wide}" height="{high}" font-family="sans-serif" font-size="12">']
    for power in range(low, top + 1):
        y = at(10**begin, 10**power)[1]
        lines.append(f'<path d="M{left} {y}H{wide - 150}" stroke="#ddd"/><text x="8" y="{y + 4}">{10.0**power:g} s</text>')
    for power in range(begin, end + 1):
        x = at(10**power, 10**low)[0]
        lines.append(f'<path d="M{x} 20V{high - below}" stroke="#ddd"/><text x="{x - 20}" y="{high - 20}">{10**power:,}</text>')
    for number, (name, points) in enumerate(curves):
        color = f"hsl({number * 360 // len(curves)},70%,40%)"
        path = "L".join(f"{x} {y}" for x, y in (at(n, s) for n, s in points))
        x, y = at(*points[-1])
        lines.append(f'<path d="M{path}" fill="none" stroke="{color}"/><text x="{x + 4}" y="{y + 4}" fill="{color}">{name}</text>')
    return "\n".join(lines + ["</svg>", ""])


def workloads():
    """Each kind with its closures: a script, and how many members it has."""
    yield "groups", [(integers(10, rank, 8), 10**rank) for rank in (3, 4, 5, 6)]
    yield "lattices", [(chains(10, rank), 10**rank) for rank in (3, 4, 5)]
    yield "semilattices", [(semilattice(count, 20), 2**count - 1) for count in (10, 13, 16, 18, 19)]


def main():
    if sys.argv[1:2] == ["--bad"] and len(sys.argv) in (3, 4):
        sys.exit(1 if bad(sys.argv[2:]) else 0)
    if len(sys.argv) not in (2, 3):
        sys.exit(__doc__)
    print("kind          members  workers  elapsed s  processor s  peak MiB")
    curves, wrong = [], 0
    for kind, closures in workloads():
        for workers in WORKERS:
            points = []
            for text, known in closures:
                told = measured(sys.argv[1], text, f"--workers={workers}", "--budget=1000000")
                if told is None:
                    print(f"{kind:12} {known:8,} {workers:8}  more than {LONG}", flush=True)
                    break
                head, elapsed, processor, peak = told
                wrong += head != f"closed {known}"
                points.append((known, elapsed))
                verdict = "as known" if head == f"closed {known}" else f"{head}, NOT {known}"
                print(f"{kind:12} {known:8,} {workers:8} {elapsed:10.3f} {processor:12.3f} {peak:9.0f}  {verdict}", flush=True)
            if points:
                curves.append((f"{kind}, {workers}", points))
    if len(sys.argv) == 3:
        with open(sys.argv[2], "w", encoding="utf-8") as file:
            file.write(drawing(curves))
    sys.exit(1 if wrong else 0)


if __name__ == "__main__":
    main()
