#!/usr/bin/env python3
"""Times `close .. count`, with 1, 2 and 4 workers, on closures of known sizes: bench/closures.py PROGRAM

For each closure and number of workers the size that the program answers, the elapsed and the processor time of the run,
and its peak memory are printed, and whether the size is the known one.
"""

import itertools
import os
import subprocess
import sys
import tempfile
import time

WORKERS = [1, 2, 4]


def script(size, operations, vectors):
    """A closure in an algebra whose operations are functions of so many arguments."""
    lines = [f"algebra A size {size}"]
    for number, (arity, function) in enumerate(operations):
        values = (function(*args) for args in itertools.product(range(size), repeat=arity))
        lines.append(f"op f{number} {arity} = " + " ".join(map(str, values)))
    lines += ["end", f"close A {len(vectors[0])}"]
    lines += ["[" + " ".join(map(str, vector)) + "]" for vector in vectors]
    return "\n".join(lines + ["count", ""])


def projections(size, variables):
    """The projections, with a coordinate for each assignment of the variables."""
    return list(zip(*itertools.product(range(size), repeat=variables)))


def units(count, width, inside=1, outside=0):
    """Vector j has the one value at the coordinates that are j by the count, and the other value elsewhere."""
    return [[inside if i % count == j else outside for i in range(width)] for j in range(count)]


def distributive_lattice(variables):
    """The free distributive lattice on so many generators."""
    return script(2, [(2, min), (2, max)], projections(2, variables))


def semilattice(coatoms, width):
    """The meets of so many co-atoms: one for each set of them but the empty one."""
    return script(2, [(2, min)], units(coatoms, width, 0, 1))


def integers(modulus, rank, width):
    """The power of the group of integers by a modulus."""
    return script(modulus, [(2, lambda a, b: (a + b) % modulus)], units(rank, width))


def affine(width, rank):
    """The sums of an odd number of so many unit vectors over the field of two elements."""
    return script(2, [(3, lambda a, b, c: a ^ b ^ c)], units(rank, width))


def lukasiewicz(variables):
    """The functions of the three-valued logic of Łukasiewicz, with its implication and its negation."""
    implies, negation = (2, lambda a, b: min(2, 2 - a + b)), (1, lambda a: 2 - a)
    return script(3, [implies, negation], projections(3, variables))


def dicyclic(variables):
    """The words in the dicyclic group of order 12, whose element 6 e + i is the i-th power of its rotation, times
    its other generator where e is 1."""

    def times(a, b):
        (e, i), (f, j) = divmod(a, 6), divmod(b, 6)
        return (i + (6 - j if e else j) + 3 * (e & f)) % 6 + 6 * (e ^ f)

    return script(12, [(2, times)], projections(12, variables))


def permutations(points):
    """A cycle of all points and a transposition, which generate the symmetric group."""
    return [(1, lambda a: (a + 1) % points), (1, lambda a: 1 - a if a < 2 else a)]


def orbit(points):
    """The symmetric group as the orbit of a list of all points."""
    return script(points, permutations(points), [range(points)])


def transformations(points):
    """All maps on so many points as the orbit of their list, where one more operation merges two points."""
    merge = (1, lambda a: 0 if a < 2 else a)
    return script(points, permutations(points) + [merge], [range(points)])


def field(modulus, variables):
    """The polynomial functions without constant term over a prime field: those with the value 0 at 0."""
    plus, times = lambda a, b: (a + b) % modulus, lambda a, b: a * b % modulus
    return script(modulus, [(2, plus), (2, times)], projections(modulus, variables))


def measured(program, text, *words):
    """The first line of the reply, elapsed and processor seconds, and peak MiB of a run."""
    with tempfile.TemporaryFile() as source:
        source.write(text.encode())
        source.seek(0)
        start = time.monotonic()
        run = subprocess.Popen([program, *words], stdin=source, stdout=subprocess.PIPE)
        head = run.stdout.read().partition(b"\n")[0].decode()
        _, status, used = os.wait4(run.pid, 0)
        elapsed = time.monotonic() - start
        run.returncode = os.waitstatus_to_exitcode(status)
        run.stdout.close()
    return head, elapsed, used.ru_utime + used.ru_stime, used.ru_maxrss / 1024


def main():
    if len(sys.argv) != 2:
        sys.exit(__doc__)
    workloads = [
        ("free distributive lattice on 5", distributive_lattice(5), 7579, 10000),
        ("meets of 12 co-atoms, width 128", semilattice(12, 128), 4095, 10000),
        ("integers by 10, rank 4, width 8", integers(10, 4, 8), 10000, 10000),
        ("sums of three, width 64", affine(64, 9), 256, 10000),
        ("functions of 2 over 3 elements", field(3, 2), 6561, 10000),
        ("functions of 2 in a logic of 3", lukasiewicz(2), 3888, 10000),
        ("words of 2 in a group of 12", dicyclic(2), 3888, 10000),
        ("orbit of 9 points", orbit(9), 362880, 400000),
        ("maps on 7 points", transformations(7), 823543, 1000000),
    ]
    print(f"{'closure':32} workers  {'reply':14}  elapsed s  processor s  peak MiB")
    wrong = 0
    for name, text, known, budget in workloads:
        for workers in WORKERS:
            words = [f"--workers={workers}", f"--budget={budget}"]
            head, elapsed, processor, peak = measured(sys.argv[1], text, *words)
            verdict = "as known" if head == f"closed {known}" else f"NOT {known}"
            wrong += verdict != "as known"
            print(f"{name:32} {workers:7}  {head:14} {elapsed:10.2f} {processor:12.2f} {peak:9.0f}  {verdict}", flush=True)
    sys.exit(1 if wrong else 0)


if __name__ == "__main__":
    main()
