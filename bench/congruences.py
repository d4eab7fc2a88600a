#!/usr/bin/env python3
"""Times `con`, with one worker, on algebras of known congruence lattices: bench/congruences.py PROGRAM

For each algebra the number of congruences that the program answers, its processor time and its peak memory are printed,
and whether the number is the known one. Where it is above the budget, the program says so in place of the number.
"""

import itertools
import os
import random
import subprocess
import sys

BUDGET = 10_000
FIRST_SIZE = 255


def block(size, operations):
    """The block of an algebra, each operation given as a function of its arguments, with its arity."""
    lines = ["version 2"] if size > FIRST_SIZE else []
    lines.append(f"algebra A size {size}")
    for number, (arity, function) in enumerate(operations):
        values = (function(*args) for args in itertools.product(range(size), repeat=arity))
        lines.append(f"op f{number} {arity} = " + " ".join(map(str, values)))
    return "\n".join(lines + ["end", ""])


def chain(size):
    """A chain as a lattice: any set of its edges can be collapsed."""
    return block(size, [(2, min), (2, max)]), 2 ** (size - 1)


def no_operations(size, partitions):
    """A set: every partition is a congruence. Their number is the Bell number of the size."""
    return block(size, []), partitions


def permutations(letters):
    """The symmetric group on so many letters, with multiplication."""
    members = list(itertools.permutations(range(letters)))
    number = {member: place for place, member in enumerate(members)}

    def times(a, b):
        return number[tuple(members[a][letter] for letter in members[b])]

    return block(len(members), [(2, times)])


def integers(modulus, ideals):
    """The ring of integers by a modulus: a congruence for each divisor."""
    plus, times = lambda a, b: (a + b) % modulus, lambda a, b: a * b % modulus
    return block(modulus, [(2, plus), (2, times)]), ideals


def elementary_abelian(size, subspaces):
    """The elementary abelian 2-group of this order: a congruence for each subspace."""
    return block(size, [(2, lambda a, b: a ^ b)]), subspaces


def cycle(size, divisors):
    """A cycle as a unary algebra: a congruence for each divisor of its length."""
    return block(size, [(1, lambda a: (a + 1) % size)]), divisors


def groupoid(size):
    """A random operation: almost surely it has the two trivial congruences alone."""
    draw = random.Random(1)
    table = [[draw.randrange(size) for _ in range(size)] for _ in range(size)]
    return block(size, [(2, lambda a, b: table[a][b])]), 2


def measured(command, text):
    """What a program writes for this text, its processor seconds and its peak memory in MiB."""
    with subprocess.Popen(command, stdin=subprocess.PIPE, stdout=subprocess.PIPE) as run:
        run.stdin.write(text)
        run.stdin.close()
        out = run.stdout.read()
        _, status, usage = os.wait4(run.pid, 0)
        run.returncode = os.waitstatus_to_exitcode(status)
    if run.returncode != 0:
        sys.exit(f"{command[0]}: status {run.returncode}")
    return out, usage.ru_utime, usage.ru_maxrss / 1024


def main():
    if len(sys.argv) != 2:
        sys.exit(__doc__)
    workloads = [
        ("chain of 12", *chain(12)),
        ("7 elements, no operation", *no_operations(7, 877)),
        ("symmetric group on 5 letters", permutations(5), 3),
        ("integers by 180", *integers(180, 18)),
        ("elementary abelian group of 64", *elementary_abelian(64, 2825)),
        ("cycle of 255", *cycle(255, 8)),
        ("random operation on 200 elements", *groupoid(200)),
        ("cycle of 997", *cycle(997, 2)),
        ("chain of 300", *chain(300)),
        ("chain of 300, budget 50,000", *chain(300), 50_000),
        ("chain of 1,000", *chain(1000)),
    ]
    for name, algebra, known, *budgets in workloads:
        budget = budgets[0] if budgets else BUDGET
        command = [sys.argv[1], "--workers", "1", "--budget", str(budget)]
        out, seconds, peak = measured(command, f"{algebra}con A\n".encode())
        head = out.split(b"\n", 1)[0].decode()
        right = f"congruences {known}" if known <= budget else f"exceeds {budget}"
        verdict = "as known" if head == right else f"NOT {right}"
        print(f"{name:34} {head:18} {seconds:8.2f} s {peak:6.0f} MiB  {verdict}")


if __name__ == "__main__":
    main()
