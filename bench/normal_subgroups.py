#!/usr/bin/env python3
"""Compares `comm` with group theory for all pairs of normal subgroups of the symmetric group on four letters:
bench/normal_subgroups.py PROGRAM

Two normal subgroups H and K have |G| |H| |K| |[H,K]| matrices, up to 165,888 here. The program runs with four workers and
the greatest budget. Its elapsed time is printed for each pair, and for all together.
"""

import itertools
import subprocess
import sys
import time

LETTERS = range(4)
MEMBERS = list(itertools.permutations(LETTERS))
NUMBER = {member: place for place, member in enumerate(MEMBERS)}
BUDGET = 1_000_000


def times(a, b):
    return tuple(a[b[letter]] for letter in LETTERS)


def inverse(a):
    return tuple(a.index(letter) for letter in LETTERS)


def is_even(a):
    return sum(x > y for x, y in itertools.combinations(a, 2)) % 2 == 0


def generated(members):
    """The subgroup that these generate."""
    group = {MEMBERS[0]}
    new = list(group)
    while new:
        new = list({times(a, b) for a in new for b in members} - group)
        group.update(new)
    return group


def commutator(first, second):
    return generated({times(times(inverse(a), inverse(b)), times(a, b)) for a in first for b in second})


def cosets(group):
    """The congruence of a normal subgroup, by its blocks."""
    blocks = sorted({tuple(sorted(NUMBER[times(a, b)] for b in group)) for a in MEMBERS})
    return "|" + "|".join(" ".join(map(str, block)) for block in blocks) + "|"


def main():
    if len(sys.argv) != 2:
        sys.exit(__doc__)
    table = " ".join(str(NUMBER[times(a, b)]) for a in MEMBERS for b in MEMBERS)
    algebra = f"algebra G size {len(MEMBERS)}\nop mul 2 = {table}\nend\n"
    even = {a for a in MEMBERS if is_even(a)}
    four = {a for a in even if times(a, a) == MEMBERS[0]}
    normal = {"1": {MEMBERS[0]}, "V4": four, "A4": even, "S4": set(MEMBERS)}
    together = 0.0
    for (first, h), (second, k) in itertools.product(normal.items(), repeat=2):
        known = commutator(h, k)
        matrices = len(MEMBERS) * len(h) * len(k) * len(known)
        script = f"{algebra}comm G {cosets(h)} {cosets(k)}\n"
        command = [sys.argv[1], "--budget", str(BUDGET), "--workers", "4"]
        start = time.monotonic()
        out = subprocess.run(command, input=script, stdout=subprocess.PIPE, text=True, check=False).stdout
        verdict = "as known" if out == f"{cosets(known)}\n" else "NOT so"
        elapsed = time.monotonic() - start
        together += elapsed
        print(f"[{first},{second}] {matrices:7} matrices {elapsed:8.2f} s  {verdict}", flush=True)
    print(f"together {together:8.2f} s")


if __name__ == "__main__":
    main()
