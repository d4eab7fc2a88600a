#!/usr/bin/env python3
"""Times the commands beside `close`, `member`, `cg` and `con`, with one worker: bench/commands.py PROGRAM

For each command the first words that its reply is to have and the processor time of the program are printed, and whether
these are its first words.
"""

import itertools
import sys

from congruences import block, groupoid, measured


def integers(modulus):
    """The integers by a modulus under addition."""
    return block(modulus, [(2, lambda a, b: (a + b) % modulus)])


def even_permutations(letters):
    """The alternating group on so many letters."""
    def is_even(member):
        return sum(a > b for a, b in itertools.combinations(member, 2)) % 2 == 0

    members = [member for member in itertools.permutations(range(letters)) if is_even(member)]
    number = {member: place for place, member in enumerate(members)}
    return block(len(members), [(2, lambda a, b: number[tuple(members[a][letter] for letter in members[b])])])


def ring(modulus):
    """The ring of integers by a modulus."""
    return block(modulus, [(2, lambda a, b: (a + b) % modulus), (2, lambda a, b: a * b % modulus)])


def pairs_of_maps():
    """Pairs of elements below four: all maps of the first alone, and the maps a x + b modulo 4 of the second alone."""
    first = [(1, 2, 3, 0), (1, 0, 2, 3), (1, 1, 2, 3)]
    second = [[(x + 1) % 4 for x in range(4)], [2 * x % 4 for x in range(4)], [3 * x % 4 for x in range(4)]]
    return block(16, [(1, lambda a, f=f: 4 * f[a // 4] + a % 4) for f in first]
                 + [(1, lambda a, f=f: 4 * (a // 4) + f[a % 4]) for f in second])


def chain(size):
    """The chain of so many elements as a lattice."""
    return block(size, [(2, min), (2, max)])


def subspaces(prime):
    """The subspaces of the projective plane over the integers by a prime: a simple lattice with two elements for each point."""
    numbers = range(prime)
    points = [(1, a, b) for a in numbers for b in numbers] + [(0, 1, a) for a in numbers] + [(0, 0, 1)]
    whole = frozenset(range(len(points)))
    lines = [
        frozenset(at for at, point in enumerate(points) if sum(x * y for x, y in zip(point, line)) % prime == 0)
        for line in points
    ]
    spaces = [frozenset(), *(frozenset([at]) for at in whole), *lines, whole]
    number = {space: at for at, space in enumerate(spaces)}
    # Two points span the line that holds both, and a point and a line not through it the whole plane.
    span = {pair: line for line in lines for pair in itertools.permutations(line, 2)}

    def join(a, b):
        low, high = sorted((spaces[a], spaces[b]), key=len)
        if low <= high:
            return number[high]
        return number[span[(*low, *high)] if len(high) == 1 else whole]

    return block(len(spaces), [(2, lambda a, b: number[spaces[a] & spaces[b]]), (2, join)])


def cube_and_chain():
    """The product of the lattice of subsets of three elements and a chain of five: 40 elements."""
    members = list(itertools.product(range(2), range(2), range(2), range(5)))
    number = {member: at for at, member in enumerate(members)}
    operations = [lambda a, b, f=f: number[tuple(map(f, members[a], members[b]))] for f in (min, max)]
    return block(len(members), [(2, operation) for operation in operations])


def full(size):
    """The partition with one block."""
    return "|" + " ".join(map(str, range(size))) + "|"


def nested(variables):
    """The sum of these variables, parentheses to the right."""
    *front, last = variables
    for variable in reversed(front):
        last = f"f0({variable},{last})"
    return last


def main():
    if len(sys.argv) != 2:
        sys.exit(__doc__)
    lattice = block(2, [(2, min), (2, max)])
    variables = [f"x{number}" for number in range(8)]
    identity = f"{nested(variables)} = {nested(variables[::-1])}"
    workloads = [
        ("free lattice L 4", lattice, "free A 4 count", "closed 166"),
        ("free group of exponent 2 on 8", integers(2), "free A 8 count", "closed 256"),
        ("subgroup of the integers by 1,000", integers(1000), "sub A [7]", "{0 1 2"),
        ("ones of the integers by 1,000", integers(1000), "ones A", "ones 1000"),
        ("map of the integers by 1,000", integers(1000), "hom A A [1] [3]", "map 1000"),
        ("identity in 8 variables, size 8", integers(8), f"holds A {identity}", "holds"),
        ("identity in 8 variables, size 9", integers(9), f"holds A {identity}", "holds"),
        ("commutator in the group A4", even_permutations(4), f"comm A {full(12)} {full(12)}", "|0 "),
        ("derived series of the group A4", even_permutations(4), "series A derived", "series 3"),
        ("commutator in the ring of 8", ring(8), f"comm A {full(8)} {full(8)}", full(8)),
        ("types of the ring of 60", ring(60), "types A", "types 20"),
        ("types of the group A4", even_permutations(4), "types A", "types 2"),
        ("types of a chain of 8", chain(8), "types A", "types 448"),
        ("types, random operation on 100", groupoid(100)[0], "types A", "types 1"),
        ("types of the plane over 7", subspaces(7), "types A", "types 1"),
        ("types of the group A5", even_permutations(5), "types A", "types 1"),
        ("commutator in a lattice of 40", cube_and_chain(), f"comm A {full(40)} {full(40)}", "exceeds 20000"),
        ("near-unanimity of 16 variables", lattice, "nu A 16", "yes"),
        ("Maltsev term of the group A4", even_permutations(4), "cond A maltsev", "yes"),
        ("majority in the integers by 12", integers(12), "cond A majority", "no 1728"),
        ("Jonsson chain of a chain of 4", chain(4), "jonsson A", "chain 2"),
        ("Jonsson in the integers by 12", integers(12), "jonsson A", "no 1728"),
        ("Jonsson in 4,096 maps on 16 points", pairs_of_maps(), "jonsson A", "no 12256"),
        ("Hagemann-Mitschke, integers by 12", integers(12), "hm A", "chain 2"),
        ("Day chain of the integers by 7", integers(7), "day A", "chain 2"),
        ("product of 40 by 25", integers(25).replace("algebra A", "algebra B", 1) + integers(40), "make C product A B", "algebra C size 1000"),
    ]
    for name, blocks, command, known in workloads:
        words = [sys.argv[1], "--workers", "1", "--budget", "20000"]
        out, seconds, _ = measured(words, f"{blocks}{command}\n".encode())
        verdict = "as known" if out.startswith(known.encode()) else "NOT so"
        print(f"{name:34} {known:20} {seconds:8.2f} s  {verdict}")


if __name__ == "__main__":
    main()
