"""Identities that terms satisfy: Maltsev conditions, chains of terms, and the vectors of what stands at their places.

The variables of an identity are the numbers 0, 1, .. for x, y, ..; a pattern has the variable at each place of the term.
Sources: A. I. Maltsev, *On the general theory of algebraic systems*, 1954; A. F. Pixley, *Distributivity and
permutability of congruence relations in equational classes of algebras*, 1963; K. A. Baker, A. F. Pixley, *Polynomial
interpolation and the Chinese remainder theorem for algebraic systems*, 1975; B. Jónsson, *Algebras whose congruence
lattices are distributive*, 1967; J. Hagemann, A. Mitschke, *On n-permutable congruences*, 1973; A. Day, *A
characterization of modularity for congruence lattices of algebras*, 1969.
"""

from __future__ import annotations

from dataclasses import dataclass
from itertools import product
from typing import Dict, List, Optional, Sequence, Tuple

from .limits import PLACES

Pattern = Tuple[int, ...]
Vector = Tuple[int, ...]

XXY: Pattern = (0, 0, 1)
XYX: Pattern = (0, 1, 0)
XYY: Pattern = (0, 1, 1)
YXX: Pattern = (1, 0, 0)


@dataclass(frozen=True)
class Identity:
    """That the term at this pattern is this variable, at every assignment."""

    pattern: Pattern
    value: int


@dataclass(frozen=True)
class Chain:
    """A kind of chain of terms d_0, .., d_m: d_0 is x, d_m is the last variable.

    Each term satisfies the identities `own`. After a term of even index `even` links it to the next: the one at the
    first pattern is the other at the second; after one of odd index `odd` does. Rows have a coordinate for each of the
    patterns and each assignment; `by_parity` says whether what is reached at even and at odd indices is told apart.
    """

    places: int
    own: Tuple[Identity, ...]
    even: Tuple[Pattern, Pattern]
    odd: Tuple[Pattern, Pattern]
    patterns: Tuple[Pattern, ...]
    by_parity: bool


def identities(*pairs: Tuple[Pattern, int]) -> Tuple[Identity, ...]:
    """Identities from their patterns and values."""
    return tuple(Identity(pattern, value) for pattern, value in pairs)


TERNARY: Dict[str, Tuple[Identity, ...]] = {
    "maltsev": identities((XYY, 0), (XXY, 1)),
    "majority": identities((XXY, 0), (XYX, 0), (YXX, 0)),
    "minority": identities((XXY, 1), (XYX, 1), (YXX, 1)),
    "pixley": identities((XYY, 0), (XYX, 0), (XXY, 1)),
}

CHAINS: Dict[str, Chain] = {
    "jonsson": Chain(3, identities((XYX, 0)), (XXY, XXY), (XYY, XYY), (XYX, XXY, XYY), True),
    "hm": Chain(3, (), (XXY, XYY), (XXY, XYY), (XXY, XYY), False),
    "day": Chain(
        4,
        identities(((0, 1, 1, 0), 0)),
        ((0, 0, 1, 1), (0, 0, 1, 1)),
        ((0, 1, 1, 2), (0, 1, 1, 2)),
        ((0, 1, 1, 0), (0, 0, 1, 1), (0, 1, 1, 2)),
        True,
    ),
}


def condition(name: str, k: int) -> Optional[Tuple[Identity, ...]]:
    """The identities of `maltsev`, `majority`, `minority`, `pixley` for k = 3, of `nu` for k from 3 to 16; else nothing.

    Those of `nu` go by the place of the variable y, from the first on.
    """
    if name == "nu" and 3 <= k <= PLACES:
        return tuple(Identity(tuple(int(place == other) for place in range(k)), 0) for other in range(k))
    return TERNARY.get(name) if k == 3 else None


def variables_of(pattern: Pattern) -> int:
    """How many variables a pattern has."""
    return max(pattern) + 1


def assignments(size: int, variables: int) -> List[Vector]:
    """The assignments of elements to variables, in lexicographic order."""
    return list(product(range(size), repeat=variables))


def width_of(size: int, patterns: Sequence[Pattern]) -> int:
    """How many coordinates there are: one for each pattern and each assignment to its variables."""
    return sum(size ** variables_of(pattern) for pattern in patterns)


def place_vectors(size: int, patterns: Sequence[Pattern]) -> List[Vector]:
    """For each place of the patterns, what stands there: by pattern, and then by assignment."""
    points = [
        tuple(values[variable] for variable in pattern)
        for pattern in patterns
        for values in assignments(size, variables_of(pattern))
    ]
    return list(zip(*points))


def value_vector(size: int, rules: Sequence[Identity]) -> Vector:
    """The right sides of the identities: by identity, and then by assignment."""
    return tuple(values[rule.value] for rule in rules for values in assignments(size, variables_of(rule.pattern)))
