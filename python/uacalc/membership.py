"""Conditions and clones as questions of membership: which vectors generate, and which target is asked for.

So what has no certificate of its own is certified by `cert member`.
"""

from __future__ import annotations

from typing import Any, List, Sequence, Tuple

from .algebra import Algebra, Entry
from .conditions import assignments
from .faults import InputFault
from .operands import Identities

Vector = Tuple[int, ...]
Question = Tuple[int, List[Vector], Vector]

LETTERS = "xyzw"


def of_condition(algebra: Algebra, places: int, identities: Any) -> Question:
    """The width, generators and target of a condition of one's own.

    The coordinates are the identities, and for each the assignments to the variables from x up to the greatest that occurs
    in the condition, in lexicographic order. `InputFault` where an identity has another number of places.
    """
    rules = Identities(*LETTERS).made(identities)
    if any(len(pattern) != places for pattern, _ in rules):
        raise InputFault(f"an identity has not {places} places")
    variables = 1 + max(LETTERS.index(letter) for pattern, right in rules for letter in (*pattern, right))
    points = [
        (pattern, right, dict(zip(LETTERS, values)))
        for pattern, right in rules
        for values in assignments(algebra.size, variables)
    ]
    generators = [tuple(values[pattern[place]] for pattern, _, values in points) for place in range(places)]
    return len(points), generators, tuple(values[right] for _, right, values in points)


def of_clone(algebra: Algebra, arity: int, values: Sequence[Entry], polynomial: bool) -> Question:
    """The width, generators and target of an operation, by its values at all arguments in lexicographic order.

    `InputFault` where there are not size^arity values.
    """
    target = tuple(map(algebra.element, values))
    points = assignments(algebra.size, arity)
    if len(points) != len(target):
        raise InputFault(f"there are {len(target)} values, and {len(points)} are needed")
    constants = range(algebra.size) if polynomial else ()
    generators = [tuple(point[place] for point in points) for place in range(arity)]
    return len(points), generators + [(element,) * len(points) for element in constants], target
