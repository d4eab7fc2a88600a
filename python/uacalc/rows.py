"""Operations on vectors of a power, and whether rows are closed under them.

For each choice of the first arguments an operation is applied to all rows in its last place at once, column by column, so
that Python's own loops do the work: some millions of look-ups a second where an algebra has at most 256 elements.
"""

from __future__ import annotations

from itertools import product
from typing import Any, List, Optional, Sequence, Set, Tuple

from .algebra import Algebra

Vector = Tuple[int, ...]


def power_value(algebra: Algebra, width: int, operation: str, args: Sequence[Vector]) -> Vector:
    """The value of an operation at vectors of the power of this width, coordinate by coordinate."""
    values = algebra.operations[operation].values
    if not args:
        return values * width
    places: Any = args[0]
    for arg in args[1:]:
        places = [place * algebra.size + entry for place, entry in zip(places, arg)]
    return tuple([values[place] for place in places])


class Table:
    """An operation of at least one argument, as what it does to its last one."""

    def __init__(self, size: int, values: Sequence[int]):
        starts = range(0, len(values), size)
        self.is_small = size <= 256
        if self.is_small:
            self.lines: List[Any] = [bytes(values[start : start + size]).ljust(256, b"\0") for start in starts]
        else:
            self.lines = [tuple(values[start : start + size]) for start in starts]

    def column(self, entries: Sequence[int]) -> Any:
        """A column of rows in the form that `image` takes."""
        return bytes(entries) if self.is_small else entries

    def image(self, line: int, column: Any) -> Any:
        """The values at the entries of a column, for the first arguments of this number."""
        return column.translate(self.lines[line]) if self.is_small else [self.lines[line][entry] for entry in column]


def lines_of(size: int, width: int, first: Sequence[Vector]) -> List[int]:
    """The number of the first arguments at each coordinate."""
    if len(first) == 1:
        return list(first[0])
    lines = [0] * width
    for row in first:
        lines = [line * size + entry for line, entry in zip(lines, row)]
    return lines


def first_missing(
    algebra: Algebra, width: int, rows: Sequence[Vector], found: Set[Vector]
) -> Optional[Tuple[str, Tuple[int, ...]]]:
    """The first operation, and the first positions of rows, at which its value is none of the vectors found."""
    columns = list(zip(*rows))
    for name, operation in algebra.operations.items():
        if operation.arity == 0:
            if not rows or operation.values * width not in found:
                return name, ()
            continue
        if not rows:
            continue
        table = Table(algebra.size, operation.values)
        typed = [table.column(column) for column in columns]
        for first in product(range(len(rows)), repeat=operation.arity - 1):
            lines = lines_of(algebra.size, width, [rows[position] for position in first])
            images = [table.image(line, column) for line, column in zip(lines, typed)]
            if not found.issuperset(zip(*images)):
                last = next(position for position, value in enumerate(zip(*images)) if value not in found)
                return name, (*first, last)
    return None
