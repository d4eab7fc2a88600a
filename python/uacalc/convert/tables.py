"""A square table of an operation of two arguments, as spreadsheets and papers have it."""

from __future__ import annotations

import re
from typing import List, Tuple

from ..algebra import Algebra, Operation
from ..faults import InputFault
from ..tokens import Text, is_name, latin

CELL = re.compile(r"[^\s,;]+")

Rows = List[Tuple[int, List[str]]]  # the number of each line that has cells, and the cells


def entries_of(rows: Rows, elements: List[str]) -> List[int]:
    """The numbers of the entries of a square table; `InputFault` with the line where it is none over these elements."""
    places = {element: place for place, element in enumerate(elements)}
    if len(places) != len(elements):
        raise InputFault("an element stands twice in the first column")
    values: List[int] = []
    for number, cells in rows:
        if len(cells) != len(elements):
            raise InputFault(f"the row has {len(cells)} entries, and {len(elements)} are needed", f"line {number}:")
        strange = next((cell for cell in cells if cell not in places), None)
        if strange is not None:
            raise InputFault(f"the entry {strange} is no element", f"line {number}:")
        values += [places[cell] for cell in cells]
    return values


def has_margins(rows: Rows) -> bool:
    """Whether the first row and the first column have the same elements, beside a corner that may be empty."""
    labels = [cells[0] for _, cells in rows[1:]]
    corner = len(rows[0][1]) - len(labels)
    return bool(labels) and corner in (0, 1) and rows[0][1][corner:] == labels


def read_table(text: Text, name: str = "A", operation: str = "mul", first: int = 0) -> Algebra:
    """The algebra of one table: a line for each row, entries with commas, semicolons or blanks between them.

    Entries are the numbers from `first` on, 0 or 1. Or the table has a first row and a first column with the elements, in
    one order: then entries are what stands there, and the elements have these names where all of them are words. The
    corner of such a table may be empty. `InputFault`, with the line, where the text is no such table.
    """
    numbered = [(number, CELL.findall(line)) for number, line in enumerate(latin(text).split("\n"), 1)]
    rows: Rows = [(number, cells) for number, cells in numbered if cells]
    if not rows:
        raise InputFault("there is no table")
    elements = [str(first + place) for place in range(len(rows))]
    try:
        values = entries_of(rows, elements)
    except InputFault:
        if not has_margins(rows):
            raise
        elements = [cells[0] for _, cells in rows[1:]]
        values = entries_of([(number, cells[1:]) for number, cells in rows[1:]], elements)
    names = elements if all(map(is_name, elements)) else []
    return Algebra(name, len(elements), {operation: Operation(2, tuple(values))}, names)
