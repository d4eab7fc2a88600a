"""Turns tables as GAP prints them, with entries from 1, into a block: gap2script [ALGEBRA [OPERATION ..]] < TABLES

The words after the algebra's name name the tables in order; a table without a name is f0, f1, .. by its place. A list of
texts, `[ "e", "a" ]`, has the names of the elements; the block is then one of version 2, whose line stands before it.
"""

from __future__ import annotations

from typing import List

from ..convert.gap import read_gap
from ..tokens import is_name
from .common import parser_of, read_input, write_output


def run(words: List[str]) -> int:
    """Runs the tool, and answers its status."""
    parser = parser_of("gap2script", __doc__)
    parser.add_argument("algebra", nargs="?", default="A", help="the algebra's name (else A)")
    parser.add_argument("operation", nargs="*", help="the operations' names")
    options = parser.parse_args(words)
    if not is_name(options.algebra):
        parser.error(f"{options.algebra} is no name of an algebra")
    write_output(read_gap(read_input(), options.algebra, options.operation).script())
    return 0
