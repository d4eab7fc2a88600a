"""Turns models as Mace4 prints them into blocks: mace2script [ALGEBRA] < MODELS

One model has the algebra's name; several have this name with 0, 1, .. after it. A function whose symbol is no name of an
operation gets another name, and a comment says which. Relations are left out, and a comment says so.
"""

from __future__ import annotations

from typing import List

from ..convert.mace4 import read_mace4
from ..convert.source import script_of
from ..tokens import is_name
from .common import parser_of, read_input, write_output


def run(words: List[str]) -> int:
    """Runs the tool, and answers its status."""
    parser = parser_of("mace2script", __doc__)
    parser.add_argument("algebra", nargs="?", default="A", help="the algebra's name (else A)")
    options = parser.parse_args(words)
    if not is_name(options.algebra):
        parser.error(f"{options.algebra} is no name of an algebra")
    write_output(script_of(read_mace4(read_input(), options.algebra)))
    return 0
