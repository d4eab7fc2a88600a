"""Checks certificates without the program: check < FILE

The input is a script of blocks and of lines `check NAME {..}`, which are what `cert` prints with `check NAME` in front of
it. For each the line is printed that the program's `check` prints: `valid`, or what is wrong. The script may be longer
than the program takes. The status is 0 where all are valid, 1 where one is not, and 2 where the text is no such script.
"""

from __future__ import annotations

import sys
from typing import Dict, List, Tuple

from ..algebra import Algebra
from ..checking import check_text
from ..faults import ScriptFault, place_of
from ..script import Script
from ..tokens import latin
from .common import parser_of, read_input, write_output


def verdicts(script: Script) -> Tuple[List[str], bool]:
    """What is told of each certificate, and whether all are valid."""
    algebras: Dict[str, Algebra] = {}
    told = []
    are_valid = True
    for item in script.items:
        if isinstance(item, Algebra):
            algebras[item.name] = item
            continue
        name, json = item.values
        if name in algebras:
            verdict = check_text(algebras[name], json.encode("latin-1"))
            told.append(str(verdict))
        else:
            told.append(f"error unknown {item.places[0]}")
        are_valid = are_valid and name in algebras and bool(verdict)
    return told, are_valid


def checked(text: bytes) -> Tuple[str, str, int]:
    """What is to be printed, what is to be said on standard error, and the status."""
    try:
        script = Script.parse(text)
    except ScriptFault as fault:
        return "", f"{fault}\n", 2
    other = next((command for command in script.commands if command.word != "check"), None)
    if other is not None or not script.commands:
        place = other.places[0] if other else place_of(latin(text), len(text))
        return "", f"{place} only blocks and `check` may stand here, and at least one `check`\n", 2
    told, are_valid = verdicts(script)
    return "".join(f"{line}\n" for line in told), "", 0 if are_valid else 1


def run(words: List[str]) -> int:
    """Runs the tool, and answers its status."""
    parser_of("check", __doc__).parse_args(words)
    told, fault, status = checked(read_input())
    write_output(told)
    sys.stderr.write(fault)
    return status
