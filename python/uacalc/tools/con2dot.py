"""Draws the congruences of a `con` reply as a Hasse diagram for Graphviz: con2dot [--script FILE] [--numbers] < REPLIES

With --script the input is all replies to that script, and the congruences of its `con` are drawn, with the types of its
`types` on the same algebra, if there is one: each edge has the type of its cover, or a question mark where it exceeds.
Where the script has several `con`, --algebra names the one to be drawn.

Without --script one reply of `con` is to stand in the input; other lines are passed over. Of which algebra a reply of
`types` is cannot be known then, so there may be none.

The least congruence is at the bottom, and those that cover exactly one are boxes. With --numbers, and where there are 60
congruences or more or one is written with more than 40 characters, a congruence is drawn as its number alone.
"""

from __future__ import annotations

from argparse import Namespace
from typing import List

from ..answers import Exceeds
from ..commands import Command
from ..faults import CommandError, InputFault, Place
from ..lattices import CongruenceLattice, Types
from ..reply_lines import Lines
from ..reply_reader import ReplyReader
from .common import add_script_option, answered, parser_of, read_input, write_output


def lattice_alone(replies: bytes) -> CongruenceLattice:
    """The lattice of the one reply of `con` in a text."""
    lines = replies.splitlines(True)
    firsts = [line.split()[0] if line.split() else b"" for line in lines]
    if firsts.count(b"congruences") > 1:
        raise InputFault("several replies of `con` stand here: --script tells them apart", Place(len(lines) + 1, 1))
    if b"types" in firsts:
        place = Place(firsts.index(b"types") + 1, 1)
        raise InputFault("of which algebra these types are is not known: --script tells it", place)
    if b"congruences" not in firsts:
        if b"exceeds" in firsts:
            raise InputFault("a reply `exceeds` has no covers", Place(firsts.index(b"exceeds") + 1, 1))
        raise InputFault("there is no line `congruences N`", Place(len(lines) + 1, 1))
    start = firsts.index(b"congruences")
    reader = Lines(lines)
    for _ in range(start):
        reader.take("a line")
    command = Command.made("con", ("A",))
    lattice = ReplyReader(reader, command, [], []).lattice(reader.take("`congruences N`"))
    assert isinstance(lattice, CongruenceLattice)
    return lattice


def lattice_in(options: Namespace, replies: bytes) -> CongruenceLattice:
    """The lattice of a script's `con`, with the types of the same algebra, if there are some."""
    found = answered(options.script, replies)
    asked = [(script.commands[number], answer) for script, number, answer in found]
    wanted = [
        (command, answer)
        for command, answer in asked
        if command.word == "con" and options.algebra in (None, command.values[0])
    ]
    of = "" if options.algebra is None else f" of {options.algebra}"
    if len({command.values[0] for command, _ in wanted}) != 1:
        message = f"the script has no `con`{of}" if not wanted else "the script has several `con`: name one by --algebra"
        raise InputFault(message, f"{options.script}:")
    lattice = wanted[0][1]
    if isinstance(lattice, CommandError):
        raise InputFault(str(lattice))
    if isinstance(lattice, Exceeds):
        raise InputFault("a reply `exceeds` has no covers")
    types = (answer for _, answer in asked if isinstance(answer, Types) and answer.algebra == lattice.algebra)
    known = next(types, None)
    return lattice if known is None else lattice.with_types(known)


def run(words: List[str]) -> int:
    """Runs the tool, and answers its status."""
    parser = parser_of("con2dot", __doc__)
    add_script_option(parser)
    parser.add_argument("--algebra", metavar="NAME", help="the algebra whose congruences are drawn")
    parser.add_argument("--numbers", action="store_true", help="draw each congruence as its number alone")
    options = parser.parse_args(words)
    if options.algebra and not options.script:
        parser.error("--algebra is for a script: give --script too")
    replies = read_input()
    lattice = lattice_in(options, replies) if options.script else lattice_alone(replies)
    write_output(lattice.to_dot(True if options.numbers else None))
    return 0
