"""Tables as GAP prints them, with entries from 1.

A table is a list of lists as deep as the operation has arguments: a number is a constant, a list of numbers an operation
of one argument, a list of such lists one of two. Several tables stand one after another. A table may stand in an
assignment, `mul := [ [ 1, 2 ], [ 2, 1 ] ];`, which names it. A list of texts, `[ "e", "a" ]`, has the names of the
elements. Ranges, `[ 1 .. 4 ]` and `[ 1, 3 .. 7 ]`, and comments from `#` on are read.
"""

from __future__ import annotations

import re
from typing import List, Optional, Sequence, Tuple, Union

from ..algebra import Algebra, Operation
from ..limits import ARITY, NUMBER_DIGITS, OPERATIONS, SIZES
from ..tokens import Text, is_name, is_operation_name
from .source import Misfit, placed

ELEMENTS = SIZES[2]
DIGITS = re.compile(r"[0-9]{1,%d}" % NUMBER_DIGITS)
PIECE = re.compile(
    r"(?:[ \t\r\n\f\\]|#[^\n]*)*"
    r"(?:(?P<token>\x22[^\x22\n]*\x22|[A-Za-z_][A-Za-z0-9_]*|\d+|:=|\.\.|[\[\],;])|(?P<other>\S))"
)


class Tokens:
    """The tokens of the text, taken one after another."""

    def __init__(self, text: str):
        self.end = len(text)
        self.tokens: List[Tuple[str, int]] = []
        for piece in PIECE.finditer(text):
            token = piece.group("token") or piece.group("other")
            self.tokens.append((token, piece.end() - len(token)))
        self.at = 0

    def next(self, ahead: int = 0) -> str:
        """A token that is still to be taken, or nothing at the end."""
        return self.tokens[self.at + ahead][0] if self.at + ahead < len(self.tokens) else ""

    def start(self) -> int:
        """Where the next token stands, or the end."""
        return self.tokens[self.at][1] if self.next() else self.end

    def fault(self, needed: str) -> Misfit:
        """That something else is needed than the next token."""
        found = f"`{self.next()}` stands here" if self.next() else "the input ends"
        return Misfit(self.start(), f"{needed} is needed, and {found}")

    def take(self, token: str) -> None:
        """Takes this token."""
        if not self.takes(token):
            raise self.fault(f"`{token}`")

    def takes(self, token: str) -> bool:
        """Takes the next token where it is this one."""
        found = self.next() == token
        self.at += found
        return found


class Entry:
    """A number, or a list of entries, and where it stands."""

    def __init__(self, start: int, value: Union[int, List["Entry"]]):
        self.start = start
        self.value = value

    @property
    def items(self) -> Optional[List["Entry"]]:
        """The entries of a list."""
        return self.value if isinstance(self.value, list) else None


def number(tokens: Tokens) -> Entry:
    """Takes a number."""
    start = tokens.start()
    if not DIGITS.fullmatch(tokens.next()):
        raise tokens.fault("a number or a list")
    value = int(tokens.next())
    tokens.at += 1
    return Entry(start, value)


def entry(tokens: Tokens, depth: int = 0) -> Entry:
    """Takes a number, a range or a list."""
    start = tokens.start()
    if tokens.next() != "[":
        return number(tokens)
    if depth == ARITY:
        raise Misfit(start, f"lists are nested deeper than {ARITY}, the greatest number of arguments")
    tokens.take("[")
    entries = [] if tokens.next() == "]" else [entry(tokens, depth + 1)]
    while tokens.takes(","):
        entries.append(entry(tokens, depth + 1))
    if tokens.next() == "..":
        entries += rest_of_range(tokens, entries)
    tokens.take("]")
    return Entry(start, entries)


def rest_of_range(tokens: Tokens, entries: List[Entry]) -> List[Entry]:
    """What `[ 1 .. 4 ]` and `[ 1, 3 .. 7 ]` have after the numbers that are written."""
    start = tokens.start()
    written = [first.value for first in entries if isinstance(first.value, int)]
    if not 1 <= len(entries) <= 2 or len(written) != len(entries):
        raise Misfit(start, "a range has one or two numbers before its dots")
    tokens.take("..")
    last = number(tokens).value
    assert isinstance(last, int)
    step = written[-1] - written[0] if len(written) == 2 else 1
    if step == 0 or abs(last - written[-1]) > ELEMENTS:
        raise Misfit(start, f"a range has at most {ELEMENTS} numbers")
    bound = last + 1 if step > 0 else last - 1
    return [Entry(start, value) for value in range(written[-1] + step, bound, step)]


def names(tokens: Tokens) -> List[str]:
    """Takes a list of texts, each the name of an element."""
    tokens.take("[")
    found: List[str] = []
    while not found or tokens.takes(","):
        name = tokens.next()[1:-1]
        if not tokens.next().startswith('"') or not is_name(name):
            raise tokens.fault("the name of an element")
        if name in found:
            raise Misfit(tokens.start(), f"the name {name} is taken")
        found.append(name)
        tokens.at += 1
    tokens.take("]")
    return found


class Tables:
    """What the text has: the name, or nothing, the entry and the place of each table, and the names of the elements."""

    def __init__(self, tokens: Tokens):
        self.found: List[Tuple[str, Entry, int]] = []
        self.names: List[str] = []
        self.names_start = 0
        while tokens.next():
            self._read(tokens)

    def _read(self, tokens: Tokens) -> None:
        start = tokens.start()
        name = ""
        if tokens.next(1) == ":=":
            name = tokens.next()
            tokens.at += 2
        if tokens.next(1).startswith('"'):
            if self.names:
                raise Misfit(start, "the elements have names already")
            self.names_start = tokens.start()
            self.names = names(tokens)
        else:
            self.found.append((name, entry(tokens), start))
        while tokens.takes(";"):
            pass

    def size(self) -> int:
        """The length of the first list."""
        for _, table, start in self.found:
            if table.items is not None:
                if not 1 <= len(table.items) <= ELEMENTS:
                    raise Misfit(start, f"the list has {len(table.items)} entries, and 1 to {ELEMENTS} are possible")
                return len(table.items)
        raise Misfit(0, "there is no list, so the number of elements is not known")


def depth_of(table: Entry) -> int:
    """How deep the lists are."""
    depth = 0
    while table.items:
        table = table.items[0]
        depth += 1
    return depth


def values_of(table: Entry, size: int, depth: int) -> List[int]:
    """The entries from 0 in row-major order."""
    if depth == 0:
        if not isinstance(table.value, int):
            raise Misfit(table.start, "a number is needed, and a list stands here")
        if not 1 <= table.value <= size:
            raise Misfit(table.start, f"the entry {table.value} is not one of 1 to {size}")
        return [table.value - 1]
    if table.items is None:
        raise Misfit(table.start, "a list is needed, and a number stands here")
    if len(table.items) != size:
        raise Misfit(table.start, f"the list has {len(table.items)} entries, and {size} are needed")
    return [value for row in table.items for value in values_of(row, size, depth - 1)]


def algebra_of(tables: Tables, name: str, words: Sequence[str]) -> Algebra:
    """The algebra of the tables, named by the words, else by their assignments, else f0, f1, .. by their places."""
    size = tables.size()
    if len(tables.found) > OPERATIONS:
        raise Misfit(tables.found[OPERATIONS][2], f"more than {OPERATIONS} tables")
    operations = {}
    for index, (own, table, start) in enumerate(tables.found):
        word = words[index] if index < len(words) else own or f"f{index}"
        if not is_operation_name(word):
            raise Misfit(start, f"{word} is no name of an operation")
        if word in operations:
            raise Misfit(start, f"the name {word} is taken")
        depth = depth_of(table)
        operations[word] = Operation(depth, tuple(values_of(table, size, depth)))
    if tables.names and len(tables.names) != size:
        raise Misfit(tables.names_start, f"the list has {len(tables.names)} names, and {size} are needed")
    return Algebra(name, size, operations, tables.names)


def read_gap(text: Text, name: str = "A", operations: Sequence[str] = ()) -> Algebra:
    """The algebra of the tables in a text; `InputFault` with the place where it is none."""
    return placed(text, lambda source: algebra_of(Tables(Tokens(source)), name, operations))
