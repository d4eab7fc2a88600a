"""The lines that replies are made of: rows, steps, partitions, numbers."""

from __future__ import annotations

import re
from typing import Dict, Iterable, List, NoReturn, Optional, Tuple

from .algebra import Algebra
from .answers import Row
from .faults import InputFault, Place, ReplyFault
from .partitions import TEXT as PARTITION
from .partitions import Partition
from .terms import Step, Steps
from .tokens import is_operation_name

NUM = r"(?:0|[1-9][0-9]*)"
NUMBER = re.compile(NUM)
ROW = re.compile(rf"\[([^\[\]]*)\] ({NUM}) (.+)")


class Lines:
    """The lines of a text that comes piece by piece, each with its LF."""

    def __init__(self, lines: Iterable[bytes]):
        self._lines = iter(lines)
        self._next: Optional[str] = None
        self.number = 0
        self.last = ""

    def fault(self, message: str, rest: Optional[str] = None) -> NoReturn:
        """The line that was taken last is not what it should be, at its beginning or where its end `rest` begins."""
        column = 1 if rest is None else len(self.last) - len(rest) + 1
        raise ReplyFault(message, Place(max(self.number, 1), column))

    def peek(self) -> Optional[str]:
        """The next line, or nothing at the end."""
        if self._next is None:
            line = next(self._lines, None)
            if line is None:
                return None
            if not line.endswith(b"\n"):
                raise ReplyFault("the text ends within a line", Place(self.number + 1, len(line) + 1))
            self._next = line[:-1].decode("latin-1")
        return self._next

    def take(self, what: str) -> str:
        """Takes a line."""
        line = self.peek()
        self.number += 1
        if line is None:
            self.fault(f"{what} is needed, and the input ends")
        self._next = None
        self.last = line
        return line


class Scope:
    """What rows and steps of a reply may name: the elements and the operations of an algebra.

    Where no algebra is known, elements are numbers, and each operation has one arity.
    """

    def __init__(self, algebra: Optional[Algebra]):
        self.algebra = algebra
        self._arities: Dict[str, int] = {}
        self._elements: Dict[str, int] = {}
        if algebra is not None:
            self._arities = {name: operation.arity for name, operation in algebra.operations.items()}
            self._elements = {algebra.shown(element): element for element in range(algebra.size)}

    def element(self, lines: Lines, word: str) -> int:
        """The element that a word of a reply names."""
        found = self._elements.get(word)
        if found is None and (self.algebra is not None or not NUMBER.fullmatch(word)):
            lines.fault(f"{word} is no element")
        return int(word) if found is None else found

    def elements(self, lines: Lines, text: str) -> Tuple[int, ...]:
        """The elements of a vector or a set, by the text between its brackets."""
        return tuple([self.element(lines, word) for word in text.split(" ")]) if text else ()

    def step(self, lines: Lines, text: str, below: Optional[int], generators: Optional[int]) -> Step:
        """A generator, or an operation at numbers below a bound; the text is the end of the line."""
        name, *words = text.split(" ")
        for number, word in enumerate(words):
            rest = " ".join(words[number:])
            if not NUMBER.fullmatch(word):
                lines.fault(f"a number is needed, and {word} is none", rest)
            bound = generators if name == "gen" else below
            if bound is not None and int(word) >= bound:
                lines.fault(f"{word} names {'no generator' if name == 'gen' else 'no earlier step'}", rest)
        if len(words) != self._arity(lines, name, len(words), text):
            before = "before" if self.algebra is None else "is its arity"
            lines.fault(f"{name} has {len(words)} arguments here, and {self._arities.get(name, 1)} {before}", text)
        return Step(name, tuple(map(int, words)))

    def _arity(self, lines: Lines, name: str, count: int, text: str) -> int:
        if name == "gen":
            return 1
        if self.algebra is None and is_operation_name(name):
            self._arities.setdefault(name, count)
        if name not in self._arities:
            lines.fault(f"{name} is no operation", text)
        return self._arities[name]


def count_in(lines: Lines, text: str, head: str) -> Optional[int]:
    """The number after these words, where the line is these words and a number."""
    front, _, number = text.rpartition(" ")
    return int(number) if front == head and NUMBER.fullmatch(number) else None


def counted(lines: Lines, head: str) -> int:
    """Takes a line of these words and a number."""
    number = count_in(lines, lines.take(f"`{head} N`"), head)
    if number is None:
        lines.fault(f"`{head} N` is needed")
    return number


def read_steps(lines: Lines, scope: Scope, count: int, generators: Optional[int], variables: Optional[int] = None) -> Steps:
    """Takes the lines of so many steps, at least one."""

    head = lines.number

    def read(number: int) -> Step:
        if lines.peek() is None:
            raise ReplyFault(f"{count} steps are to follow, and {number} do", Place(max(head, 1), 1))
        front, _, text = lines.take(f"step {number}").partition(" ")
        if front != str(number) or not text:
            lines.fault(f"step {number} is needed here")
        return scope.step(lines, text, number, generators)

    if count == 0:
        lines.fault("there is no step")
    return Steps([read(number) for number in range(count)], variables)


def read_rows(lines: Lines, scope: Scope, count: int, width: Optional[int], generators: Optional[int]) -> List[Row]:
    """Takes the lines of so many rows: ascending, with ranks that are numbers below their count, each once."""
    rows: List[Row] = []
    ranks = set()
    for number in range(count):
        parts = ROW.fullmatch(lines.take(f"row {number}"))
        if parts is None:
            lines.fault(f"row {number} is needed")
        vector = scope.elements(lines, parts.group(1))
        origin = scope.step(lines, parts.group(3), count, generators)
        rows.append(Row(vector, int(parts.group(2)), origin))
        if len(vector) != (len(rows[0].vector) if width is None else width) or not vector:
            lines.fault(f"row {number} has {len(vector)} entries")
        if number and rows[number - 1].vector >= vector:
            lines.fault(f"row {number} is not greater than the row before it")
        ranks.add(rows[number].rank)
    if ranks != set(range(count)):
        lines.fault("the ranks are not the numbers below the number of rows")
    for row in rows:
        if not row.origin.is_generator and any(rows[arg].rank >= row.rank for arg in row.origin.args):
            lines.fault("an origin names a row that has no smaller rank")
    return rows


def read_partition(lines: Lines, text: str, size: Optional[int]) -> Partition:
    """The partition that a line is, of so many elements."""
    try:
        if PARTITION.fullmatch(text):
            partition = Partition.from_text(text)
            if str(partition) == text and size in (None, partition.size):
                return partition
    except InputFault:
        pass
    lines.fault(f"{text} is no partition of the elements")


def read_pair(lines: Lines, text: str, below: int) -> Tuple[int, int]:
    """Two numbers below a bound, the smaller first."""
    words = text.split(" ")
    if len(words) != 2 or not all(map(NUMBER.fullmatch, words)):
        lines.fault("two numbers are needed")
    first, second = map(int, words)
    strange = next((number for number in (first, second) if number >= below), None)
    if strange is not None:
        lines.fault(f"covers: {strange} is no congruence")
    if first >= second:
        lines.fault("two numbers are needed, the smaller first")
    return first, second


def read_tail(lines: Lines, head: str, below: int) -> Tuple[int, ...]:
    """The numbers below a bound after some words, ascending."""
    line = lines.take(f"`{head}`")
    words = line[len(head) :].split(" ")[1:] if line != head else []
    if not line.startswith(head) or (line != head and not line.startswith(head + " ")):
        lines.fault(f"`{head}` is needed")
    if not all(map(NUMBER.fullmatch, words)):
        lines.fault(f"`{head}` and numbers are needed")
    numbers = tuple(map(int, words))
    if any(number >= below for number in numbers) or any(one >= two for one, two in zip(numbers, numbers[1:])):
        lines.fault("ascending numbers are needed, each that of a row or a congruence")
    return numbers
