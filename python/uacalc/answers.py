"""The answers of the program as objects.

Answers that say yes are true and answers that say no are false. `Exceeds` is neither: to ask for its truth value raises
`Undecided`.
"""

from __future__ import annotations

from dataclasses import dataclass, field
from typing import Dict, List, Optional, Sequence, Tuple, Union

from .algebra import Algebra
from .faults import InputFault, Undecided
from .partitions import Partition
from .terms import Step, Steps, Term

Vector = Tuple[int, ...]


@dataclass(frozen=True)
class Row:
    """A row of a listing: a vector, its rank, and its origin over rows of smaller rank, named by their positions."""

    vector: Vector
    rank: int
    origin: Step


class Rows(Sequence[Row]):
    """Rows in the order of their vectors, over an algebra."""

    def __init__(self, algebra: Optional[Algebra], rows: Sequence[Row]):
        self.algebra = algebra
        self.rows = tuple(rows)
        self._positions: Optional[Dict[Vector, int]] = None

    def __len__(self) -> int:
        return len(self.rows)

    def __getitem__(self, index):  # type: ignore[no-untyped-def]
        return self.rows[index]

    def __eq__(self, other: object) -> bool:
        return type(self) is type(other) and vars(self) | {"_positions": None} == vars(other) | {"_positions": None}

    @property
    def vectors(self) -> List[Vector]:
        """The vectors, in lexicographic order."""
        return [row.vector for row in self.rows]

    def position(self, vector: Sequence[int]) -> Optional[int]:
        """The position of the row with this vector, or nothing."""
        if self._positions is None:
            self._positions = {row.vector: position for position, row in enumerate(self.rows)}
        return self._positions.get(tuple(vector))

    def steps(self, position: int) -> Steps:
        """Steps to a row: the rows that it needs, by ascending rank, of which the last is this one."""
        needed = {position}
        waiting = [position]
        while waiting:
            origin = self.rows[waiting.pop()].origin
            if not origin.is_generator:
                waiting += set(origin.args) - needed
                needed.update(origin.args)
        order = sorted(needed, key=lambda place: self.rows[place].rank)
        number = {place: step for step, place in enumerate(order)}
        steps = []
        for place in order:
            origin = self.rows[place].origin
            args = origin.args if origin.is_generator else tuple(number[arg] for arg in origin.args)
            steps.append(Step(origin.word, args))
        return Steps(steps)

    def term(self, vector: Sequence[int]) -> Term:
        """A term whose value at the generators is this vector; `InputFault` where no row has it."""
        position = self.position(vector)
        if position is None:
            raise InputFault(f"{list(vector)} is no row")
        return self.steps(position).term()

    def __repr__(self) -> str:
        return f"<{type(self).__name__} of {len(self)} rows>"


class Listing(Rows):
    """All members of what vectors generate. `vector in listing` asks for a member."""

    def __contains__(self, vector: object) -> bool:
        return isinstance(vector, Sequence) and self.position(vector) is not None

    def __bool__(self) -> bool:
        return True


class No(Rows):
    """That there is no such vector, or no such term: all rows, among which the vector that was asked for is not."""

    def __bool__(self) -> bool:
        return False


class NoChain(No):
    """That there is no chain: the values of all terms, and the positions that beginnings of chains reach.

    `even` and `odd` are those reached at even and at odd indices; for `hm` all stand in `even`.
    """

    def __init__(self, algebra: Optional[Algebra], rows: Sequence[Row], even: Sequence[int], odd: Sequence[int]):
        super().__init__(algebra, rows)
        self.even = tuple(even)
        self.odd = tuple(odd)


@dataclass(frozen=True)
class Exceeds:
    """More than the budget: neither yes nor no, and no answer to what was asked.

    `rows` are the budget + 1 members that were found, where the reply has them, and `partitions` the congruences or the
    members of a series.
    """

    budget: int
    rows: Optional[Rows] = field(default=None, compare=False, repr=False)
    partitions: Tuple[Partition, ...] = ()

    def __bool__(self) -> bool:
        raise Undecided(f"more than {self.budget} were found, which is neither yes nor no")


@dataclass(frozen=True)
class Yes:
    """That there is such a vector, or such a term, with steps of which the last has it."""

    steps: Steps

    @property
    def term(self) -> Term:
        """The term of the last step."""
        return self.steps.term()


@dataclass(frozen=True)
class Chain:
    """A chain of terms d_0, .., d_m, of least length m."""

    terms: Tuple[Steps, ...]

    @property
    def length(self) -> int:
        """The length m."""
        return len(self.terms) - 1


@dataclass(frozen=True)
class Homomorphism:
    """The image of each element that the given ones generate."""

    images: Dict[int, int]


@dataclass(frozen=True)
class Clash:
    """Two terms with the same value at the elements and different values at their images: there is no homomorphism."""

    element: int
    values: Tuple[int, int]
    steps: Tuple[Steps, Steps]

    def __bool__(self) -> bool:
        return False


@dataclass(frozen=True)
class Holds:
    """That an identity holds at every assignment."""


@dataclass(frozen=True)
class Fails:
    """The first assignment at which an identity fails: the elements for x0, x1, ..."""

    assignment: Vector

    def __bool__(self) -> bool:
        return False


@dataclass(frozen=True)
class Central:
    """That the first congruence centralizes the second modulo the third."""


@dataclass(frozen=True)
class NotCentral:
    """A matrix [p q r s] that shows that it does not, with steps over the generating matrices."""

    matrix: Vector
    steps: Steps

    def __bool__(self) -> bool:
        return False


@dataclass(frozen=True)
class Series:
    """The derived or the lower central series, from the full congruence down."""

    kind: str
    members: Tuple[Partition, ...]


@dataclass(frozen=True)
class Valid:
    """That a certificate has no flaw, so that what it says is true."""

    def __str__(self) -> str:
        return "valid"


@dataclass(frozen=True)
class Invalid:
    """What is wrong with a certificate, in the words of `check`: `flaw result meet 0 1`, `cert shape width`."""

    text: str

    def __bool__(self) -> bool:
        return False

    def __str__(self) -> str:
        return self.text


Verdict = Union[Valid, Invalid]
Membership = Union[Yes, No, Exceeds]

