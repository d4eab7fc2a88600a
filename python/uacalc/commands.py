"""The commands: one table, a row for each form.

The reader of scripts, the printer, the reader of replies and the methods of `Calculator` all go by this table.
"""

from __future__ import annotations

from dataclasses import dataclass, field
from typing import Any, Dict, List, Tuple

from .faults import InputFault, Place
from .operands import (
    Blocks,
    Count,
    Identities,
    Json,
    Mark,
    Mode,
    Name,
    Names,
    OneOf,
    Operand,
    Pick,
    TermText,
    Vector,
    Vectors,
    made_operands,
    operand_texts,
    paired,
)


@dataclass(frozen=True)
class Form:
    """A form of a command: its word, its operands, the kind of its reply, and whether `cert` may stand before it."""

    word: str
    operands: Tuple[Operand, ...]
    reply: str
    can_certify: bool = False

    def certified(self) -> Tuple[Operand, ...]:
        """The operands after `cert`: no mode is among them."""
        return tuple(operand for operand in self.operands if not isinstance(operand, Mode))


NAME = Name()
COUNT = Count()
VECTOR = Vector()
VECTORS = Vectors()
BLOCKS = Blocks()
TERM = TermText()
EQUALS = Mark("=")
LISTED = Mode("least", "count")

CONDITIONS = ("maltsev", "majority", "minority", "pixley")
CONSTRUCTIONS: Dict[str, Tuple[Operand, ...]] = {
    "product": (NAME, NAME),
    "quotient": (NAME, BLOCKS),
    "sub": (NAME, VECTOR),
    "reduct": (NAME, Names()),
}
POINTS: Dict[str, Tuple[Operand, ...]] = {"total": (VECTOR,), "partial": (VECTORS,)}


class Points(Pick):
    """The values of an operation: all of them, or at least one with its arguments."""

    def read(self, tokens: Any, version: int) -> Tuple[Any, ...]:
        word = tokens.one_of(tuple(self.rows))
        if tokens.text != "[":
            tokens.fault("word")
        return (word, self.rows[word][0].read(tokens, version))

    def made(self, value: Any) -> Tuple[Any, ...]:
        found = super().made(value)
        if not found[1] and found[0] == "partial":
            raise InputFault("an operation is asked for at no point")
        return found


FORMS: Dict[str, Form] = {
    form.word: form
    for form in (
        Form("close", (NAME, COUNT, VECTORS, LISTED), "closure", True),
        Form("member", (NAME, COUNT, VECTORS, EQUALS, VECTOR), "membership", True),
        Form("free", (NAME, COUNT, LISTED), "closure"),
        Form("sub", (NAME, VECTOR), "elements"),
        Form("ones", (NAME,), "ones"),
        Form("hom", (NAME, NAME, VECTOR, VECTOR), "homomorphism"),
        Form("eval", (NAME, TERM, VECTOR), "value"),
        Form("holds", (NAME, TERM, EQUALS, TERM), "identity"),
        Form("cg", (NAME, VECTORS), "partition"),
        Form("con", (NAME,), "lattice"),
        Form("central", (NAME, BLOCKS, BLOCKS, BLOCKS), "centrality"),
        Form("comm", (NAME, BLOCKS, BLOCKS), "commutator"),
        Form("series", (NAME, OneOf("derived", "lower")), "series"),
        Form("types", (NAME,), "types"),
        Form("cond", (NAME, OneOf(*CONDITIONS)), "membership", True),
        Form("nu", (NAME, COUNT), "membership", True),
        Form("jonsson", (NAME,), "chain", True),
        Form("hm", (NAME,), "chain", True),
        Form("day", (NAME,), "chain"),
        Form("condition", (NAME, COUNT, Identities("x", "y", "z", "w")), "membership"),
        Form("clone", (NAME, COUNT, OneOf("term", "polynomial"), Points(POINTS)), "membership"),
        Form("make", (NAME, Pick(CONSTRUCTIONS)), "block"),
        Form("check", (NAME, Json()), "verdict"),
    )
}


def names_in(operands: Tuple[Operand, ...], values: Tuple[Any, ...]) -> List[str]:
    """The names of algebras among the operands, in order, with those of a construction."""
    found = []
    for operand, value in paired(operands, values):
        if isinstance(operand, Name):
            found.append(value)
        elif isinstance(operand, Pick):
            found += names_in(operand.rows[value[0]], value[1:])
    return found


@dataclass(frozen=True)
class Command:
    """A command: its form, the values of its operands, and whether `cert` stands before it.

    `places` are those of the first tokens of its operands, where it was read.
    """

    form: Form
    values: Tuple[Any, ...]
    cert: bool = False
    places: Tuple[Place, ...] = field(default=(), compare=False)

    @classmethod
    def made(cls, word: str, values: Tuple[Any, ...], cert: bool = False) -> "Command":
        """The command of this word with values of Python; `InputFault` where an operand is none."""
        form = FORMS[word]
        return cls(form, tuple(made_operands(form.certified() if cert else form.operands, values)), cert)

    @property
    def word(self) -> str:
        """The word of the form, `close` also after `cert`."""
        return self.form.word

    @property
    def operands(self) -> Tuple[Operand, ...]:
        """The operands that have these values."""
        return self.form.certified() if self.cert else self.form.operands

    @property
    def makes(self) -> bool:
        """Whether it introduces an algebra, by its first value."""
        return self.word == "make"

    @property
    def algebras(self) -> List[str]:
        """The names of the algebras that it asks about."""
        return names_in(self.operands, self.values)[1 if self.makes else 0 :]

    @property
    def version(self) -> int:
        """The version of the language that it needs."""
        return 2 if any(operand.words(value) for operand, value in paired(self.operands, self.values)) else 1

    def text(self) -> str:
        """The command on one line."""
        words = ["cert"] if self.cert else []
        return " ".join([*words, self.word, *operand_texts(self.operands, self.values)])
