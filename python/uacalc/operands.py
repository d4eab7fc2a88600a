"""The operands of commands: how each is read, written, and made of a value of Python."""

from __future__ import annotations

from typing import Any, Dict, Iterable, List, Tuple

from .faults import InputFault
from .limits import NUMBER_DIGITS
from .partitions import partition_of
from .terms import Term, read_term, term_of
from .tokens import Tokens, is_name, latin

LESS_THAN = 10**NUMBER_DIGITS


def number_of(value: Any, what: str = "a number") -> int:
    """A number that a script may write."""
    if type(value) is not int or not 0 <= value < LESS_THAN:
        raise InputFault(f"{value!r} is not {what} of at most {NUMBER_DIGITS} digits")
    return value


def word_of(value: Any) -> str:
    """A word that a script may write."""
    if not is_name(value):
        raise InputFault(f"{value!r} is no word")
    return value


def entry_of(value: Any) -> Any:
    """An entry of a vector: a number, or the name of an element."""
    return word_of(value) if isinstance(value, str) else number_of(value)


class Operand:
    """A part of a command."""

    has_value = True

    def read(self, tokens: Tokens, version: int) -> Any:
        """Takes the operand."""
        raise NotImplementedError

    def made(self, value: Any) -> Any:
        """The operand's value, of one given in Python; `InputFault` where there is none."""
        raise NotImplementedError

    def text(self, value: Any) -> str:
        """The operand as a script writes it."""
        return str(value)

    def words(self, value: Any) -> bool:
        """Whether it names elements, which takes version 2."""
        return False


class Name(Operand):
    """The name of an algebra that stands before."""

    def read(self, tokens: Tokens, version: int) -> str:
        return tokens.word("name")

    def made(self, value: Any) -> str:
        return word_of(value)


class Count(Operand):
    """A number: a width, or how many variables or places."""

    def read(self, tokens: Tokens, version: int) -> int:
        return tokens.number("number")

    def made(self, value: Any) -> int:
        return number_of(value)


class Mark(Operand):
    """A mark, which has no value."""

    has_value = False

    def __init__(self, mark: str):
        self.mark = mark

    def read(self, tokens: Tokens, version: int) -> None:
        tokens.need(self.mark)

    def text(self, value: Any) -> str:
        return self.mark


class Vector(Operand):
    """`[0 1 bot]`: numbers, and in version 2 names of elements."""

    def read(self, tokens: Tokens, version: int) -> Tuple[Any, ...]:
        tokens.need("[")
        entries: List[Any] = []
        while not tokens.takes("]"):
            named = version == 2 and tokens.kind == "word"
            entries.append(tokens.take() if named else tokens.number("item"))
        return tuple(entries)

    def made(self, value: Any) -> Tuple[Any, ...]:
        if isinstance(value, str) or not isinstance(value, Iterable):
            raise InputFault(f"{value!r} is no vector")
        return tuple(map(entry_of, value))

    def text(self, value: Any) -> str:
        return f"[{' '.join(map(str, value))}]"

    def words(self, value: Any) -> bool:
        return any(isinstance(entry, str) for entry in value)


class Vectors(Vector):
    """Vectors, as many as there are."""

    def read(self, tokens: Tokens, version: int) -> Tuple[Any, ...]:
        found = []
        while tokens.text == "[":
            found.append(super().read(tokens, version))
        return tuple(found)

    def made(self, value: Any) -> Tuple[Any, ...]:
        return tuple(super(Vectors, self).made(vector) for vector in value)

    def text(self, value: Any) -> str:
        return " ".join(super(Vectors, self).text(vector) for vector in value)

    def words(self, value: Any) -> bool:
        return any(super(Vectors, self).words(vector) for vector in value)


class Blocks(Operand):
    """A partition by its blocks, as they are written: whether they are a partition is not asked."""

    def read(self, tokens: Tokens, version: int) -> Tuple[Tuple[int, ...], ...]:
        tokens.need("|")
        blocks = []
        first = True
        while first or tokens.kind == "number":
            first = False
            block = [tokens.number("item")]
            while not tokens.takes("|"):
                block.append(tokens.number("item"))
            blocks.append(tuple(block))
        return tuple(blocks)

    def made(self, value: Any) -> Tuple[Tuple[int, ...], ...]:
        return partition_of(value).blocks

    def text(self, value: Any) -> str:
        return f"|{'|'.join(' '.join(map(str, block)) for block in value)}|"


class OneOf(Operand):
    """One of some words."""

    def __init__(self, *choices: str):
        self.choices = choices

    def read(self, tokens: Tokens, version: int) -> str:
        return tokens.one_of(self.choices)

    def made(self, value: Any) -> str:
        if value not in self.choices:
            raise InputFault(f"{value!r} is none of {', '.join(self.choices)}")
        return value


class Mode(OneOf):
    """One of some words, or nothing."""

    def read(self, tokens: Tokens, version: int) -> Any:
        return tokens.take() if tokens.kind == "word" and tokens.text in self.choices else None

    def made(self, value: Any) -> Any:
        return None if value is None else super().made(value)

    def text(self, value: Any) -> str:
        return value or ""


class TermText(Operand):
    """A term."""

    def read(self, tokens: Tokens, version: int) -> Term:
        return read_term(tokens)

    def made(self, value: Any) -> Term:
        return term_of(value)


class Identities(Operand):
    """Identities `(x y) = x`, at least one; each is the variables at the places, and the variable on the right."""

    def __init__(self, *variables: str):
        self.variables = variables

    def _read_one(self, tokens: Tokens) -> Tuple[Tuple[str, ...], str]:
        tokens.need("(")
        places = [tokens.one_of(self.variables)]
        while not tokens.takes(")"):
            places.append(tokens.one_of(self.variables))
        tokens.need("=")
        return tuple(places), tokens.one_of(self.variables)

    def read(self, tokens: Tokens, version: int) -> Tuple[Tuple[Tuple[str, ...], str], ...]:
        found = [self._read_one(tokens)]
        while tokens.text == "(":
            found.append(self._read_one(tokens))
        return tuple(found)

    def made(self, value: Any) -> Tuple[Tuple[Tuple[str, ...], str], ...]:
        if isinstance(value, str):
            tokens = Tokens(value)
            found = self.read(tokens, 1)
            if tokens.kind != "end":
                tokens.fault("word")
            return found
        return self.made(self.text([(tuple(places), right) for places, right in value]))

    def text(self, value: Any) -> str:
        return " ".join(f"({' '.join(places)}) = {right}" for places, right in value)


class Names(Operand):
    """`(meet join)`: names of operations, at least one."""

    def read(self, tokens: Tokens, version: int) -> Tuple[str, ...]:
        tokens.need("(")
        found = [tokens.word("name")]
        while not tokens.takes(")"):
            found.append(tokens.word("word"))
        return tuple(found)

    def made(self, value: Any) -> Tuple[str, ...]:
        if isinstance(value, str) or not value:
            raise InputFault(f"{value!r} is no list of names of operations")
        return tuple(map(word_of, value))

    def text(self, value: Any) -> str:
        return f"({' '.join(value)})"


class Json(Operand):
    """A certificate, up to the end of its line; one character for each byte."""

    def read(self, tokens: Tokens, version: int) -> str:
        if tokens.kind != "json":
            tokens.fault("word")
        return tokens.take()

    def made(self, value: Any) -> str:
        text = latin(value if isinstance(value, str) else value.text())
        if not text.startswith("{") or "\n" in text:
            raise InputFault("a certificate is one line that begins with {")
        return text


class Pick(Operand):
    """A word of a table, and the operands of its row; the value is the word and theirs."""

    def __init__(self, rows: Dict[str, Tuple[Operand, ...]]):
        self.rows = rows

    def read(self, tokens: Tokens, version: int) -> Tuple[Any, ...]:
        word = tokens.one_of(tuple(self.rows))
        return (word, *read_operands(self.rows[word], tokens, version))

    def made(self, value: Any) -> Tuple[Any, ...]:
        word, *values = value
        if word not in self.rows:
            raise InputFault(f"{word!r} is none of {', '.join(self.rows)}")
        return (word, *made_operands(self.rows[word], values))

    def text(self, value: Any) -> str:
        word, *values = value
        return " ".join([word, *operand_texts(self.rows[word], values)])

    def words(self, value: Any) -> bool:
        word, *values = value
        return any(operand.words(given) for operand, given in paired(self.rows[word], values))


def paired(operands: Tuple[Operand, ...], values: Iterable[Any]) -> List[Tuple[Operand, Any]]:
    """Each operand with its value, marks left out."""
    return list(zip([operand for operand in operands if operand.has_value], values))


def read_operands(operands: Tuple[Operand, ...], tokens: Tokens, version: int) -> List[Any]:
    """Takes the operands, and answers their values."""
    values = [(operand, operand.read(tokens, version)) for operand in operands]
    return [value for operand, value in values if operand.has_value]


def made_operands(operands: Tuple[Operand, ...], values: Iterable[Any]) -> List[Any]:
    """The values of the operands, of those given in Python."""
    given = list(values)
    wanted = [operand for operand in operands if operand.has_value]
    if len(given) < len(wanted) and isinstance(wanted[-1], Mode):
        given.append(None)
    if len(given) != len(wanted):
        raise InputFault(f"{len(given)} operands are given, and {len(wanted)} are needed")
    return [operand.made(value) for operand, value in zip(wanted, given)]


def operand_texts(operands: Tuple[Operand, ...], values: Iterable[Any]) -> List[str]:
    """The texts of the operands, without those that are empty."""
    rest = iter(values)
    texts = [operand.text(next(rest) if operand.has_value else None) for operand in operands]
    return [text for text in texts if text]


