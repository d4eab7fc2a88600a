"""Models as Mace4 prints them.

Each `interpretation( SIZE, [..], [ function(..), .. ] )` of a text is an algebra, and what stands around it is passed
over. A function whose symbol is no name of an operation gets another name, and a comment says which. Relations are left
out, and a comment says so. Where each element is a constant whose symbol is a word, these are the names of the elements.
"""

from __future__ import annotations

import itertools
import re
from typing import Dict, Iterable, List, Optional, Tuple

from ..algebra import Algebra, Operation
from ..limits import ARITY, NUMBER_DIGITS, OPERATIONS, SIZES
from ..tokens import Text, is_name, is_operation_name
from .source import Misfit, placed

DIGITS = re.compile(r"[0-9]{1,%d}" % NUMBER_DIGITS)
START = re.compile(r"\binterpretation\s*(?=\()")
BLANK = re.compile(r"(?:\s|%[^\n]*)*")
TOKEN = re.compile(r'[A-Za-z0-9_$]+|"[^"\n]*"|[^\sA-Za-z0-9_$"()\[\],.%]+|[()\[\],.]')
WORDS = {
    "*": "times",
    "+": "plus",
    "-": "minus",
    "'": "prime",
    "^": "wedge",
    "/": "over",
    "\\": "under",
    "~": "tilde",
    "@": "at",
}


class Tokens:
    """The tokens from a place of the text on, taken one after another."""

    def __init__(self, text: str, start: int):
        self.text = text
        self.at = start
        self.token = ""
        self._move(start)

    def _move(self, start: int) -> None:
        self.at = BLANK.match(self.text, start).end()  # type: ignore[union-attr]
        token = TOKEN.match(self.text, self.at)
        self.token = token.group() if token else ""

    def fault(self, needed: str) -> Misfit:
        """That something else is needed than the next token."""
        found = f"`{self.token}` stands here" if self.token else "the input ends"
        return Misfit(self.at, f"{needed} is needed, and {found}")

    def take(self, token: Optional[str] = None) -> str:
        """The next token, which is to be this one."""
        taken = self.token
        if not taken or token not in (None, taken):
            raise self.fault(f"`{token}`" if token else "more")
        self._move(self.at + len(taken))
        return taken

    def takes(self, token: str) -> bool:
        """Takes the next token where it is this one."""
        if self.token == token:
            self.take()
            return True
        return False

    def number(self, low: int, high: int) -> int:
        """Takes a number within these bounds."""
        if not DIGITS.fullmatch(self.token) or not low <= int(self.token) <= high:
            raise self.fault(f"a number from {low} to {high}")
        return int(self.take())


def skip_list(tokens: Tokens) -> None:
    """Passes over a list with all lists in it."""
    tokens.take("[")
    depth = 1
    while depth:
        depth += {"[": 1, "]": -1}.get(tokens.take(), 0)


def head(tokens: Tokens) -> Tuple[str, int]:
    """A symbol and how many arguments it has: `*(_,_)`."""
    if tokens.token in ("", "(", ")", "[", "]", ",", "."):
        raise tokens.fault("a symbol")
    symbol = tokens.take()
    arity = 0
    if tokens.takes("("):
        tokens.take("_")
        arity = 1
        while tokens.takes(","):
            tokens.take("_")
            arity += 1
        tokens.take(")")
    return symbol, arity


def values(tokens: Tokens, size: int, count: int) -> Tuple[int, ...]:
    """Takes a list of so many elements."""
    start = tokens.at
    tokens.take("[")
    found = [] if tokens.token == "]" else [tokens.number(0, size - 1)]
    while tokens.takes(","):
        found.append(tokens.number(0, size - 1))
    tokens.take("]")
    if len(found) != count:
        raise Misfit(start, f"the list has {len(found)} values, and {count} are needed")
    return tuple(found)


def word_of(symbol: str, index: int, taken: Iterable[str]) -> str:
    """A name for a symbol that is not taken."""
    word = WORDS.get(symbol, symbol)
    if not is_operation_name(word):
        word = f"f{index}"
    others = (f"{word[:28]}_{number}" for number in itertools.count(1))
    return next(name for name in itertools.chain([word], others) if name not in taken)


class Model:
    """A model, read to its end."""

    def __init__(self, tokens: Tokens):
        self.operations: Dict[str, Operation] = {}
        self.comments: List[str] = []
        self.constants: Dict[int, str] = {}
        tokens.take("(")
        self.size = tokens.number(1, SIZES[2])
        tokens.take(",")
        skip_list(tokens)
        tokens.take(",")
        tokens.take("[")
        if tokens.token != "]":
            self._read_table(tokens)
        while tokens.takes(","):
            self._read_table(tokens)
        tokens.take("]")
        tokens.take(")")

    def _read_table(self, tokens: Tokens) -> None:
        start = tokens.at
        kind = tokens.token
        if kind not in ("function", "relation"):
            raise tokens.fault("`function` or `relation`")
        tokens.take()
        tokens.take("(")
        symbol, arity = head(tokens)
        tokens.take(",")
        if kind == "relation":
            skip_list(tokens)
            self.comments.append(f"the relation {symbol} is left out")
        else:
            self._add(start, symbol, arity, tokens)
        tokens.take(")")

    def _add(self, start: int, symbol: str, arity: int, tokens: Tokens) -> None:
        if arity > ARITY:
            raise Misfit(start, f"{symbol} has {arity} arguments, and {ARITY} are possible")
        if len(self.operations) == OPERATIONS:
            raise Misfit(start, f"more than {OPERATIONS} functions")
        word = word_of(symbol, len(self.operations), self.operations)
        if word != symbol:
            self.comments.append(f"{word} stands for {symbol}")
        operation = Operation(arity, values(tokens, self.size, self.size**arity))
        self.operations[word] = operation
        if arity == 0 and is_name(symbol):
            self.constants.setdefault(operation.values[0], symbol)

    def algebra(self, name: str) -> Algebra:
        """The algebra, whose elements have names where each is a constant."""
        is_named = len(self.constants) == self.size
        names = [self.constants[element] for element in range(self.size)] if is_named else []
        return Algebra(name, self.size, self.operations, names, self.comments)


def models(source: str) -> List[Model]:
    """The models of a text, at least one."""
    found = []
    start = START.search(source)
    while start:
        tokens = Tokens(source, start.end())
        found.append(Model(tokens))
        start = START.search(source, tokens.at)
    if not found:
        raise Misfit(len(source), "there is no interpretation")
    return found


def read_mace4(text: Text, name: str = "A") -> List[Algebra]:
    """The algebras of the models; several have the name with 0, 1, .. after it. `InputFault` where there is none."""
    found = placed(text, models)
    names = [name] if len(found) == 1 else [f"{name}{index}" for index in range(len(found))]
    return [model.algebra(word) for word, model in zip(names, found)]
