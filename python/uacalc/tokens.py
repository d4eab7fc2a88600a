"""The tokens of scripts: words, numbers, marks and certificates, each the longest that fits at its place."""

from __future__ import annotations

import re
from typing import List, NoReturn, Optional, Tuple, Union

from .faults import Place, ScriptFault, place_of
from .limits import NUMBER_DIGITS, WORD_BYTES

WORD = re.compile(r"[A-Za-z][A-Za-z0-9_]{0,%d}" % (WORD_BYTES - 1))
NUMBER = re.compile(r"0|[1-9][0-9]{0,%d}" % (NUMBER_DIGITS - 1))
RESERVED = re.compile(r"gen|x[0-9]+")
VARIABLE = re.compile(r"x([0-9]+)")
GAP = re.compile(r"(?:[ \t\r\n]|#[^\n]*)*")
PIECE = re.compile(r"(?P<word>[A-Za-z][A-Za-z0-9_]*)|(?P<number>[0-9]+)|(?P<mark>[\[\](),=|])|(?P<json>\{[^\n]*)")
NUMBERS = re.compile(r"(?:(?:0|[1-9][0-9]{0,%d})[ \t\r\n]+)*" % (NUMBER_DIGITS - 1))

Text = Union[str, bytes]


def is_name(word: object) -> bool:
    """Whether this is a word of the language: a letter, then letters, digits and `_`; at most 32 bytes."""
    return isinstance(word, str) and WORD.fullmatch(word) is not None


def is_operation_name(word: object) -> bool:
    """Whether an operation may have this name: a word other than `gen` and than `x` with digits."""
    return is_name(word) and RESERVED.fullmatch(str(word)) is None


def latin(text: Text) -> str:
    """A text with one character for each of its bytes, in UTF-8 where it is given as characters."""
    return (text.encode() if isinstance(text, str) else bytes(text)).decode("latin-1")


class Tokens:
    """The tokens of a text, taken one after another.

    `kind` is that of the next token: `word`, `number`, `mark`, `json`, `bad`, or `end` after the last one; `text` is
    the token, and `start` the number of bytes before it.
    """

    def __init__(self, text: Text):
        self.source = latin(text)
        self.kind = ""
        self.text = ""
        self.start = 0
        self._line, self._line_start, self._seen = 1, 0, 0
        self._move(0)

    def _move(self, end: int) -> None:
        behind_number = self.kind == "number"
        self.start = GAP.match(self.source, end).end()  # type: ignore[union-attr]
        piece = PIECE.match(self.source, self.start)
        if piece is None:
            self.text = self.source[self.start : self.start + 1]
            self.kind = "bad" if self.text else "end"
            return
        self.kind = str(piece.lastgroup)
        self.text = piece.group()
        form = {"word": WORD, "number": NUMBER}.get(self.kind)
        glued = behind_number and self.start == end and self.kind == "word"
        if glued or (form is not None and not form.fullmatch(self.text)):
            self.kind = "bad"

    @property
    def place(self) -> Place:
        """The place of the next token, or of the end."""
        self._line += self.source.count("\n", self._seen, self.start)
        self._line_start = max(self._line_start, self.source.rfind("\n", self._seen, self.start) + 1)
        self._seen = self.start
        return Place(self._line, self.start - self._line_start + 1)

    def fault(self, kind: str) -> NoReturn:
        """The fault that no script goes on with the next token: of this kind, but for a bad token and for the end."""
        kind = {"end": "end", "bad": "byte"}.get(self.kind, kind)
        raise ScriptFault(kind, place_of(self.source, self.start))

    def take(self) -> str:
        """The next token, whatever it is."""
        text = self.text
        self._move(self.start + len(text))
        return text

    def takes(self, text: str) -> bool:
        """Takes the next token where it is this word or mark."""
        if self.text != text or self.kind not in ("word", "mark"):
            return False
        self.take()
        return True

    def need(self, text: str) -> None:
        """Takes the next token, which is to be this word or mark."""
        if not self.takes(text):
            self.fault("word")

    def number(self, kind: str, low: int = 0, high: Optional[int] = None) -> int:
        """Takes a number within these bounds."""
        if self.kind != "number" or int(self.text) < low or (high is not None and int(self.text) > high):
            self.fault(kind)
        return int(self.take())

    def word(self, kind: str) -> str:
        """Takes a word."""
        if self.kind != "word":
            self.fault(kind)
        return self.take()

    def one_of(self, words: Tuple[str, ...]) -> str:
        """Takes one of these words."""
        if self.kind != "word" or self.text not in words:
            self.fault("word")
        return self.take()

    def numbers(self, count: int, below: int) -> List[int]:
        """Takes up to so many plain numbers below a bound: quickly, and fewer where something else stands among them."""
        run = NUMBERS.match(self.source, self.start)
        limit = min(run.end(), self.start + (NUMBER_DIGITS + 1) * count)  # type: ignore[union-attr]
        found = [int(word) for word in self.source[self.start : limit].split()[:-1]][:count]
        good = next((at for at, value in enumerate(found) if value >= below), len(found))
        if good == 0:
            return []
        ends = re.compile(r"(?:[0-9]+[ \t\r\n]+){%d}" % good).match(self.source, self.start)
        self.kind = ""
        self._move(ends.end())  # type: ignore[union-attr]
        return found[:good]
