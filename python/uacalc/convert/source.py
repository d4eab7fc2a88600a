"""Faults of a text that is converted, at their places."""

from __future__ import annotations

from typing import Callable, Iterable, TypeVar

from ..algebra import Algebra
from ..faults import InputFault, place_of
from ..tokens import Text, latin

T = TypeVar("T")


class Misfit(Exception):
    """What is wrong with a text, at a character of it."""

    def __init__(self, start: int, message: str):
        super().__init__(message)
        self.start = start
        self.message = message


def placed(text: Text, read: Callable[[str], T]) -> T:
    """What is read of a text; a misfit becomes an `InputFault` with its line and column."""
    source = latin(text)
    try:
        return read(source)
    except Misfit as misfit:
        raise InputFault(misfit.message, place_of(source, misfit.start)) from None


def script_of(algebras: Iterable[Algebra]) -> str:
    """The blocks of algebras, after the line of version 2 where one needs it."""
    found = list(algebras)
    line = "version 2\n" if any(algebra.version == 2 for algebra in found) else ""
    return line + "".join(algebra.block() for algebra in found)
