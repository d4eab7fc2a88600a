"""What may go wrong: every exception of this package is a `UacalcError`."""

from __future__ import annotations

from typing import Any, NamedTuple, Optional, Sequence, Tuple, Union


class Place(NamedTuple):
    """A place of a text: lines are counted from 1 by LF, columns from 1 by bytes."""

    line: int
    column: int

    def __str__(self) -> str:
        return f"{self.line}:{self.column}"


def place_of(text: str, start: int) -> Place:
    """The place of a character of a text that has one character for each byte."""
    return Place(text.count("\n", 0, start) + 1, start - text.rfind("\n", 0, start))


class UacalcError(Exception):
    """What the exceptions of this package have in common."""


class InputFault(UacalcError):
    """A value, or a text that is converted, is not what it should be.

    `place` is a place of the text, a word that names what is at fault, or nothing.
    """

    def __init__(self, message: str, place: Union[Place, str, None] = None):
        super().__init__(f"{place} {message}" if place else message)
        self.message = message
        self.place = place


class ScriptFault(UacalcError):
    """A text is no script.

    `place` is the first token with which no script begins, or the end of the text; `kind` is `end`, `byte`, `value`,
    `number`, `name`, `item`, `term` or `word`: the words of the program's line `syntax LINE:COLUMN KIND`.
    """

    def __init__(self, kind: str, place: Place):
        super().__init__(f"syntax {place} {kind}")
        self.kind = kind
        self.place = place


class ReplyFault(UacalcError):
    """A text is not the replies to a script, or is cut. `place` is where it stops being such a text."""

    def __init__(self, message: str, place: Place):
        super().__init__(f"{place} {message}")
        self.message = message
        self.place = place


class CommandError(UacalcError):
    """A command got a line `error ..` in place of an answer.

    `kind` is `unknown`, `range`, `shape`, `congruence`, `signature`, `size` or `wide`. `place` is the place in the
    script that the program tells, but for `wide`; `token` is what stands there, and `command` the text of the command.
    `clash` is, for `congruence`, the operation and the two tuples that show that the partition is no congruence;
    `records` and `cells` are set for `wide`.
    """

    def __init__(
        self,
        kind: str,
        place: Optional[Place] = None,
        clash: Optional[Tuple[str, Tuple[int, ...], Tuple[int, ...]]] = None,
        records: Optional[int] = None,
        cells: Optional[int] = None,
    ):
        self.kind = kind
        self.place = place
        self.clash = clash
        self.records = records
        self.cells = cells
        self.token: Optional[str] = None
        self.command: Optional[str] = None
        super().__init__(kind)

    def __str__(self) -> str:
        pieces = ["error", self.kind]
        if self.place:
            pieces.append(str(self.place))
        if self.clash:
            operation, first, second = self.clash
            pieces += [operation, *(f"[{' '.join(map(str, args))}]" for args in (first, second))]
        if self.records is not None:
            pieces += [str(self.records), str(self.cells)]
        line = " ".join(pieces)
        if self.token:
            line += f", at `{self.token}`"
        return f"{line}, in `{self.command}`" if self.command else line


class ProgramError(UacalcError):
    """The program is missing, was killed, or ended otherwise than with its replies.

    `status` is its status as `subprocess` tells it (below 0 where a signal ended it), or nothing where it did not start;
    `message` is its line on standard error, or what the system says.
    """

    def __init__(self, message: str, status: Optional[int] = None):
        super().__init__(message if status is None else f"status {status}: {message}")
        self.message = message
        self.status = status


class TimeLimit(UacalcError):
    """The program was ended because its time was over. `answers` are those that were whole by then."""

    def __init__(self, seconds: float, answers: Sequence[Any]):
        super().__init__(f"no end after {seconds} seconds, with {len(answers)} answers")
        self.seconds = seconds
        self.answers = list(answers)


class Undecided(UacalcError):
    """A truth value was asked of an answer `exceeds`, which is neither yes nor no."""
