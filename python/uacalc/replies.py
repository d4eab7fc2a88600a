"""Replies, read strictly against the script that they answer: every byte is accounted for.

Nothing stands between two replies and none repeats its command, so a reply is read by its command: how many rows there
are, how wide, over which algebra, and which operations, generators and elements it may name.
"""

from __future__ import annotations

import re
from typing import Any, Dict, Iterable, Iterator, Optional, Union

from . import answers
from .algebra import Algebra
from .certificates import Certificate, CertificateFault
from .commands import Command
from .faults import CommandError, Place
from .reply_lines import NUM, Lines, Scope, count_in
from .reply_reader import ReplyReader
from .script import Script
from .tokens import Text, latin

Answer = Any  # an object of `answers`, `lattices` or `partitions`, an Algebra, a Certificate, a number or a tuple

PLACED = re.compile(rf"error (unknown|range|shape|signature|size) ({NUM}):({NUM})")
WIDE = re.compile(rf"error wide ({NUM}) ({NUM})")
CLASH = re.compile(rf"error congruence ({NUM}):({NUM}) (\w+) \[({NUM}(?: {NUM})*)\] \[({NUM}(?: {NUM})*)\]")
CERTIFICATES = {
    "close": ("listing",),
    "member": ("member", "not_member"),
    "cond": ("condition", "no_condition"),
    "nu": ("condition", "no_condition"),
    "jonsson": ("chain", "no_chain"),
    "hm": ("chain", "no_chain"),
}


class Replies:
    """The answers to the commands of a script, in their order, read from the lines of its replies as they come.

    An answer is an object of this package, or a `CommandError` that is not raised. What is not the replies to this script
    raises `ReplyFault`; so does what is cut, or stands after them. `text` is the script's text, where it is not the one
    that the script writes, and `budget` the one that the program was given, where it is known.
    """

    def __init__(
        self, script: Script, lines: Iterable[bytes], text: Optional[Text] = None, budget: Optional[int] = None
    ):
        self.script = script
        self.lines = Lines(lines)
        self.budget = budget
        self._text = latin(script.text() if text is None else text).split("\n")
        self._algebras: Dict[str, Algebra] = {}
        self._scopes: Dict[str, Scope] = {}

    def __iter__(self) -> Iterator[Union[Answer, CommandError]]:
        followers = iter([*self.script.commands[1:], None])
        for item in self.script.items:
            if isinstance(item, Algebra):
                self._put(item)
            else:
                yield self._answer(item, next(followers))
        if self.lines.peek() is not None:
            self.lines.take("nothing")
            self.lines.fault("nothing may stand after the last reply")

    def _put(self, algebra: Algebra) -> None:
        self._algebras[algebra.name] = algebra
        self._scopes[algebra.name] = Scope(algebra)

    def _answer(self, command: Command, following: Optional[Command]) -> Union[Answer, CommandError]:
        line = self.lines.take(f"the reply to `{command.word}`")
        if line.startswith("error "):
            return self._error(command, line)
        unknown = [name for name in command.algebras if name not in self._algebras]
        if unknown:
            self.lines.fault(f"`error unknown` is needed: there is no algebra {unknown[0]}")
        algebras = [self._algebras[name] for name in command.algebras]
        if command.cert:
            exceeds = self._exceeds(line)
            return self._certificate(command, line) if exceeds is None else exceeds
        reader = ReplyReader(self.lines, command, algebras, [self._scopes[algebra.name] for algebra in algebras], self)
        reader.following = following
        answer = getattr(reader, command.form.reply)(line)
        if command.makes:
            self._put(answer)
        return answer

    def _exceeds(self, line: str) -> Optional[answers.Exceeds]:
        budget = count_in(self.lines, line, "exceeds")
        if budget is None:
            return None
        self.check_budget(budget)
        return answers.Exceeds(budget)

    def check_budget(self, budget: int) -> None:
        """The budget of an `exceeds` is that of the program."""
        if self.budget not in (None, budget):
            self.lines.fault(f"the budget is {self.budget}")

    def _certificate(self, command: Command, line: str) -> Certificate:
        try:
            certificate = Certificate.read(line.encode("latin-1"))
        except CertificateFault as fault:
            self.lines.fault(f"a certificate is needed: {fault}")
        if certificate.kind not in CERTIFICATES[command.word] or certificate.text() != line:
            self.lines.fault(f"a certificate of `{command.word}` is needed, as the program writes it")
        return certificate

    def _error(self, command: Command, line: str) -> CommandError:
        placed, wide, clash = PLACED.fullmatch(line), WIDE.fullmatch(line), CLASH.fullmatch(line)
        if wide:
            error = CommandError("wide", records=int(wide.group(1)), cells=int(wide.group(2)))
        elif clash:
            tuples = [tuple(map(int, clash.group(number).split(" "))) for number in (4, 5)]
            place = Place(int(clash.group(1)), int(clash.group(2)))
            error = CommandError("congruence", place, (clash.group(3), tuples[0], tuples[1]))
        elif placed:
            error = CommandError(placed.group(1), Place(int(placed.group(2)), int(placed.group(3))))
        else:
            self.lines.fault("this is no error of a command")
        error.command = command.text()
        if error.place:
            error.token = self._token_at(error.place)
        return error

    def _token_at(self, place: Place) -> str:
        row = self._text[place.line - 1] if 1 <= place.line <= len(self._text) else ""
        token = re.match(r"\w+|[^\s\w]", row[place.column - 1 :]) if place.column >= 1 else None
        if token is None:
            self.lines.fault(f"the script has no token at {place}")
        return token.group()
