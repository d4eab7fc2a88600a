"""One reply, read by its command: each method of `ReplyReader` reads the replies of one kind."""

from __future__ import annotations

import re
from typing import Any, List, Optional, Sequence, Tuple, Union

from . import answers
from .algebra import Algebra
from .commands import Command
from .conditions import CHAINS, condition, width_of
from .faults import ScriptFault
from .lattices import CongruenceLattice, TypedCover, Types
from .partitions import Partition
from .reply_lines import (
    NUM,
    Lines,
    Scope,
    count_in,
    counted,
    read_pair,
    read_partition,
    read_rows,
    read_steps,
    read_tail,
)
from .script import Script
from .terms import Steps

Frame = Tuple[Optional[int], Optional[int]]  # how many generators there are and how wide rows are, where that is known

TYPED = re.compile(rf"({NUM}) ({NUM}) (?:exceeds|type ([1-5]) pair ({NUM}) ({NUM}))")
VERDICT = re.compile(
    rf"cert json|cert shape(?: .+)?|cert range .+|"
    rf"flaw (?:width|target|vector (?:gens|rows|target) {NUM}|step {NUM}(?: {NUM})?|"
    rf"(?:order|rank|origin|generator|link|reached) {NUM}|result \w+(?: {NUM})*|identity {NUM} \[{NUM} {NUM}\])"
)


def frame_of(command: Command, algebra: Optional[Algebra]) -> Frame:
    """How many generators a command has, and how wide the rows of its reply are."""
    word, values = command.word, command.values
    if word in ("close", "member"):
        return len(values[2]), values[1]
    size = algebra.size if algebra else 0
    if word == "free":
        return values[1], size ** values[1] if algebra else None
    if word in CHAINS:
        chain = CHAINS[word]
        return chain.places, width_of(size, chain.patterns) if algebra else None
    if word in ("cond", "nu"):
        name, k = (values[1], 3) if word == "cond" else ("nu", values[1])
        rules = condition(name, k)
        return k, width_of(size, [rule.pattern for rule in rules]) if algebra and rules else None
    if word == "condition":
        letters = "".join(letter for places, right in values[2] for letter in (*places, right))
        variables = 1 + max(map("xyzw".index, letters))
        return values[1], len(values[2]) * size**variables if algebra else None
    if word == "clone":
        constants = size if values[2] == "polynomial" else 0
        return (values[1] + constants if algebra or not constants else None), len(values[3][1])
    return None, None


class ReplyReader:
    """Reads one reply, whose first line is taken. Each method reads the replies of one kind."""

    following: Optional[Command] = None

    def __init__(
        self,
        lines: Lines,
        command: Command,
        algebras: Sequence[Optional[Algebra]],
        scopes: Sequence[Scope],
        run: Any = None,
    ):
        self.lines = lines
        self.command = command
        self.algebra = algebras[0] if algebras else None
        self.scopes = scopes
        self.scope = scopes[0] if scopes else Scope(None)
        self.run = run

    @property
    def size(self) -> Optional[int]:
        """The number of elements, where the algebra is known."""
        return self.algebra.size if self.algebra else None

    def count(self, line: str, head: str) -> Optional[int]:
        """The number after these words."""
        return count_in(self.lines, line, head)

    def budget(self, line: str) -> Optional[int]:
        """The budget, where the line is an `exceeds`."""
        budget = self.count(line, "exceeds")
        if budget is not None and self.run is not None:
            self.run.check_budget(budget)
        return budget

    def rows(self, count: int) -> List[answers.Row]:
        """Rows of this command's listing."""
        generators, width = frame_of(self.command, self.algebra)
        return read_rows(self.lines, self.scope, count, width, generators)

    def steps(self, count: int, generators: Optional[int]) -> Steps:
        """Steps over so many generators."""
        return read_steps(self.lines, self.scope, count, generators)

    def exceeded(self, budget: int) -> answers.Exceeds:
        """The rows after an `exceeds`."""
        return answers.Exceeds(budget, answers.Rows(self.algebra, self.rows(budget + 1)))

    def no(self, what: str) -> Any:
        """The line is none that the reply may begin with."""
        self.lines.fault(f"{what} is needed")

    def closure(self, line: str) -> Union[answers.Listing, int, answers.Exceeds]:
        """Of `close` and `free`: the rows, or with `count` their number."""
        only_count = self.command.values[-1] == "count"
        budget, closed = self.budget(line), self.count(line, "closed")
        if budget is not None:
            return answers.Exceeds(budget) if only_count else self.exceeded(budget)
        if closed is None:
            return self.no("`closed N` or `exceeds N`")
        return closed if only_count else answers.Listing(self.algebra, self.rows(closed))

    def membership(self, line: str) -> Union[answers.Yes, answers.No, answers.Exceeds]:
        """Of `member`, `cond`, `nu`, `condition` and `clone`: steps, or rows."""
        budget, yes, no = self.budget(line), self.count(line, "yes"), self.count(line, "no")
        if budget is not None:
            return self.exceeded(budget)
        if no is not None:
            return answers.No(self.algebra, self.rows(no))
        if yes is None:
            return self.no("`yes N`, `no N` or `exceeds N`")
        polynomial = self.command.word == "clone" and self.command.values[2] == "polynomial"
        generators, _ = frame_of(self.command, self.algebra)
        variables = self.command.values[1] if polynomial else None
        return answers.Yes(read_steps(self.lines, self.scope, yes, generators, variables))

    def chain(self, line: str) -> Union[answers.Chain, answers.NoChain, answers.Exceeds]:
        """Of `jonsson`, `hm` and `day`: terms, or rows and what is reached."""
        budget, length, no = self.budget(line), self.count(line, "chain"), self.count(line, "no")
        if budget is not None:
            return self.exceeded(budget)
        if length is not None:
            return answers.Chain(tuple(self._term(number) for number in range(length + 1)))
        if no is None:
            return self.no("`chain N`, `no N` or `exceeds N`")
        rows = self.rows(no)
        even = read_tail(self.lines, "reached even", no)
        odd = read_tail(self.lines, "reached odd", no) if CHAINS[self.command.word].by_parity else ()
        return answers.NoChain(self.algebra, rows, even, odd)

    def _term(self, number: int) -> Steps:
        return self.steps(counted(self.lines, f"term {number} steps"), CHAINS[self.command.word].places)

    def _set(self, text: str) -> Tuple[int, ...]:
        if not (text.startswith("{") and text.endswith("}")):
            self.lines.fault("a set of elements is needed")
        found = self.scope.elements(self.lines, text[1:-1])
        if list(found) != sorted(set(found)):
            self.lines.fault("the elements are not ascending")
        return found

    def elements(self, line: str) -> Tuple[int, ...]:
        """Of `sub`: a set."""
        return self._set(line)

    def ones(self, line: str) -> Tuple[Tuple[int, ...], ...]:
        """Of `ones`: a set for each element."""
        count = self.count(line, "ones")
        if count is None or self.size not in (None, count):
            return self.no("`ones N` with the number of elements")

        def read(number: int) -> Tuple[int, ...]:
            word, _, text = self.lines.take("an element and what it generates").partition(" ")
            if self.scope.element(self.lines, word) != number:
                self.lines.fault(f"element {number} is needed")
            return self._set(text)

        return tuple(read(number) for number in range(count))

    def homomorphism(self, line: str) -> Union[answers.Homomorphism, answers.Clash, answers.Exceeds]:
        """Of `hom`: a map, or a clash."""
        budget, count = self.budget(line), self.count(line, "map")
        if budget is not None:
            return answers.Exceeds(budget)
        if count is not None:
            images = dict(self._image(self.lines.take("an element and its image")) for _ in range(count))
            if len(images) != count:
                self.lines.fault("an element has two images")
            return answers.Homomorphism(images)
        words = line.split(" ")
        if len(words) != 4 or words[0] != "clash":
            return self.no("`map N`, `clash A B C` or `exceeds N`")
        element, first = self._image(" ".join(words[1:3]))
        _, second = self._image(" ".join([words[1], words[3]]))
        generators = len(self.command.values[2])
        steps = [self.steps(counted(self.lines, "steps"), generators) for _ in range(2)]
        return answers.Clash(element, (first, second), (steps[0], steps[1]))

    def _image(self, text: str) -> Tuple[int, int]:
        words = text.split(" ")
        if len(words) != 2:
            self.lines.fault("an element and its image are needed")
        return self.scopes[0].element(self.lines, words[0]), self.scopes[1].element(self.lines, words[1])

    def value(self, line: str) -> int:
        """Of `eval`: an element."""
        word, _, text = line.partition(" ")
        return self.scope.element(self.lines, text) if word == "value" else self.no("`value A`")

    def identity(self, line: str) -> Union[answers.Holds, answers.Fails]:
        """Of `holds`: that it holds, or where it fails."""
        if line == "holds":
            return answers.Holds()
        if not (line.startswith("fails [") and line.endswith("]")):
            return self.no("`holds` or `fails [..]`")
        assignment = self.scope.elements(self.lines, line[len("fails [") : -1])
        if len(assignment) != max(term.variables() for term in self.command.values[1:]):
            self.lines.fault("an element for each variable is needed")
        return answers.Fails(assignment)

    def partition(self, line: str) -> Partition:
        """Of `cg`: a partition."""
        return read_partition(self.lines, line, self.size)

    def commutator(self, line: str) -> Union[Partition, answers.Exceeds]:
        """Of `comm`: a partition."""
        budget = self.budget(line)
        return self.partition(line) if budget is None else answers.Exceeds(budget)

    def _partitions(self, count: int, numbered: bool) -> Tuple[Partition, ...]:
        def read(number: int) -> Partition:
            line = self.lines.take(f"congruence {number}")
            front, _, text = line.partition(" ") if numbered else (str(number), "", line)
            if front != str(number):
                self.lines.fault(f"congruence {number} is needed")
            return read_partition(self.lines, text, self.size)

        return tuple(read(number) for number in range(count))

    def lattice(self, line: str) -> Union[CongruenceLattice, answers.Exceeds]:
        """Of `con`: the congruences, their covers and the join irreducible ones."""
        budget, count = self.budget(line), self.count(line, "congruences")
        if budget is not None:
            return answers.Exceeds(budget, None, self._partitions(budget + 1, False))
        if not count:
            return self.no("`congruences N` or `exceeds N`")
        congruences = self._partitions(count, True)
        pairs = range(counted(self.lines, "covers"))
        covers = tuple(read_pair(self.lines, self.lines.take("a cover"), count) for _ in pairs)
        return CongruenceLattice(self.algebra, congruences, covers, read_tail(self.lines, "join irreducibles", count))

    def types(self, line: str) -> Union[Types, answers.Exceeds]:
        """Of `types`: the type of each cover."""
        budget, count = self.budget(line), self.count(line, "types")
        if budget is not None:
            return answers.Exceeds(budget)
        if count is None:
            return self.no("`types N` or `exceeds N`")
        return Types(self.algebra, tuple(self._typed() for _ in range(count)))

    def _typed(self) -> TypedCover:
        found = TYPED.fullmatch(self.lines.take("a type"))
        if found is None:
            return self.no("`type T` with a number from 1 to 5, or `exceeds`,")
        lower, upper = int(found[1]), int(found[2])
        number, pair = (int(found[3]), (int(found[4]), int(found[5]))) if found[3] is not None else (None, None)
        if lower >= upper or (self.size is not None and pair is not None and max(pair) >= self.size):
            self.lines.fault("a cover and a pair of elements are needed")
        return TypedCover(lower, upper, number, pair)

    def centrality(self, line: str) -> Union[answers.Central, answers.NotCentral, answers.Exceeds]:
        """Of `central`: that it centralizes, or a matrix."""
        budget = self.budget(line)
        if budget is not None:
            return answers.Exceeds(budget)
        if line == "central yes":
            return answers.Central()
        if not (line.startswith("central no [") and line.endswith("]")):
            return self.no("`central yes`, `central no [..]` or `exceeds N`")
        matrix = self.scope.elements(self.lines, line[len("central no [") : -1])
        if len(matrix) != 4:
            self.lines.fault("a matrix of four elements is needed")
        generators = sum(len(block) ** 2 for blocks in self.command.values[1:3] for block in blocks)
        return answers.NotCentral(matrix, self.steps(counted(self.lines, "steps"), generators))

    def series(self, line: str) -> Union[answers.Series, answers.Exceeds]:
        """Of `series`: its members."""
        budget, count = self.budget(line), self.count(line, "series")
        if count is not None:
            return answers.Series(self.command.values[1], self._partitions(count, False))
        if budget is None:
            return self.no("`series N` or `exceeds N`")
        members = []
        while (self.lines.peek() or "").startswith("|"):
            members.append(read_partition(self.lines, self.lines.take("a partition"), self.size))
        if self.following is not None and self.following.word in ("cg", "comm"):
            self.lines.fault(f"where the series ends and the reply to `{self.following.word}` begins cannot be told")
        return answers.Exceeds(budget, None, tuple(members))

    def block(self, line: str) -> Algebra:
        """Of `make`: a block."""
        lines = [line]
        while lines[-1] != "end":
            lines.append(self.lines.take("`end`"))
            if not re.match(r"op |end\Z", lines[-1]):
                return self.no("an operation or `end`")
        text = "\n".join([*lines, ""])
        try:
            items = Script.parse("version 2\n" + text).items
        except ScriptFault as fault:
            self.lines.fault(f"a block is needed: {fault}")
        algebra = items[0]
        if len(items) != 1 or not isinstance(algebra, Algebra) or algebra.canonical() != text:
            self.lines.fault("a block is needed, as the program writes it")
        if algebra.name != self.command.values[0]:
            self.lines.fault(f"the block of {self.command.values[0]} is needed")
        return algebra

    def verdict(self, line: str) -> answers.Verdict:
        """Of `check`: that a certificate is valid, or what is wrong with it."""
        if line == "valid":
            return answers.Valid()
        if not VERDICT.fullmatch(line):
            return self.no("`valid`, or what is wrong with the certificate")
        return answers.Invalid(line.encode("latin-1").decode(errors="replace"))
