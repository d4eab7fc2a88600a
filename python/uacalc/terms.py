"""Terms, polynomials, and lists of steps that write them.

A term is a tree of variables and operations (S. Burris, H. P. Sankappanavar, *A Course in Universal Algebra*, chapter II);
in a polynomial elements may stand too. Trees share their parts: a term that comes of steps has one node for each step,
though its text may be exponentially longer.
"""

from __future__ import annotations

from dataclasses import dataclass
from typing import TYPE_CHECKING, Callable, Dict, Iterator, List, Mapping, Optional, Sequence, Tuple, TypeVar, Union

from .faults import InputFault
from .limits import NESTING
from .tokens import VARIABLE, Tokens

if TYPE_CHECKING:
    from .algebra import Algebra

T = TypeVar("T")

LONGEST = 100_000  # characters of a text that are made without being asked for

INFIX = {
    "meet": r"\wedge",
    "join": r"\vee",
    "and": r"\wedge",
    "or": r"\vee",
    "plus": "+",
    "minus": "-",
    "times": r"\cdot",
    "mul": r"\cdot",
}


class Term:
    """A variable, an element, or an operation at terms."""

    def parts(self) -> Tuple["Term", ...]:
        """The arguments, none where this is a variable, an element or a constant."""
        return ()

    def head(self) -> str:
        """What is written in front of the arguments."""
        raise NotImplementedError

    def fold(self, combine: Callable[["Term", List[T]], T]) -> T:
        """What `combine` makes of each node and of what it made of its arguments; each shared node is visited once."""
        made: Dict[int, T] = {}
        waiting: List[Term] = [self]
        while waiting:
            top = waiting[-1]
            missing = [part for part in top.parts() if id(part) not in made]
            if missing:
                waiting += missing
                continue
            waiting.pop()
            if id(top) not in made:
                made[id(top)] = combine(top, [made[id(part)] for part in top.parts()])
        return made[id(self)]

    def length(self) -> int:
        """The number of characters of the text."""
        return self.fold(lambda node, lengths: len(node.head()) + sum(lengths) + 2 * len(lengths))

    def depth(self) -> int:
        """The number of parentheses that are open at once in the text."""

        def deeper(_: Term, depths: List[int]) -> int:
            return 1 + max(depths) if depths else 0

        return self.fold(deeper)

    def text(self, limit: int = LONGEST) -> str:
        """The term as `eval` reads it, `meet(x0, x1)`; `InputFault` where it has more characters than the limit."""
        if self.length() > limit:
            raise InputFault(f"the term has more than {limit} characters")
        return "".join(self._pieces())

    def _pieces(self) -> Iterator[str]:
        waiting: List[Union[Term, str]] = [self]
        while waiting:
            top = waiting.pop()
            if isinstance(top, str):
                yield top
                continue
            yield top.head()
            parts = top.parts()
            if parts:
                yield "("
                waiting.append(")")
                for part in reversed(parts[1:]):
                    waiting += [part, ", "]
                waiting.append(parts[0])

    def __str__(self) -> str:
        return self.text()

    def latex(self, infix: Optional[Mapping[str, str]] = None, limit: int = LONGEST) -> str:
        """The term in LaTeX, variables as x_0, x_1, ..; operations of two arguments that `infix` names stand between them.

        `InputFault` where the text of the term has more characters than the limit.
        """
        if self.length() > limit:
            raise InputFault(f"the term has more than {limit} characters")
        signs = INFIX if infix is None else infix

        def written(node: Term, parts: List[str]) -> str:
            if isinstance(node, Variable):
                return f"x_{{{node.index}}}"
            if isinstance(node, Element):
                return str(node.element)
            if len(parts) == 2 and node.head() in signs:
                return f"({parts[0]} {signs[node.head()]} {parts[1]})"
            name = r"\mathrm{%s}" % node.head().replace("_", r"\_")
            return f"{name}({', '.join(parts)})" if parts else name

        text = self.fold(written)
        outer = isinstance(self, Application) and len(self.arguments) == 2 and self.operation in signs
        return text[1:-1] if outer else text

    def _repr_latex_(self) -> str:
        return f"${self.latex()}$"

    def tree(self, limit: int = LONGEST) -> str:
        """The term as a tree, a line for each node, arguments below their operation and further right."""
        if self.length() > limit:
            raise InputFault(f"the term has more than {limit} characters")
        lines = []
        waiting: List[Tuple[Term, int]] = [(self, 0)]
        while waiting:
            node, depth = waiting.pop()
            lines.append("  " * depth + node.head())
            waiting += [(part, depth + 1) for part in reversed(node.parts())]
        return "\n".join(lines)

    def variables(self) -> int:
        """One more than the greatest index of a variable, 0 where there is none."""
        return self.fold(lambda node, found: max([node.index + 1 if isinstance(node, Variable) else 0, *found]))

    def value(self, algebra: "Algebra", assignment: Sequence[int]) -> int:
        """The value in an algebra where x0, x1, .. are these elements."""

        def at(node: Term, values: List[int]) -> int:
            if isinstance(node, Variable):
                return assignment[node.index]
            if isinstance(node, Element):
                return node.element
            return algebra.value(node.head(), *values)

        return self.fold(at)


@dataclass(frozen=True)
class Variable(Term):
    """The variable x with this index, from 0."""

    index: int

    def head(self) -> str:
        return f"x{self.index}"


@dataclass(frozen=True)
class Element(Term):
    """An element that stands in a polynomial."""

    element: int

    def head(self) -> str:
        return str(self.element)


@dataclass(frozen=True)
class Application(Term):
    """An operation, by its name, at terms; a constant has none."""

    operation: str
    arguments: Tuple[Term, ...] = ()

    def parts(self) -> Tuple[Term, ...]:
        return self.arguments

    def head(self) -> str:
        return self.operation


def read_term(tokens: Tokens) -> Term:
    """Takes a term, as scripts write it."""
    finished: List[List[Term]] = [[]]
    heads: List[str] = []
    while True:
        word = tokens.word("term")
        variable = VARIABLE.fullmatch(word)
        if tokens.text == "(" and (variable or len(heads) == NESTING):
            tokens.fault("term")
        if not variable and tokens.takes("("):
            heads.append(word)
            finished.append([])
            continue
        finished[-1].append(Variable(min(int(variable.group(1)), 2**32 - 1)) if variable else Application(word))
        while heads and tokens.takes(")"):
            arguments = tuple(finished.pop())
            finished[-1].append(Application(heads.pop(), arguments))
        if not heads:
            return finished[0][0]
        tokens.need(",")


def term_of(text: Union[str, Term]) -> Term:
    """The term that a text writes; `ScriptFault` where it writes none."""
    if isinstance(text, Term):
        return text
    if not isinstance(text, str):
        raise InputFault(f"{text!r} is no term")
    tokens = Tokens(text)
    term = read_term(tokens)
    if tokens.kind != "end":
        tokens.fault("word")
    return term


@dataclass(frozen=True)
class Step:
    """A generator, `gen` at its index, or an operation at earlier steps, or, in a listing, at rows named by positions."""

    word: str
    args: Tuple[int, ...]

    def __str__(self) -> str:
        return " ".join([self.word, *map(str, self.args)])

    @property
    def is_generator(self) -> bool:
        """Whether this is a generator."""
        return self.word == "gen"


class Steps(Sequence[Step]):
    """A straight-line program that writes terms: the term of a step has the terms of earlier steps as its arguments.

    `variables`, where it is set, says that these are steps of a polynomial in so many variables: generators from there on
    are the elements 0, 1, ...
    """

    def __init__(self, steps: Sequence[Step], variables: Optional[int] = None):
        self._steps = tuple(steps)
        self.variables = variables
        self._terms: List[Term] = []

    def __len__(self) -> int:
        return len(self._steps)

    def __getitem__(self, index):  # type: ignore[no-untyped-def]
        return self._steps[index]

    def __eq__(self, other: object) -> bool:
        return isinstance(other, Steps) and (self._steps, self.variables) == (other._steps, other.variables)

    def __hash__(self) -> int:
        return hash((self._steps, self.variables))

    def __repr__(self) -> str:
        return f"Steps({list(map(str, self._steps))})"

    def _written(self, step: Step) -> Term:
        if not step.is_generator:
            return Application(step.word, tuple(self._terms[arg] for arg in step.args))
        (index,) = step.args
        if self.variables is None or index < self.variables:
            return Variable(index)
        return Element(index - self.variables)

    def term(self, index: int = -1) -> Term:
        """The term of this step, the last where none is given; generator I is the variable xI."""
        for step in self._steps[len(self._terms) :]:
            self._terms.append(self._written(step))
        return self._terms[index]

    def text(self) -> str:
        """The lines of the steps, each after its number."""
        return "".join(f"{index} {step}\n" for index, step in enumerate(self._steps))

    def __str__(self) -> str:
        return str(self.term())

    def latex(self, infix: Optional[Mapping[str, str]] = None) -> str:
        """The term of the last step in LaTeX."""
        return self.term().latex(infix)

    def tree(self) -> str:
        """The term of the last step as a tree."""
        return self.term().tree()

    def _repr_latex_(self) -> str:
        return self.term()._repr_latex_()
