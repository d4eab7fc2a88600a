"""The check of certificates of all seven kinds, without the program and without any search.

A check tells the first flaw in the order of docs/CERTIFICATES.md, in the words of the program's `check`. Where there is
none, what the certificate says of the algebra is true.
"""

from __future__ import annotations

from typing import Any, Callable, Dict, Iterable, Iterator, List, NoReturn, Optional, Sequence, Tuple

from .algebra import Algebra
from .answers import Invalid, Valid, Verdict
from .certificates import Certificate, CertificateFault
from .conditions import (
    CHAINS,
    Chain,
    Identity,
    Pattern,
    Vector,
    assignments,
    condition,
    place_vectors,
    value_vector,
    variables_of,
    width_of,
)
from .limits import WIDTH
from .rows import first_missing, power_value
from .terms import Step
from .tokens import Text


class Flaw(Exception):
    """The first flaw, in the words of `check`."""


def flaw(*words: Any) -> NoReturn:
    """Tells a flaw."""
    raise Flaw(" ".join(map(str, words)))


def check(algebra: Algebra, certificate: Certificate) -> Verdict:
    """`Valid`, or `Invalid` with the first flaw, as the program's `check` tells it."""
    try:
        CHECKS[certificate.kind](algebra, certificate)
    except Flaw as found:
        return Invalid(f"flaw {found}")
    return Valid()


def check_text(algebra: Algebra, text: Text) -> Verdict:
    """The same of a certificate's text; what is no certificate is `Invalid` with its fault, `cert shape width`."""
    try:
        certificate = Certificate.read(text)
    except CertificateFault as fault:
        return Invalid(str(fault))
    return check(algebra, certificate)


# ---- vectors, steps and rows


def first_bad(items: Iterable[Any], good: Callable[[int, Any], bool]) -> Optional[int]:
    """The number of the first item that is not good."""
    return next((number for number, item in enumerate(items) if not good(number, item)), None)


def check_vectors(name: str, vectors: Sequence[Vector], size: int, width: int) -> None:
    """Each vector has this length and elements alone."""
    bad = first_bad(vectors, lambda _, vector: len(vector) == width and max(vector, default=0) < size)
    if bad is not None:
        flaw("vector", name, bad)


def is_step(algebra: Algebra, generators: int, below: int, step: Step) -> bool:
    """Whether the step names a generator, or an operation at as many arguments as it takes, each below a number."""
    if step.is_generator:
        return len(step.args) == 1 and step.args[0] < generators
    return len(step.args) == algebra.arity(step.word) and all(arg < below for arg in step.args)


def check_steps(algebra: Algebra, generators: int, steps: Sequence[Step], *term: int) -> None:
    """Each step names a generator, or an operation at earlier steps."""
    bad = first_bad(steps, lambda number, step: is_step(algebra, generators, number, step))
    if bad is not None:
        flaw("step", *term, bad)


def last_value(algebra: Algebra, width: int, generators: Sequence[Vector], steps: Sequence[Step]) -> Vector:
    """The value of the term of the last step at vectors of the power of this width."""
    values: List[Vector] = []
    for step in steps:
        if step.is_generator:
            values.append(generators[step.args[0]])
        else:
            values.append(power_value(algebra, width, step.word, [values[arg] for arg in step.args]))
    return values[-1]


def check_order(rows: Sequence[Vector]) -> None:
    """Each row is greater than the one before."""
    bad = first_bad(rows, lambda number, row: number == 0 or rows[number - 1] < row)
    if bad is not None:
        flaw("order", bad)


def check_closed(algebra: Algebra, width: int, generators: Iterable[Vector], rows: Sequence[Vector]) -> None:
    """The rows hold the generators and are closed under the operations."""
    found = set(rows)
    bad = first_bad(generators, lambda _, vector: vector in found)
    if bad is not None:
        flaw("generator", bad)
    missing = first_missing(algebra, width, rows, found)
    if missing is not None:
        flaw("result", missing[0], *missing[1])


# ---- members and listings


def check_width(width: int) -> None:
    """The width of a power."""
    if not 1 <= width <= WIDTH:
        flaw("width")


def check_member(algebra: Algebra, cert: Certificate) -> None:
    """The steps write a term whose value at the generators is the target."""
    if not cert["steps"]:
        flaw("width")
    check_width(cert["width"])
    check_vectors("gens", cert["gens"], algebra.size, cert["width"])
    check_vectors("target", [cert["target"]], algebra.size, cert["width"])
    check_steps(algebra, len(cert["gens"]), cert["steps"])
    if last_value(algebra, cert["width"], cert["gens"], cert["steps"]) != cert["target"]:
        flaw("target")


def check_not_member(algebra: Algebra, cert: Certificate) -> None:
    """The rows hold all that the generators generate, and the target is none of them."""
    check_width(cert["width"])
    for name in ("gens", "rows"):
        check_vectors(name, cert[name], algebra.size, cert["width"])
    check_vectors("target", [cert["target"]], algebra.size, cert["width"])
    check_order(cert["rows"])
    check_closed(algebra, cert["width"], cert["gens"], cert["rows"])
    if cert["target"] in cert["rows"]:
        flaw("target")


def check_ranks(ranks: Sequence[int], count: int) -> None:
    """The ranks are the numbers below how many rows there are, each once."""
    firsts = {rank: number for number, rank in reversed(list(enumerate(ranks)))}
    bad = first_bad(ranks[:count], lambda number, rank: rank < count and firsts[rank] == number)
    if bad is None and len(ranks) != count:
        bad = min(len(ranks), count)
    if bad is not None:
        flaw("rank", bad)


def makes_row(algebra: Algebra, cert: Certificate, number: int, origin: Step) -> bool:
    """Whether an origin gives the row of this number, from rows of smaller rank."""
    rows, ranks = cert["rows"], cert["ranks"]
    if not is_step(algebra, len(cert["gens"]), len(rows), origin):
        return False
    if origin.is_generator:
        return cert["gens"][origin.args[0]] == rows[number]
    if any(ranks[arg] >= ranks[number] for arg in origin.args):
        return False
    return power_value(algebra, cert["width"], origin.word, [rows[arg] for arg in origin.args]) == rows[number]


def check_origins(algebra: Algebra, cert: Certificate) -> None:
    """Each row has an origin that gives it."""
    origins, count = cert["origins"], len(cert["rows"])
    bad = first_bad(origins[:count], lambda number, origin: makes_row(algebra, cert, number, origin))
    if bad is None and len(origins) != count:
        bad = min(len(origins), count)
    if bad is not None:
        flaw("origin", bad)


def check_listing(algebra: Algebra, cert: Certificate) -> None:
    """The rows are exactly what the generators generate, each with its rank and its origin."""
    check_width(cert["width"])
    for name in ("gens", "rows"):
        check_vectors(name, cert[name], algebra.size, cert["width"])
    check_order(cert["rows"])
    check_ranks(cert["ranks"], len(cert["rows"]))
    check_origins(algebra, cert)
    check_closed(algebra, cert["width"], cert["gens"], cert["rows"])


# ---- conditions


def rules_of(algebra: Algebra, cert: Certificate) -> Tuple[Identity, ...]:
    """The identities of the condition that a certificate names."""
    rules = condition(cert["name"], cert["k"])
    if rules is None or width_of(algebra.size, [rule.pattern for rule in rules]) > WIDTH:
        flaw("width")
    return rules


def value_at(algebra: Algebra, pattern: Pattern, steps: Sequence[Step]) -> Vector:
    """The values of the term of the last step at a pattern, by assignment."""
    places = place_vectors(algebra.size, [pattern])
    return last_value(algebra, len(places[0]), places, steps)


def failure(algebra: Algebra, rule: Identity, steps: Sequence[Step]) -> Optional[Vector]:
    """The first assignment at which the term of the last step fails an identity."""
    found = value_at(algebra, rule.pattern, steps)
    wanted = value_vector(algebra.size, [rule])
    points = assignments(algebra.size, variables_of(rule.pattern))
    return next((point for point, value, right in zip(points, found, wanted) if value != right), None)


def check_condition(algebra: Algebra, cert: Certificate) -> None:
    """The steps write a term that satisfies the identities."""
    rules = rules_of(algebra, cert)
    if not cert["steps"]:
        flaw("width")
    check_steps(algebra, cert["k"], cert["steps"])
    for number, rule in enumerate(rules):
        point = failure(algebra, rule, cert["steps"])
        if point is not None:
            flaw("identity", number, f"[{point[0]} {point[1]}]")


def check_no_condition(algebra: Algebra, cert: Certificate) -> None:
    """The rows hold the vectors of all terms, and that of the right sides is none of them."""
    rules = rules_of(algebra, cert)
    patterns = [rule.pattern for rule in rules]
    width = width_of(algebra.size, patterns)
    check_vectors("rows", cert["rows"], algebra.size, width)
    check_order(cert["rows"])
    check_closed(algebra, width, place_vectors(algebra.size, patterns), cert["rows"])
    if value_vector(algebra.size, rules) in cert["rows"]:
        flaw("target")


# ---- chains


def is_place(algebra: Algebra, places: int, place: int, steps: Sequence[Step]) -> bool:
    """Whether the term of the last step is the variable at a place, at every assignment to all places."""
    if steps[-1] == Step("gen", (place,)):
        return True
    others = list(zip(*assignments(algebra.size, places - 1)))
    width = len(others[0])
    for first in range(algebra.size):
        generators = [(first,) * width, *others]
        if last_value(algebra, width, generators, steps) != generators[place]:
            return False
    return True


def is_linked(algebra: Algebra, link: Tuple[Pattern, Pattern], term: Sequence[Step], other: Sequence[Step]) -> bool:
    """Whether one term at the first pattern is the other at the second, at every assignment."""
    return value_at(algebra, link[0], term) == value_at(algebra, link[1], other)


def is_in_chain(algebra: Algebra, chain: Chain, terms: Sequence[Sequence[Step]], number: int) -> bool:
    """Whether a term is as it should be by itself, at the place where it stands, and beside the next."""
    steps = terms[number]
    last = number + 1 == len(terms)
    return (
        all(failure(algebra, rule, steps) is None for rule in chain.own)
        and (number > 0 or is_place(algebra, chain.places, 0, steps))
        and (not last or is_place(algebra, chain.places, chain.places - 1, steps))
        and (last or is_linked(algebra, chain.odd if number % 2 else chain.even, steps, terms[number + 1]))
    )


def check_chain(algebra: Algebra, cert: Certificate) -> None:
    """The terms are a chain."""
    chain, terms = CHAINS[cert["name"]], cert["terms"]
    if width_of(algebra.size, chain.patterns) > WIDTH or not terms or not all(terms):
        flaw("width")
    for number, steps in enumerate(terms):
        check_steps(algebra, chain.places, steps, number)
    bad = first_bad(terms, lambda number, _: is_in_chain(algebra, chain, terms, number))
    if bad is not None:
        flaw("link", bad)


class Chart:
    """Rows by their parts at the patterns of a chain."""

    def __init__(self, algebra: Algebra, chain: Chain, rows: Sequence[Vector]):
        self.chain = chain
        self.rows = rows
        self._slices: Dict[Pattern, slice] = {}
        start = 0
        for pattern in chain.patterns:
            end = start + algebra.size ** variables_of(pattern)
            self._slices[pattern] = slice(start, end)
            start = end
        self._own = [(rule.pattern, value_vector(algebra.size, [rule])) for rule in chain.own]

    def part(self, pattern: Pattern, row: Vector) -> Vector:
        """The entries of a row at a pattern."""
        return row[self._slices[pattern]]

    def is_own(self, row: Vector) -> bool:
        """Whether a row has what each term of the chain has."""
        return all(self.part(pattern, row) == value for pattern, value in self._own)

    def led_to(self, link: Tuple[Pattern, Pattern], positions: Iterable[int]) -> Iterator[int]:
        """The positions of the rows that those at some positions lead to."""
        images = {self.part(link[0], self.rows[position]) for position in positions}
        return (number for number, row in enumerate(self.rows) if self.part(link[1], row) in images)


def check_positions(count: int, positions: Sequence[int]) -> None:
    """Positions of rows, ascending."""
    bad = first_bad(positions, lambda at, position: position < count and (at == 0 or positions[at - 1] < position))
    if bad is not None:
        flaw("reached", positions[bad])


def check_reached(chart: Chart, start: Vector, end: Vector, even: Sequence[int], odd: Sequence[int]) -> None:
    """The positions hold the start and what one of them leads to, and not the end."""
    evens, odds = set(even), set(odd)
    led_odd = set(chart.led_to(chart.chain.even, even))
    led_even = set(chart.led_to(chart.chain.odd, odd))

    def is_followed(number: int, row: Vector) -> bool:
        missing = (number in led_odd and number not in odds) or (number in led_even and number not in evens)
        return not missing or not chart.is_own(row)

    for good in (
        lambda number, row: row != start or number in evens,
        is_followed,
        lambda number, row: row != end or not (number in evens or number in odds),
    ):
        bad = first_bad(chart.rows, good)
        if bad is not None:
            flaw("reached", bad)


def check_no_chain(algebra: Algebra, cert: Certificate) -> None:
    """The rows hold the vectors of all terms, and no beginning of a chain leads to the end."""
    chain, rows, even, odd = CHAINS[cert["name"]], cert["rows"], cert["even"], cert["odd"]
    width = width_of(algebra.size, chain.patterns)
    if width > WIDTH:
        flaw("width")
    check_vectors("rows", rows, algebra.size, width)
    check_order(rows)
    places = place_vectors(algebra.size, chain.patterns)
    check_closed(algebra, width, places, rows)
    check_positions(len(rows), even)
    check_positions(len(rows), odd)
    if odd and not chain.by_parity:
        flaw("reached", odd[0])
    check_reached(Chart(algebra, chain, rows), places[0], places[-1], even, odd if chain.by_parity else even)


CHECKS: Dict[str, Callable[[Algebra, Certificate], None]] = {
    "member": check_member,
    "not_member": check_not_member,
    "listing": check_listing,
    "condition": check_condition,
    "no_condition": check_no_condition,
    "chain": check_chain,
    "no_chain": check_no_chain,
}
