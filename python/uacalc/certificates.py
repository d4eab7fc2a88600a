"""Certificates: answers together with what is needed to check them, as JSON on one line.

The kinds, their keys and what they say stand in docs/CERTIFICATES.md. A text is read as the program's `check` reads it,
and where it is none the same fault is told: `json`, `shape PATH` or `range PATH`.
"""

from __future__ import annotations

import json
import math
import re
from dataclasses import dataclass
from typing import Any, Callable, Dict, List, NoReturn, Tuple

from .conditions import CHAINS, TERNARY
from .faults import UacalcError
from .limits import CERTIFICATE_DEPTH, CERTIFICATE_NUMBERS
from .terms import Step
from .tokens import Text

Reader = Callable[["Reading", Any, str], Any]

SURROGATE = re.compile(r"\\u[dD][89a-fA-F]")
UNLIKE_COUNT = re.compile(r"-|[0-9]{21}")  # where a number may be none that Python reads as the program does


class CertificateFault(UacalcError):
    """A text is no certificate: `kind` is `json`, `shape` or `range`, and `path` names the value, or is empty."""

    def __init__(self, kind: str, path: str = ""):
        super().__init__(f"cert {kind} {path}".rstrip())
        self.kind = kind
        self.path = path


class NotJson(Exception):
    """The text is no JSON."""


class Reading:
    """Reads the values of a certificate: a fault of shape is told at once, the first of range when all are read."""

    def __init__(self) -> None:
        self.range = ""

    def shape(self, path: str) -> NoReturn:
        raise CertificateFault("shape", path)

    def number(self, value: Any, path: str) -> int:
        """A number; those not written with digits alone come as `float`."""
        if type(value) not in (int, float):
            self.shape(path)
        if type(value) is float or value >= CERTIFICATE_NUMBERS:
            self.range = self.range or path
        return value

    def listed(self, value: Any, path: str, read: Reader, first: int = 0) -> Tuple[Any, ...]:
        """The items of a list, of which the first has this number."""
        if type(value) is not list:
            self.shape(path)
        if read is Reading.number and all(type(item) is int and item < CERTIFICATE_NUMBERS for item in value):
            return tuple(value)
        return tuple(read(self, item, f"{path}/{index}") for index, item in enumerate(value, first))

    def numbers(self, value: Any, path: str) -> Tuple[int, ...]:
        """An array of numbers."""
        return self.listed(value, path, Reading.number)

    def vectors(self, value: Any, path: str) -> Tuple[Tuple[int, ...], ...]:
        """An array of arrays of numbers."""
        return self.listed(value, path, Reading.numbers)

    def step(self, value: Any, path: str) -> Step:
        """A step: a text, and numbers after it."""
        if type(value) is not list or not value:
            self.shape(path)
        if type(value[0]) is not str:
            self.shape(f"{path}/0")
        return Step(value[0], self.listed(value[1:], path, Reading.number, 1))

    def steps(self, value: Any, path: str) -> Tuple[Step, ...]:
        """An array of steps."""
        return self.listed(value, path, Reading.step)

    def terms(self, value: Any, path: str) -> Tuple[Tuple[Step, ...], ...]:
        """An array of arrays of steps."""
        return self.listed(value, path, Reading.steps)

    def condition_name(self, value: Any, path: str) -> str:
        """The name of a condition."""
        if value != "nu" and value not in list(TERNARY):
            self.shape(path)
        return value

    def chain_name(self, value: Any, path: str) -> str:
        """The name of a kind of chain."""
        if value not in CERTIFIED_CHAINS:
            self.shape(path)
        return value


CERTIFIED_CHAINS = [name for name in CHAINS if name != "day"]

# The keys of each kind beside `kind`, in ascending order, with what stands under them.
KINDS: Dict[str, Dict[str, Reader]] = {
    "member": {
        "gens": Reading.vectors,
        "steps": Reading.steps,
        "target": Reading.numbers,
        "width": Reading.number,
    },
    "not_member": {
        "gens": Reading.vectors,
        "rows": Reading.vectors,
        "target": Reading.numbers,
        "width": Reading.number,
    },
    "listing": {
        "gens": Reading.vectors,
        "origins": Reading.steps,
        "ranks": Reading.numbers,
        "rows": Reading.vectors,
        "width": Reading.number,
    },
    "condition": {"k": Reading.number, "name": Reading.condition_name, "steps": Reading.steps},
    "no_condition": {"k": Reading.number, "name": Reading.condition_name, "rows": Reading.vectors},
    "chain": {"name": Reading.chain_name, "terms": Reading.terms},
    "no_chain": {
        "even": Reading.numbers,
        "name": Reading.chain_name,
        "odd": Reading.numbers,
        "rows": Reading.vectors,
    },
}

STEPS = (Reading.steps, Reading.terms)


def plain(step: Step) -> List[Any]:
    """A step as JSON writes it."""
    return [step.word, *step.args]


@dataclass(frozen=True)
class Certificate:
    """A certificate: its kind, and what stands under the other keys of the kind.

    Vectors are tuples of numbers, and steps are `Step` objects.
    """

    kind: str
    fields: Dict[str, Any]

    @classmethod
    def read(cls, text: Text) -> "Certificate":
        """The certificate that a text is; `CertificateFault` with the first fault where it is none."""
        value = read_json(text)
        if not isinstance(value, dict):
            raise CertificateFault("shape")
        kind = value.get("kind")
        if not isinstance(kind, str) or kind not in KINDS:
            raise CertificateFault("shape", "kind")
        unlike = {*KINDS[kind], "kind"} ^ set(value)
        if unlike:
            raise CertificateFault("shape", min(unlike, key=str.encode))
        reading = Reading()
        fields = {key: read(reading, value[key], key) for key, read in KINDS[kind].items()}
        if reading.range:
            raise CertificateFault("range", reading.range)
        return cls(kind, fields)

    def text(self) -> str:
        """The certificate on one line, with ascending keys and without blanks, as the program prints it."""
        value: Dict[str, Any] = {"kind": self.kind, **self.fields}
        for key, read in KINDS[self.kind].items():
            if read is Reading.steps:
                value[key] = list(map(plain, value[key]))
            elif read is Reading.terms:
                value[key] = [list(map(plain, steps)) for steps in value[key]]
        return json.dumps(value, separators=(",", ":"), sort_keys=True)

    def __getitem__(self, key: str) -> Any:
        return self.fields[key]

    def __str__(self) -> str:
        return self.text()

    def check(self, algebra: Any) -> Any:
        """`Valid`, or what is wrong with it, found without the program; see `uacalc.checking.check`."""
        from .checking import check

        return check(algebra, self)


class Object(Dict[str, Any]):
    """An object of JSON; `depth` is how many arrays and objects stand in one another, with keys that stand twice."""

    depth = 1


def depth_of(value: Any) -> int:
    """How many arrays and objects stand in one another in a value, level by level of its arrays."""
    depth = greatest = 0
    level = [value]
    while level:
        greatest = max([greatest, *(depth + item.depth for item in level if type(item) is Object)])
        lists = [item for item in level if type(item) is list]
        depth += 1
        greatest = max(greatest, depth if lists else 0)
        level = [inner for items in lists for inner in items if type(inner) in (list, Object)]
    return greatest


def has_surrogate(value: Any) -> bool:
    """Whether a text in a value has half a pair of surrogates."""
    if isinstance(value, str):
        return any("\ud800" <= letter <= "\udfff" for letter in value)
    return isinstance(value, list) and any(map(has_surrogate, value))


def float_of(text: str) -> float:
    """A number that is not written with digits alone, or is negative."""
    value = float(text)
    if math.isinf(value):
        raise NotJson
    return value


def constant(text: str) -> NoReturn:
    """`NaN` and its like, which Python reads and JSON has not."""
    raise NotJson


def number_of(text: str) -> Any:
    """A number that is written without a point."""
    return float_of(text) if text.startswith("-") or len(text) > 20 else int(text)


def read_json(text: Text) -> Any:
    """The value that a text of JSON writes, of a key that stands twice the last; `CertificateFault` where it is none.

    Numbers that are not written with digits alone, or are very long, come as `float`.
    """
    try:
        characters = text if isinstance(text, str) else bytes(text).decode()
        characters.encode()
        escapes = SURROGATE.search(characters) is not None

        def pairs(found: List[Tuple[str, Any]]) -> Object:
            made = Object(found)
            made.depth = 1 + max([depth_of(value) for _, value in found], default=0)
            if escapes and any(has_surrogate(key) or has_surrogate(value) for key, value in found):
                raise NotJson
            return made

        value = json.loads(
            characters,
            parse_float=float_of,
            parse_int=number_of if UNLIKE_COUNT.search(characters) else None,
            parse_constant=constant,
            object_pairs_hook=pairs,
        )
        if depth_of(value) > CERTIFICATE_DEPTH:
            raise NotJson
    except (NotJson, ValueError, RecursionError):
        raise CertificateFault("json") from None
    return value
