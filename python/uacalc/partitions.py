"""Partitions of the elements of an algebra, as congruences are written: `|0 1|2|`."""

from __future__ import annotations

import re
from typing import Dict, Iterable, Iterator, List, Sequence, Set, Tuple, Union

from .faults import InputFault

TEXT = re.compile(r"\|(?:(?:0|[1-9][0-9]{0,8})(?: (?:0|[1-9][0-9]{0,8}))*\|)+")


class Partition:
    """A partition of the numbers below its size, in normal form: blocks ascend by their least members.

    `blocks` is a tuple of tuples, each ascending. Partitions are ordered by refinement: `p <= q` where each block of p
    lies in one of q. `p & q` is the meet and `p | q` the join.
    """

    __slots__ = ("blocks", "labels")

    def __init__(self, blocks: Iterable[Iterable[int]]):
        found = sorted(tuple(sorted(block)) for block in blocks)
        elements = sorted(element for block in found for element in block)
        if not all(found) or elements != list(range(len(elements))) or not elements:
            raise InputFault("these blocks are no partition of 0, 1, .. up to a greatest element")
        self.blocks: Tuple[Tuple[int, ...], ...] = tuple(found)
        labels = [0] * len(elements)
        for number, block in enumerate(found):
            for element in block:
                labels[element] = number
        self.labels: Tuple[int, ...] = tuple(labels)

    @classmethod
    def from_text(cls, text: str) -> "Partition":
        """The partition that `|0 1|2|` writes."""
        if not TEXT.fullmatch(text):
            raise InputFault(f"{text} is no partition")
        return cls(map(int, block.split(" ")) for block in text[1:-1].split("|"))

    @classmethod
    def from_labels(cls, labels: Sequence[object]) -> "Partition":
        """Elements are in one block where their labels are equal."""
        blocks: Dict[object, List[int]] = {}
        for element, label in enumerate(labels):
            blocks.setdefault(label, []).append(element)
        return cls(blocks.values())

    @classmethod
    def identity(cls, size: int) -> "Partition":
        """The least partition, in which each element stands alone."""
        return cls([element] for element in range(size))

    @classmethod
    def full(cls, size: int) -> "Partition":
        """The greatest partition, which has one block."""
        return cls([range(size)])

    @property
    def size(self) -> int:
        """How many elements there are."""
        return len(self.labels)

    def relates(self, first: int, second: int) -> bool:
        """Whether two elements are in one block."""
        return self.labels[first] == self.labels[second]

    def __len__(self) -> int:
        return len(self.blocks)

    def __iter__(self) -> Iterator[Tuple[int, ...]]:
        return iter(self.blocks)

    def __eq__(self, other: object) -> bool:
        return isinstance(other, Partition) and self.blocks == other.blocks

    def __hash__(self) -> int:
        return hash(self.blocks)

    def __le__(self, other: "Partition") -> bool:
        return self.size == other.size and len(set(zip(self.labels, other.labels))) == len(self.blocks)

    def __lt__(self, other: "Partition") -> bool:
        return self <= other and self != other

    def __and__(self, other: "Partition") -> "Partition":
        return Partition.from_labels(list(zip(self.labels, other.labels)))

    def __or__(self, other: "Partition") -> "Partition":
        joined: List[Set[int]] = [set(block) for block in self.blocks]
        for block in other.blocks:
            touched = [part for part in joined if not part.isdisjoint(block)]
            joined = [part for part in joined if part.isdisjoint(block)] + [set(block).union(*touched)]
        return Partition(joined)

    def __str__(self) -> str:
        return f"|{'|'.join(' '.join(map(str, block)) for block in self.blocks)}|"

    def __repr__(self) -> str:
        return f"Partition.from_text({str(self)!r})"


def partition_of(value: Union[str, Partition, Iterable[Iterable[int]]]) -> Partition:
    """A partition from its text, from its blocks, or itself."""
    if isinstance(value, Partition):
        return value
    return Partition.from_text(value) if isinstance(value, str) else Partition(value)
