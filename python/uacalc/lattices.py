"""Congruence lattices with the types of their covers, and their Hasse diagrams.

The numbers of types are those of D. Hobby, R. McKenzie, *The Structure of Finite Algebras*; that the program's criterion
is that of their theory is not claimed.
"""

from __future__ import annotations

import shutil
import subprocess
from dataclasses import dataclass
from typing import Dict, List, Optional, Tuple

from .algebra import Algebra
from .faults import InputFault
from .partitions import Partition

Cover = Tuple[int, int]

MANY = 60  # congruences from which on a picture has their numbers alone
WIDE = 40  # characters of a congruence from which on it has
TYPE_NAMES = {1: "unary", 2: "affine", 3: "Boolean", 4: "lattice", 5: "semilattice"}


@dataclass(frozen=True)
class TypedCover:
    """A cover, the lower congruence first, with its type, 1 to 5, and the pair of elements at which it is read.

    Both are nothing where a set that is closed for the type exceeds the budget.
    """

    lower: int
    upper: int
    type: Optional[int]
    pair: Optional[Tuple[int, int]]


@dataclass(frozen=True)
class Types:
    """The type of each cover, in the order of the covers of `con`."""

    algebra: Optional[Algebra]
    covers: Tuple[TypedCover, ...]

    def counts(self) -> Dict[int, int]:
        """How many covers have each type that occurs."""
        found = [cover.type for cover in self.covers if cover.type is not None]
        return {number: found.count(number) for number in sorted(set(found))}


@dataclass(frozen=True)
class CongruenceLattice:
    """All congruences of an algebra, by their number of blocks downwards.

    `covers` has the pairs of numbers (I, J) where congruence J covers congruence I, and `join_irreducibles` the numbers of
    those that cover exactly one. `types`, where it is set, is an answer of `types` on the same algebra.
    """

    algebra: Optional[Algebra]
    congruences: Tuple[Partition, ...]
    covers: Tuple[Cover, ...]
    join_irreducibles: Tuple[int, ...]
    types: Optional[Types] = None

    def __len__(self) -> int:
        return len(self.congruences)

    def number(self, partition: Partition) -> int:
        """The number of a congruence; `InputFault` where the partition is none."""
        if partition not in self.congruences:
            raise InputFault(f"{partition} is no congruence")
        return self.congruences.index(partition)

    def heights(self) -> List[int]:
        """The length of a longest chain below each congruence."""
        heights = [0] * len(self.congruences)
        for lower, upper in sorted(self.covers):
            heights[upper] = max(heights[upper], heights[lower] + 1)
        return heights

    def with_types(self, types: Types) -> "CongruenceLattice":
        """The same lattice with types on its covers.

        `InputFault` unless the types are known to be those of the same algebra, by its tables.
        """
        if self.algebra is None or types.algebra is None:
            raise InputFault("of which algebras the congruences and the types are is not known")
        if self.algebra != types.algebra:
            raise InputFault(f"the types are those of {types.algebra.name}, another algebra than {self.algebra.name}")
        if [(cover.lower, cover.upper) for cover in types.covers] != list(self.covers):
            raise InputFault("the types are those of other covers")
        return CongruenceLattice(self.algebra, self.congruences, self.covers, self.join_irreducibles, types)

    def _labels(self) -> List[str]:
        if self.types is None:
            return [""] * len(self.covers)
        return [f' [label="{"?" if cover.type is None else cover.type}"]' for cover in self.types.covers]

    def to_dot(self, numbers: Optional[bool] = None) -> str:
        """The Hasse diagram for Graphviz: the least congruence at the bottom, a layer for each height.

        Join irreducible congruences are boxes, and edges have the types of their covers, or `?` where a set for the type
        exceeds the budget. With `numbers`, or from 60 congruences on or where one has more than 40 characters, a
        congruence is drawn as its number, with its blocks as the tooltip.
        """
        texts = list(map(str, self.congruences))
        if numbers is None:
            numbers = len(texts) >= MANY or max(map(len, texts)) > WIDE
        lines = ["digraph congruences {", "  rankdir=BT;", "  node [shape=plaintext];", "  edge [arrowhead=none];"]
        for number, text in enumerate(texts):
            label = str(number) if numbers else f"{number}\\n{text}"
            box = ", shape=box" if number in self.join_irreducibles else ""
            lines.append(f'  n{number} [label="{label}", tooltip="{text}"{box}];')
        heights = self.heights()
        for height in sorted(set(heights)):
            layer = " ".join(f"n{number};" for number in range(len(texts)) if heights[number] == height)
            lines.append(f"  {{ rank=same; {layer} }}")
        lines += [f"  n{lower} -> n{upper}{label};" for (lower, upper), label in zip(self.covers, self._labels())]
        return "\n".join([*lines, "}", ""])

    def to_svg(self) -> str:
        """The Hasse diagram as SVG; `InputFault` where Graphviz, the command `dot`, is not there or fails."""
        dot = shutil.which("dot")
        if dot is None:
            raise InputFault("Graphviz is not installed: there is no command dot")
        run = subprocess.run([dot, "-Tsvg"], input=self.to_dot().encode(), capture_output=True, check=False)
        if run.returncode:
            raise InputFault(f"dot: {run.stderr.decode(errors='replace').strip()}")
        return run.stdout.decode()

    def _repr_svg_(self) -> Optional[str]:
        return self.to_svg() if shutil.which("dot") else None
