"""Finite algebras given by the tables of their operations."""

from __future__ import annotations

import inspect
from dataclasses import dataclass
from itertools import product
from typing import Any, Callable, Dict, Hashable, Iterable, List, Mapping, Optional, Sequence, Tuple, Union

from .faults import InputFault
from .limits import ARITY, OPERATIONS, SIZES
from .tokens import is_name, is_operation_name

Entry = Union[int, str]  # an element by its number or by its name


@dataclass(frozen=True)
class Operation:
    """An operation: its arity, 0 to 4, and its size^arity values in the order of its arguments, the last fastest."""

    arity: int
    values: Tuple[int, ...]


def operation_of(name: str, table: Any, size: int) -> Operation:
    """The operation of a table: lists as deep as the operation has arguments, a number for a constant."""
    arity = 0
    level = [table]
    while isinstance(level[0], (list, tuple)):
        if not all(isinstance(part, (list, tuple)) and len(part) == size for part in level):
            raise InputFault(f"the table is not {size} wide at depth {arity + 1}", name)
        level = [entry for part in level for entry in part]
        arity += 1
    return Operation(arity, tuple(level))


def plain(comment: str) -> str:
    """A comment on one line, in ASCII."""
    return " ".join(comment.split()).encode("ascii", "backslashreplace").decode()


class Algebra:
    """An algebra on the elements 0, 1, .., size - 1.

    `operations` has each operation by its name, in order. `names` has a name for each element, or is empty. Algebras are
    equal where their sizes, operations and names of elements are; their own names do not matter.

    `InputFault` where the algebra is none that a block may define: a size of 1 to 1,000, at most 64 operations of arity 0
    to 4, names that are words of at most 32 letters, digits and `_`, none twice, none of an operation `gen` or `x` with
    digits.
    """

    __slots__ = ("name", "size", "operations", "names", "comments", "_hash")

    def __init__(
        self,
        name: str,
        size: int,
        operations: Mapping[str, Operation],
        names: Sequence[str] = (),
        comments: Sequence[str] = (),
    ):
        self.name = name
        self.size = size
        self.operations: Dict[str, Operation] = dict(operations)
        self.names: Tuple[str, ...] = tuple(names)
        self.comments: Tuple[str, ...] = tuple(map(plain, comments))
        self._hash: Optional[int] = None
        self._check()

    def _check(self) -> None:
        if not is_name(self.name):
            raise InputFault(f"{self.name} is no name of an algebra")
        if type(self.size) is not int or not 1 <= self.size <= SIZES[2]:
            raise InputFault(f"the size is {self.size}, and 1 to {SIZES[2]} are possible", self.name)
        if len(self.operations) > OPERATIONS:
            raise InputFault(f"there are more than {OPERATIONS} operations", self.name)
        for name, operation in self.operations.items():
            self._check_operation(name, operation)
        good = all(map(is_name, self.names)) and len(set(self.names)) == len(self.names)
        if self.names and not (good and len(self.names) == self.size):
            raise InputFault("the names of the elements are not as many different words as the size", self.name)

    def _check_operation(self, name: str, operation: Operation) -> None:
        if not is_operation_name(name):
            raise InputFault(f"{name} is no name of an operation", self.name)
        if not 0 <= operation.arity <= ARITY:
            raise InputFault(f"it has {operation.arity} arguments, and 0 to {ARITY} are possible", name)
        if len(operation.values) != self.size**operation.arity:
            raise InputFault(f"it has {len(operation.values)} values, and {self.size**operation.arity} are needed", name)
        for value in operation.values:
            if type(value) is not int or not 0 <= value < self.size:
                raise InputFault(f"the value {value} is no element", name)

    @classmethod
    def from_tables(
        cls, name: str, tables: Mapping[str, Any], names: Sequence[str] = (), size: Optional[int] = None
    ) -> "Algebra":
        """The algebra with these tables, from 0.

        A table is a list as deep as the operation has arguments: a number is a constant, a list of numbers an operation
        of one argument, a list of rows one of two. Entries may be names of elements. The size is that of a list, where
        it is not given.
        """
        lists = [table for table in tables.values() if isinstance(table, (list, tuple))]
        if size is None:
            if not lists and not names:
                raise InputFault("there is no list, so the number of elements is not known", name)
            size = len(lists[0]) if lists else len(names)
        numbers: Dict[Entry, int] = {word: number for number, word in enumerate(names)}
        operations = {}
        for word, table in tables.items():
            operation = operation_of(word, table, size)
            values = tuple(numbers.get(value, value) if isinstance(value, str) else value for value in operation.values)
            operations[word] = Operation(operation.arity, values)
        return cls(name, size, operations, names)

    @classmethod
    def from_functions(
        cls, name: str, elements: Union[int, Iterable[Hashable]], functions: Mapping[str, Callable[..., Any]]
    ) -> "Algebra":
        """The algebra of functions on elements: on 0, 1, .. below a number, or on the values that are given, in order.

        The arity is the number of parameters of the function. `InputFault` where a value is no element.
        """
        carrier: List[Hashable] = list(range(elements)) if isinstance(elements, int) else list(elements)
        places = {element: place for place, element in enumerate(carrier)}
        operations = {}
        for word, function in functions.items():
            arity = len(inspect.signature(function).parameters)
            values = [function(*args) for args in product(carrier, repeat=arity)]
            strange = next((value for value in values if value not in places), None)
            if strange is not None:
                raise InputFault(f"the value {strange} is no element", word)
            operations[word] = Operation(arity, tuple(places[value] for value in values))
        return cls(name, len(carrier), operations)

    @classmethod
    def from_gap(cls, text: str, name: str = "A", operations: Sequence[str] = ()) -> "Algebra":
        """The algebra of tables as GAP prints them, with entries from 1; see `uacalc.convert.gap`."""
        from .convert.gap import read_gap

        return read_gap(text, name, operations)

    @classmethod
    def from_mace4(cls, text: str, name: str = "A") -> List["Algebra"]:
        """The algebras of the models in an output of Mace4; see `uacalc.convert.mace4`."""
        from .convert.mace4 import read_mace4

        return read_mace4(text, name)

    @classmethod
    def from_csv(cls, text: str, name: str = "A", operation: str = "mul", first: int = 0) -> "Algebra":
        """The algebra of one square table with commas or blanks, entries from 0 or 1; see `uacalc.convert.tables`."""
        from .convert.tables import read_table

        return read_table(text, name, operation, first)

    @classmethod
    def from_sage(cls, structure: Any, name: str = "A") -> "Algebra":
        """The algebra of a finite lattice, group, ring or semigroup of Sage; see `uacalc.convert.sage`."""
        from .convert.sage import read_sage

        return read_sage(structure, name)

    @classmethod
    def from_block(cls, text: str) -> "Algebra":
        """The algebra of a script that has one block and nothing else."""
        from .script import Script

        blocks = Script.parse(text).items
        if len(blocks) != 1 or not isinstance(blocks[0], Algebra):
            raise InputFault("one block is needed, and nothing else")
        return blocks[0]

    def renamed(self, name: str) -> "Algebra":
        """The same algebra by another name."""
        return Algebra(name, self.size, self.operations, self.names, self.comments)

    def arity(self, operation: str) -> Optional[int]:
        """The arity of an operation, or nothing where there is none of this name."""
        found = self.operations.get(operation)
        return None if found is None else found.arity

    def value(self, operation: str, *args: int) -> int:
        """The value of an operation at elements."""
        place = 0
        for arg in args:
            place = place * self.size + arg
        return self.operations[operation].values[place]

    def element(self, entry: Entry) -> int:
        """The number of an element; `InputFault` where it is none."""
        number = self.names.index(entry) if isinstance(entry, str) and entry in self.names else entry
        if type(number) is not int or not 0 <= number < self.size:
            raise InputFault(f"{entry} is no element of {self.name}")
        return number

    def shown(self, element: int) -> str:
        """The name of an element where it has one, else its number."""
        return self.names[element] if self.names else str(element)

    @property
    def version(self) -> int:
        """The least version of the language that has a block for this algebra."""
        return 2 if self.names or self.size > SIZES[1] else 1

    def block(self) -> str:
        """The block, without a line for the version; the rows of a table stand on lines of their own."""
        lines = [f"# {comment}" for comment in self.comments]
        names = f" names ({' '.join(self.names)})" if self.names else ""
        lines.append(f"algebra {self.name} size {self.size}{names}")
        for name, operation in self.operations.items():
            head = f"op {name} {operation.arity} ="
            words = list(map(str, operation.values))
            if operation.arity < 2:
                lines.append(" ".join([head, *words]))
                continue
            rows = range(0, len(words), self.size)
            lines += [head, *("  " + " ".join(words[start : start + self.size]) for start in rows)]
        return "\n".join([*lines, "end", ""])

    def canonical(self) -> str:
        """The block as the program prints it: a line for each operation, and no names of elements."""
        lines = [f"algebra {self.name} size {self.size}"]
        for name, operation in self.operations.items():
            lines.append(f"op {name} {operation.arity} = {' '.join(map(str, operation.values))}")
        return "\n".join([*lines, "end", ""])

    def script(self) -> str:
        """The block, after the line of version 2 where it needs that."""
        return ("version 2\n" if self.version == 2 else "") + self.block()

    def same_signature(self, other: "Algebra") -> bool:
        """Whether both have operations of the same names and arities in the same order."""
        return [(name, op.arity) for name, op in self.operations.items()] == [
            (name, op.arity) for name, op in other.operations.items()
        ]

    def _key(self) -> Tuple[Any, ...]:
        return (self.size, tuple(self.operations.items()), self.names)

    def __eq__(self, other: object) -> bool:
        return self is other or (isinstance(other, Algebra) and hash(self) == hash(other) and self._key() == other._key())

    def __hash__(self) -> int:
        if self._hash is None:
            self._hash = hash(self._key())
        return self._hash

    def __repr__(self) -> str:
        operations = ", ".join(f"{name}/{operation.arity}" for name, operation in self.operations.items())
        return f"<Algebra {self.name} of {self.size} elements: {operations or 'no operation'}>"
