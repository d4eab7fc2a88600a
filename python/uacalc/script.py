"""Scripts: blocks and commands, read strictly, written, and built question by question."""

from __future__ import annotations

from typing import Any, Dict, Iterator, List, Optional, Set, Tuple, Union

from .algebra import Algebra, Operation
from .commands import FORMS, Command
from .faults import InputFault
from .limits import ARITY, OPERATIONS, SIZES, VERSIONS
from .operands import Name, Pick
from .tokens import Text, Tokens, is_operation_name

Item = Union[Algebra, Command]


class Reader:
    """Reads a script, token by token. The first token with which no script begins is told as a `ScriptFault`."""

    def __init__(self, text: Text):
        self.tokens = Tokens(text)
        self.version = 1
        self.taken: Set[str] = set()
        self.items: List[Item] = []

    def read(self) -> None:
        """Reads the whole text."""
        if self.tokens.takes("version"):
            self.version = self.tokens.number("number", VERSIONS[0], VERSIONS[-1])
        while self.tokens.kind != "end":
            self.items.append(self._block() if self.tokens.takes("algebra") else self._command())

    def _fresh(self) -> str:
        if self.tokens.text in self.taken:
            self.tokens.fault("name")
        name = self.tokens.word("name")
        self.taken.add(name)
        return name

    def _command(self) -> Command:
        tokens = self.tokens
        cert = tokens.takes("cert")
        form = FORMS.get(tokens.text)
        if form is None or (cert and not form.can_certify):
            tokens.fault("word")
        tokens.take()
        values: List[Any] = []
        places = []
        for operand in form.certified() if cert else form.operands:
            places.append(tokens.place)
            fresh = form.word == "make" and not values
            value = self._fresh() if fresh else operand.read(tokens, self.version)
            if operand.has_value:
                values.append(value)
        return Command(form, tuple(values), cert, tuple(places))

    def _block(self) -> Algebra:
        name = self._fresh()
        self.tokens.need("size")
        size = self.tokens.number("number", 1, SIZES[self.version])
        names = self._names(size) if self.version == 2 and self.tokens.takes("names") else []
        numbers = {word: number for number, word in enumerate(names)}
        operations: Dict[str, Operation] = {}
        while len(operations) < OPERATIONS and self.tokens.takes("op"):
            word = self._operation_name(operations)
            arity = self.tokens.number("number", 0, ARITY)
            self.tokens.need("=")
            operations[word] = Operation(arity, self._values(size, size**arity, numbers))
        self.tokens.need("end")
        return Algebra(name, size, operations, names)

    def _names(self, size: int) -> List[str]:
        self.tokens.need("(")
        names: List[str] = []
        while len(names) < size:
            if self.tokens.text in names:
                self.tokens.fault("name")
            names.append(self.tokens.word("name"))
        self.tokens.need(")")
        return names

    def _operation_name(self, operations: Dict[str, Operation]) -> str:
        if self.tokens.text in operations or not is_operation_name(self.tokens.text):
            self.tokens.fault("name")
        return self.tokens.word("name")

    def _values(self, size: int, count: int, numbers: Dict[str, int]) -> Tuple[int, ...]:
        values: List[int] = []
        while len(values) < count:
            if self.tokens.kind == "number":
                values += self.tokens.numbers(count - len(values), size)
            if len(values) < count:
                named = self.tokens.kind == "word" and self.tokens.text in numbers
                values.append(numbers[self.tokens.take()] if named else self.tokens.number("value", 0, size - 1))
        return tuple(values)


class Script:
    """Blocks and commands in their order.

    A script is read by `Script.parse`, or built: `add` puts a block, `ask` a question. Its questions are numbered from 0,
    and `Calculator.run` answers them in their order, all in one process.
    """

    def __init__(self) -> None:
        self.items: List[Item] = []
        self._version = 1
        self._count = 0
        self._named: Dict[str, Optional[Algebra]] = {}

    @classmethod
    def parse(cls, text: Text) -> "Script":
        """The script that a text is; `ScriptFault` with the place and the kind that the program tells where it is none."""
        reader = Reader(text)
        reader.read()
        script = cls()
        script._version = reader.version
        for item in reader.items:
            script.put(item)
        return script

    def put(self, item: Item) -> None:
        """Puts a block or a command as it is; `InputFault` where it introduces a name that is taken."""
        name = item.name if isinstance(item, Algebra) else item.values[0] if item.makes else None
        if name in self._named:
            raise InputFault(f"the name {name} is taken")
        if name is not None:
            self._named[name] = item if isinstance(item, Algebra) else None
        self._count += isinstance(item, Command)
        self.items.append(item)

    @property
    def commands(self) -> List[Command]:
        """The commands, in their order."""
        return [item for item in self.items if isinstance(item, Command)]

    @property
    def version(self) -> int:
        """The version of the language: that of the text, or the least in which it can be written."""
        return max([self._version, *(item.version for item in self.items)])

    def __len__(self) -> int:
        return self._count

    def __iter__(self) -> Iterator[Item]:
        return iter(self.items)

    def add(self, algebra: Algebra) -> str:
        """Puts the block of an algebra, unless it stands there; answers the name that it has in this script.

        That is its own name, or, where another algebra has that, the same with a number after it.
        """
        name = algebra.name
        number = 0
        while name in self._named:
            if self._named[name] == algebra:
                return name
            number += 1
            name = f"{algebra.name[:24]}_{number}"
        self.put(algebra if name == algebra.name else algebra.renamed(name))
        return name

    def ask(self, word: str, *values: Any, cert: bool = False) -> int:
        """Puts a question, `script.ask("close", M, 2, [[0, 1], [1, 0]])`; answers its number.

        The word is that of a command, and the values those of its operands, in their order: an algebra, or the name of
        one that stands in the script; numbers; vectors and partitions as lists; terms and identities as texts or as the
        objects of this package. With `cert` a certificate is asked for. `InputFault` where a value is no operand.
        """
        if word not in FORMS or (cert and not FORMS[word].can_certify):
            raise InputFault(f"there is no command {'cert ' if cert else ''}{word}")
        self.put(Command.made(word, tuple(self._named_values(FORMS[word].operands, values)), cert))
        return len(self) - 1

    def _named_values(self, operands: Tuple[Any, ...], values: Tuple[Any, ...]) -> Iterator[Any]:
        wanted = [operand for operand in operands if operand.has_value]
        for place, value in enumerate(values):
            operand = wanted[place] if place < len(wanted) else None
            if isinstance(operand, Name) and isinstance(value, Algebra):
                yield self.add(value)
            elif isinstance(operand, Pick) and value and value[0] in operand.rows:
                yield (value[0], *self._named_values(operand.rows[value[0]], tuple(value[1:])))
            else:
                yield value

    def text(self) -> str:
        """The script as the program reads it."""
        pieces = ["version 2\n"] if self.version == 2 else []
        pieces += [item.block() if isinstance(item, Algebra) else item.text() + "\n" for item in self.items]
        return "".join(pieces)
