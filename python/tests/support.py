"""What the tests share: where things stand, and the program."""

from __future__ import annotations

import io
import os
import subprocess
import sys
import tempfile
import unittest
from pathlib import Path
from typing import Iterator, List, Tuple
from unittest import mock

from uacalc import Algebra, Calculator, ProgramError
from uacalc.__main__ import main
from uacalc.process import PROGRAM, find_program

PACKAGE = Path(__file__).resolve().parents[1]
ROOT = PACKAGE.parent
CASES = PACKAGE / "tests" / "cases"
EXAMPLES = ROOT / "examples"

MEET = Algebra.from_tables("M", {"meet": [[0, 0], [0, 1]]})
LATTICE = Algebra.from_tables("L", {"meet": [[0, 0], [0, 1]], "join": [[0, 1], [1, 1]]})
Z2 = Algebra.from_functions("Z2", 2, {"plus": lambda x, y: (x + y) % 2})
Z3 = Algebra.from_functions("Z3", 3, {"plus": lambda x, y: (x + y) % 3})
Z4 = Algebra.from_functions("Z4", 4, {"plus": lambda x, y: (x + y) % 4})
NAMED = Algebra.from_tables("N", {"meet": [["bot", "bot"], ["bot", "top"]]}, names=["bot", "top"])


def has_program() -> bool:
    """Whether there is a program. Where UACALC names one it is to be there."""
    try:
        find_program()
    except ProgramError:
        return PROGRAM in os.environ
    return True


def needs_program(test):  # type: ignore[no-untyped-def]
    """Leaves a test out where there is no program."""
    return unittest.skipUnless(has_program(), f"there is no program: set {PROGRAM}")(test)


def run_process(words: List[str], source: bytes = b"") -> Tuple[bytes, bytes, int]:
    """Standard output, standard error and status of a tool, run as a process."""
    environment = {**os.environ, "PYTHONPATH": str(PACKAGE)}
    run = subprocess.run(
        [sys.executable, "-m", "uacalc", *words], input=source, capture_output=True, check=False, env=environment
    )
    return run.stdout, run.stderr, run.returncode


def run_tool(words: List[str], source: bytes = b"") -> Tuple[bytes, bytes, int]:
    """The same of a tool that is run here, in the folder of the cases."""
    streams = [io.TextIOWrapper(io.BytesIO(text), encoding="utf-8", write_through=True) for text in (source, b"", b"")]
    before = os.getcwd()
    os.chdir(CASES)
    try:
        with mock.patch.multiple(sys, stdin=streams[0], stdout=streams[1], stderr=streams[2]):
            status = main(words)
    except SystemExit as end:
        status = int(end.code or 0)
    finally:
        os.chdir(before)
    out, error = (stream.buffer.getvalue() for stream in streams[1:])  # type: ignore[attr-defined]
    return out, error, status


def examples() -> Iterator[Tuple[str, bytes, bytes]]:
    """The name, the script and the replies of each example of the repository."""
    for script in sorted(EXAMPLES.glob("*.ua")):
        yield script.name, script.read_bytes(), script.with_suffix(".out").read_bytes()


class FakeProgram:
    """A program in Python that stands in for the calculator: a context manager that gives a `Calculator` of it."""

    def __init__(self, code: str, **options):  # type: ignore[no-untyped-def]
        self.code = code
        self.options = options

    def __enter__(self) -> Calculator:
        self._folder = tempfile.TemporaryDirectory()
        path = Path(self._folder.name) / "program"
        path.write_text(f"#!{sys.executable}\nimport os, signal, sys, time\n{self.code}\n", encoding="utf-8")
        path.chmod(0o755)
        return Calculator(path, **self.options)

    def __exit__(self, *_: object) -> None:
        self._folder.cleanup()
