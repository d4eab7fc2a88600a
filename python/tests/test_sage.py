"""Structures of Sage itself; left out where Sage is not installed."""

import os
import shutil
import subprocess
import unittest

from uacalc import Algebra

from .support import PACKAGE

SAGE = shutil.which("sage")

# Each line is a structure; elements are numbered in the order in which Sage lists them.
QUESTIONS = """
from uacalc import Algebra
structures = [
    posets.BooleanLattice(2),
    LatticePoset(posets.PentagonPoset()),
    AbelianGroup([2, 2]),
    SymmetricGroup(3),
    Integers(4),
    GF(4, "a"),
    Monoids().Finite().example(),
]
for structure in structures:
    print(Algebra.from_sage(structure).block(), end="")
"""


class Structures(unittest.TestCase):
    @unittest.skipUnless(SAGE, "Sage is not installed")
    def test_each(self):
        environment = {**os.environ, "PYTHONPATH": str(PACKAGE)}
        run = subprocess.run(
            [SAGE, "-c", QUESTIONS], stdin=subprocess.DEVNULL, capture_output=True, check=False, env=environment
        )
        self.assertEqual(run.returncode, 0, run.stderr)
        blocks = [text + "end\n" for text in run.stdout.decode().split("end\n")[:-1]]
        boolean, pentagon, klein, symmetric, integers, field, monoid = map(Algebra.from_block, blocks)
        numbers = range(4)
        self.assertEqual(
            boolean,
            Algebra.from_functions("A", 4, {"meet": lambda x, y: x & y, "join": lambda x, y: x | y}),
        )
        self.assertEqual(klein.operations["times"].values, tuple(x ^ y for x in numbers for y in numbers))
        self.assertEqual(integers.operations["plus"].values, tuple((x + y) % 4 for x in numbers for y in numbers))
        self.assertEqual(integers.operations["times"].values, tuple(x * y % 4 for x in numbers for y in numbers))
        # 0 < 1 < 4 and 0 < 2 < 3 < 4: the pentagon is not modular.
        join, meet = (lambda x, y: pentagon.value("join", x, y)), (lambda x, y: pentagon.value("meet", x, y))
        self.assertNotEqual(join(2, meet(1, 3)), meet(join(2, 1), 3))
        self.assertEqual(list(symmetric.operations), ["times", "one", "inverse"])
        self.assertEqual(sum(symmetric.value("times", x, x) == symmetric.value("one") for x in range(6)), 4)
        self.assertEqual(list(field.operations), ["plus", "minus", "zero", "times", "one"])
        self.assertEqual(
            sorted(field.value("times", x, x) for x in numbers), [0, 1, 2, 3], "the squares of a field of characteristic 2"
        )
        self.assertEqual(monoid.operations["times"].values, tuple(x * y % 12 for x in range(12) for y in range(12)))
