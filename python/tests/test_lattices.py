"""Congruence lattices, types and their pictures."""

import shutil
import unittest

from uacalc import CongruenceLattice, InputFault, Partition, TypedCover, Types

from .support import LATTICE, Z2

IDENTITY, FULL = Partition.identity(2), Partition.full(2)
CHAIN = CongruenceLattice(LATTICE, (IDENTITY, FULL), ((0, 1),), (1,))
TYPES = Types(LATTICE, (TypedCover(0, 1, 4, (0, 1)),))


class Lattices(unittest.TestCase):
    def test_numbers_and_heights(self):
        self.assertEqual(CHAIN.heights(), [0, 1])
        self.assertEqual(CHAIN.number(FULL), 1)
        with self.assertRaises(InputFault):
            CHAIN.number(Partition.full(3))

    def test_types_are_those_of_the_same_algebra(self):
        self.assertIn('n0 -> n1 [label="4"];', CHAIN.with_types(TYPES).to_dot())
        self.assertEqual(TYPES.counts(), {4: 1})
        beyond = CHAIN.with_types(Types(LATTICE, (TypedCover(0, 1, None, None),)))
        self.assertIn('n0 -> n1 [label="?"];', beyond.to_dot())
        for types in (Types(Z2, TYPES.covers), Types(None, TYPES.covers), Types(LATTICE, ())):
            with self.subTest(types=types), self.assertRaises(InputFault):
                CHAIN.with_types(types)
        with self.assertRaises(InputFault):
            CongruenceLattice(None, CHAIN.congruences, CHAIN.covers, (1,)).with_types(TYPES)

    def test_pictures(self):
        self.assertIn('n1 [label="1\\n|0 1|", tooltip="|0 1|", shape=box];', CHAIN.to_dot())
        self.assertIn('n1 [label="1", tooltip="|0 1|", shape=box];', CHAIN.to_dot(numbers=True))
        many = tuple(Partition.identity(2) for _ in range(60))
        self.assertIn('label="59"', CongruenceLattice(None, many, (), ()).to_dot())

    @unittest.skipUnless(shutil.which("dot"), "Graphviz is not installed")
    def test_svg(self):
        self.assertIn("<svg", CHAIN.to_svg())
        self.assertEqual(CHAIN._repr_svg_(), CHAIN.to_svg())
