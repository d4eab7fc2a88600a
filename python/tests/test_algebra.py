"""Algebras: from tables and functions, from other programs, their blocks, and what is none."""

import unittest

from uacalc import Algebra, InputFault, Operation, Script

from .support import MEET, NAMED, Z3


class Algebras(unittest.TestCase):
    def test_tables(self):
        algebra = Algebra.from_tables("A", {"mul": [[0, 1], [1, 0]], "inv": [0, 1], "one": 1, "f": [[[0, 1], [1, 1]]] * 2})
        self.assertEqual([algebra.arity(name) for name in ("mul", "inv", "one", "f", "g")], [2, 1, 0, 3, None])
        self.assertEqual(algebra.value("mul", 1, 0), 1)
        self.assertEqual(algebra.value("f", 1, 0, 1), 1)
        self.assertEqual(algebra.value("one"), 1)

    def test_functions(self):
        self.assertEqual(Z3.operations["plus"].values, (0, 1, 2, 1, 2, 0, 2, 0, 1))
        words = Algebra.from_functions("W", ["", "a", "b"], {"first": lambda x, y: x or y, "a": lambda: "a"})
        self.assertEqual(words.operations["first"].values, (0, 1, 2, 1, 1, 1, 2, 2, 2))
        self.assertEqual(words.operations["a"], Operation(0, (1,)))
        with self.assertRaises(InputFault):
            Algebra.from_functions("W", 2, {"f": lambda x: x + 1})

    def test_names(self):
        self.assertEqual(NAMED.operations, MEET.operations)
        self.assertNotEqual(NAMED, MEET)
        self.assertEqual((NAMED.element("top"), NAMED.element(0), NAMED.shown(1), MEET.shown(1)), (1, 0, "top", "1"))
        for entry in ("mid", 2, -1, "0"):
            with self.subTest(entry=entry), self.assertRaises(InputFault):
                NAMED.element(entry)

    def test_equality_is_that_of_the_tables(self):
        self.assertEqual(MEET, MEET.renamed("Other"))
        self.assertEqual(len({MEET, MEET.renamed("Other"), Z3}), 2)

    def test_blocks_are_read_back(self):
        for algebra in (MEET, NAMED, Z3, Algebra("E", 3, {}), Algebra("Large", 300, {"f": Operation(1, (299,) * 300)})):
            self.assertEqual(Algebra.from_block(algebra.script()), algebra)
            self.assertEqual(Script.parse("version 2\n" + algebra.canonical()).items[0].operations, algebra.operations)
        self.assertEqual(MEET.block(), "algebra M size 2\nop meet 2 =\n  0 0\n  0 1\nend\n")
        self.assertEqual(MEET.canonical(), "algebra M size 2\nop meet 2 = 0 0 0 1\nend\n")

    def test_a_comment_stays_a_comment(self):
        algebra = Algebra("M", 1, {}, comments=["one\nend ä"])
        self.assertEqual(algebra.block(), "# one end \\xe4\nalgebra M size 1\nend\n")

    def test_what_is_no_algebra(self):
        one = Operation(1, (0, 0))
        for arguments in (
            ("3", 2, {}),
            ("a" * 33, 2, {}),
            ("A", 0, {}),
            ("A", 1001, {}),
            ("A", True, {}),
            ("A", 2, {"gen": one}),
            ("A", 2, {"x1": one}),
            ("A", 2, {"f g": one}),
            ("A", 2, {"f": Operation(1, (0, 2))}),
            ("A", 2, {"f": Operation(1, (0, -1))}),
            ("A", 2, {"f": Operation(1, (0, 0, 0))}),
            ("A", 2, {"f": Operation(5, (0,) * 32)}),
            ("A", 2, {f"f{number}": one for number in range(65)}),
            ("A", 2, {}, ["a"]),
            ("A", 2, {}, ["a", "a"]),
            ("A", 2, {}, ["a", "1"]),
        ):
            with self.subTest(arguments=arguments), self.assertRaises(InputFault):
                Algebra(*arguments)
        for tables in ({"f": [[0, 1], [0]]}, {"f": [[0, 1], 0]}, {"f": [0, 2]}, {"f": [0, "a"]}, {"f": 0}, {"f": [0, None]}):
            with self.subTest(tables=tables), self.assertRaises(InputFault):
                Algebra.from_tables("A", tables)
        with self.assertRaises(InputFault):
            Algebra.from_block(MEET.block() + "con M")


class Fake:
    """A structure as Sage has them: its elements in order, and some methods."""

    def __init__(self, elements, **methods):
        self.elements = elements
        for name, method in methods.items():
            setattr(self, name, method)

    def __iter__(self):
        return iter(self.elements)


class Residue:
    """A number modulo 3 with the operators of a ring element."""

    def __init__(self, value):
        self.value = value % 3

    def __eq__(self, other):
        return self.value == other.value

    def __hash__(self):
        return hash(self.value)

    def __add__(self, other):
        return Residue(self.value + other.value)

    def __mul__(self, other):
        return Residue(self.value * other.value)

    def __neg__(self):
        return Residue(-self.value)


class Converting(unittest.TestCase):
    def test_gap(self):
        text = "mul := [ [ 1, 2 ], [ 2, 1 ] ];\none := 1;"
        algebra = Algebra.from_gap(text, "G")
        self.assertEqual(algebra, Algebra.from_tables("G", {"mul": [[0, 1], [1, 0]], "one": 0}))
        with self.assertRaises(InputFault) as caught:
            Algebra.from_gap("[ [ 1, 2 ], [ 2, 3 ] ]")
        self.assertEqual(str(caught.exception), "1:18 the entry 3 is not one of 1 to 2")

    def test_mace4(self):
        text = "interpretation( 2, [number = 1], [function(*(_,_), [0,1,1,0]), function(e, [0])])."
        (algebra,) = Algebra.from_mace4(text, "Q")
        self.assertEqual(algebra, Algebra.from_tables("Q", {"times": [[0, 1], [1, 0]], "e": 0}))
        self.assertEqual(algebra.comments, ("times stands for *",))

    def test_tables_of_papers(self):
        plain = Algebra.from_tables("A", {"mul": [[0, 1], [1, 0]]})
        self.assertEqual(Algebra.from_csv("0,1\n1,0\n"), plain)
        self.assertEqual(Algebra.from_csv("1 2\n2 1", first=1), plain)
        self.assertEqual(Algebra.from_csv("*;0;1\n0;0;1\n1;1;0"), plain)
        self.assertEqual(Algebra.from_csv(",0,1\n0,0,1\n1,1,0"), plain)
        named = Algebra.from_csv("* e a\ne e a\na a e", "A")
        self.assertEqual((named.names, named.operations), (("e", "a"), plain.operations))
        for text in ("", "0 1\n1", "0 1\n1 2", "* a b\na a b\nb b c", "* a a\na a a\na a a"):
            with self.subTest(text=text), self.assertRaises(InputFault):
                Algebra.from_csv(text)
        with self.assertRaises(InputFault) as caught:
            Algebra.from_csv("0 1\n\n1 x")
        self.assertEqual(str(caught.exception), "line 3: the entry x is no element")

    def test_structures_of_sage(self):
        lattice = Algebra.from_sage(Fake([1, 2, 4], meet=min, join=max))
        self.assertEqual(lattice.operations["meet"].values, (0, 0, 0, 0, 1, 1, 0, 1, 2))
        ring = Algebra.from_sage(Fake([Residue(n) for n in range(3)], zero=lambda: Residue(0), one=lambda: Residue(1)), "R")
        self.assertEqual(list(ring.operations), ["plus", "minus", "zero", "times", "one"])
        self.assertEqual(ring.operations["plus"], Z3.operations["plus"])
        self.assertEqual(ring.operations["minus"].values, (0, 2, 1))
        for structure in (Fake([1], is_finite=lambda: False), Fake(["a"], one=lambda: "a")):
            with self.assertRaises(InputFault):
                Algebra.from_sage(structure)
