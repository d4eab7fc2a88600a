"""Terms, steps and partitions."""

import unittest

from uacalc import Application, Element, InputFault, Partition, ScriptFault, Step, Steps, Variable
from uacalc.terms import term_of

from .support import LATTICE

CHAIN = Steps([Step("gen", (0,)), Step("gen", (1,)), Step("meet", (1, 0)), Step("join", (2, 1))])


class Terms(unittest.TestCase):
    def test_text_latex_and_tree(self):
        self.assertEqual(str(CHAIN), "join(meet(x1, x0), x1)")
        self.assertEqual(CHAIN.latex(), r"(x_{1} \wedge x_{0}) \vee x_{1}")
        self.assertEqual(CHAIN.latex({}), r"\mathrm{join}(\mathrm{meet}(x_{1}, x_{0}), x_{1})")
        self.assertEqual(CHAIN.tree(), "join\n  meet\n    x1\n    x0\n  x1")
        self.assertEqual(str(CHAIN.term(2)), "meet(x1, x0)")
        self.assertEqual(CHAIN.text(), "0 gen 0\n1 gen 1\n2 meet 1 0\n3 join 2 1\n")

    def test_texts_are_read_back(self):
        for text in ("x0", "c", "f(x0)", "f(g(x1, c), x0, x12)"):
            self.assertEqual(str(term_of(text)), text)
        self.assertEqual(term_of("x007"), Variable(7))
        self.assertEqual(term_of("x99999999999"), Variable(2**32 - 1))
        for text in ("", "f(", "f()", "f(x0", "x0(x1)", "f(x0))", "3"):
            with self.subTest(text=text), self.assertRaises(ScriptFault):
                term_of(text)

    def test_values(self):
        term = CHAIN.term()
        self.assertEqual([term.value(LATTICE, [x, y]) for x in (0, 1) for y in (0, 1)], [0, 1, 0, 1])
        self.assertEqual((term.variables(), term.depth(), term.length()), (2, 2, len("join(meet(x1, x0), x1)")))

    def test_polynomials(self):
        steps = Steps([Step("gen", (0,)), Step("gen", (2,)), Step("plus", (1, 0))], variables=1)
        self.assertEqual(str(steps), "plus(1, x0)")
        self.assertEqual(steps.term().parts()[0], Element(1))

    def test_deep_and_long_terms(self):
        steps = Steps([Step("gen", (0,))] + [Step("f", (number, number)) for number in range(5000)])
        self.assertGreater(steps.term().length(), 2**5000)
        with self.assertRaises(InputFault):
            steps.term().text()
        with self.assertRaises(InputFault):
            steps.latex()
        with self.assertRaises(InputFault):
            steps.tree()
        line = Steps([Step("gen", (0,))] + [Step("f", (number,)) for number in range(9000)])
        self.assertEqual(len(str(line)), line.term().length())
        self.assertEqual(line.term().depth(), 9000)

    def test_a_shared_part_is_one_node(self):
        term = Steps([Step("gen", (0,)), Step("f", (0, 0))]).term()
        self.assertIsInstance(term, Application)
        self.assertIs(term.parts()[0], term.parts()[1])


class Partitions(unittest.TestCase):
    def test_normal_form(self):
        self.assertEqual(str(Partition([[2], [1, 0]])), "|0 1|2|")
        self.assertEqual(Partition.from_text("|2|1 0|"), Partition.from_labels("aab"))
        self.assertEqual(Partition.identity(3).blocks, ((0,), (1,), (2,)))

    def test_order_meet_and_join(self):
        first, second = Partition.from_text("|0 1|2 3|"), Partition.from_text("|0|1 2|3|")
        self.assertEqual(first | second, Partition.full(4))
        self.assertEqual(first & second, Partition.identity(4))
        self.assertTrue(Partition.identity(4) <= first < Partition.full(4))
        self.assertFalse(first <= second)
        self.assertTrue(first.relates(2, 3))
        self.assertFalse(first.relates(1, 2))

    def test_what_is_none(self):
        for blocks in ([], [[0], []], [[0, 0]], [[0], [2]], [[1]], [[0, 1], [1]]):
            with self.subTest(blocks=blocks), self.assertRaises(InputFault):
                Partition(blocks)
        for text in ("", "|", "||", "|0|2|", "0|1", "|0  1|", "|00|", "|0 1"):
            with self.subTest(text=text), self.assertRaises(InputFault):
                Partition.from_text(text)
