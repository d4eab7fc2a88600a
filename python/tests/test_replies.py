"""Replies: what is read, and that no cut or damaged text is read as an answer."""

import unittest

from uacalc import (
    Algebra,
    Certificate,
    CommandError,
    CongruenceLattice,
    Exceeds,
    Listing,
    NoChain,
    Partition,
    Replies,
    ReplyFault,
    Script,
    Series,
    Undecided,
    Yes,
)

from .support import examples

M = "algebra M size 2 op meet 2 = 0 0 0 1 end\n"
N = "version 2 algebra N size 2 names (bot top) op meet 2 = bot bot bot top end\n"
Z = "algebra Z size 2 op plus 2 = 0 1 1 0 end\n"
CLOSED = "closed 3\n[0 0] 2 meet 2 1\n[0 1] 0 gen 0\n[1 0] 1 gen 1\n"
LATTICE = "congruences 2\n0 |0|1|\n1 |0 1|\ncovers 1\n0 1\njoin irreducibles 1\n"

# A script, and a reply that is none to it.
WRONG = [
    (M + "close M 2 [0 1] [1 0]", CLOSED.replace("closed 3", "closed 4")),
    (M + "close M 2 [0 1] [1 0]", CLOSED.replace("closed 3", "closed 2")),
    (M + "close M 2 [0 1] [1 0]", CLOSED.replace("closed 3", "closed 03")),
    (M + "close M 2 [0 1] [1 0]", CLOSED.replace("closed 3", "closed  3")),
    (M + "close M 2 [0 1] [1 0]", CLOSED.replace("[0 1] 0", "[0 2] 0")),
    (M + "close M 2 [0 1] [1 0]", CLOSED.replace("[0 1] 0", "[0 1 1] 0")),
    (M + "close M 2 [0 1] [1 0]", CLOSED.replace("[0 1] 0", "[0  1] 0")),
    (M + "close M 2 [0 1] [1 0]", CLOSED.replace("[0 1] 0 gen 0", "[0 0] 0 gen 0")),
    (M + "close M 2 [0 1] [1 0]", CLOSED.replace("0 gen 0", "1 gen 0")),
    (M + "close M 2 [0 1] [1 0]", CLOSED.replace("gen 1", "gen 2")),
    (M + "close M 2 [0 1] [1 0]", CLOSED.replace("meet 2 1", "meet 2 3")),
    (M + "close M 2 [0 1] [1 0]", CLOSED.replace("meet 2 1", "meet 2 0")),
    (M + "close M 2 [0 1] [1 0]", CLOSED.replace("meet 2 1", "meet 2")),
    (M + "close M 2 [0 1] [1 0]", CLOSED.replace("meet 2 1", "join 2 1")),
    (M + "close M 2 [0 1] [1 0]", CLOSED.replace("\n", "\r\n")),
    (M + "close M 2 [0 1] [1 0]", CLOSED + "\n"),
    (M + "close M 2 [0 1] [1 0]", CLOSED + "closed 0\n"),
    (M + "close M 2 [0 1] [1 0] count", CLOSED),
    (M + "close M 2 [0 1] [1 0]", "exceeds 2\n"),
    (M + "close K 2 [0 1]", "closed 0\n"),
    (M + "close M 2 [0 1] [1 0]", "error wide 1\n"),
    (M + "close M 2 [0 1] [1 0]", "error range 9:1\n"),
    (M + "close M 2 [0 1] [1 0]", "error size\n"),
    (M + "member M 1 [0] = [0]", "yes 0\n"),
    (M + "member M 1 [0] = [0]", "yes 1\n1 gen 0\n"),
    (M + "member M 1 [0] = [0]", "yes 1\n0 meet 0 0\n"),
    (M + "member M 1 [0] = [0]", "yes 1\n0\n"),
    (M + "member M 1 [0] = [0]", "yes 1\n0 gen 0 0\n"),
    (M + "con M", LATTICE.replace("0 |0|1|", "0 |0|1|2|")),
    (M + "con M", LATTICE.replace("0 |0|1|", "1 |0|1|")),
    (M + "con M", LATTICE.replace("|0 1|", "|1 0|")),
    (M + "con M", LATTICE.replace("\n0 1\n", "\n1 0\n")),
    (M + "con M", LATTICE.replace("\n0 1\n", "\n0 2\n")),
    (M + "con M", LATTICE.replace("irreducibles 1", "irreducibles 2")),
    (M + "con M", LATTICE.replace("irreducibles 1", "irreducibles")[:-1] + " \n"),
    (M + "con M", LATTICE.replace("irreducibles 1", "irreducibles1")),
    (M + "types M", "types 1\n0 1 type 6 pair 0 1\n"),
    (M + "types M", "types 1\n0 1 type 5 pair 0 2\n"),
    (M + "types M", "types 1\n1 0 type 5 pair 0 1\n"),
    (M + "sub M [1]", "{1 1}\n"),
    (M + "sub M [1]", "{1 0}\n"),
    (M + "sub M [1]", "[1]\n"),
    (M + "ones M", "ones 1\n0 {0}\n"),
    (M + "ones M", "ones 2\n0 {0}\n0 {0}\n"),
    (M + "eval M x0 [1]", "value 2\n"),
    (M + "eval M x0 [1]", "value\n"),
    (N + "eval N x0 [1]", "value 1\n"),
    (N + "eval N x0 [1]", "value mid\n"),
    (M + "holds M x0 = x1", "fails [0]\n"),
    (M + "holds M x0 = x1", "holds [0 1]\n"),
    (M + "hom M M [0] [1]", "map 2\n0 1\n0 1\n"),
    (M + "hom M M [0] [1]", "clash 0 1\nsteps 1\n0 gen 0\nsteps 1\n0 gen 0\n"),
    (M + "central M |0 1| |0 1| |0|1|", "central no [0 1 1]\nsteps 1\n0 gen 0\n"),
    (M + "central M |0 1| |0 1| |0|1|", "central no [0 0 0 1]\nsteps 1\n0 gen 8\n"),
    (M + "cg M [0 1]", "|0 1|0|\n"),
    (M + "jonsson M", "chain 0\n"),
    (M + "jonsson M", "chain 0\nterm 1 steps 1\n0 gen 0\n"),
    (M + "hm M", "no 0\nreached even 0\n"),
    (M + "make P product M M", "algebra Q size 4\nop meet 2 = 0 0 0 1\nend\n"),
    (M + "make P reduct M (meet)", "algebra P size 2\nop meet 2 = 0 0 0\nend\n"),
    (M + "make P reduct M (meet)", "algebra P size 2\nop meet 2 =\n0 0 0 1\nend\n"),
    (M + "make P reduct M (meet)", "algebra P  size 2\nop meet 2 = 0 0 0 1\nend\n"),
    (M + "check M {}", "flaw\n"),
    (M + "check M {}", "flaw step\n"),
    (M + "cert member M 1 [0] = [0]", '{"gens":[[0]],"kind":"listing"}\n'),
    (M + "cert cond M maltsev", '{"gens":[],"kind":"not_member","rows":[],"target":[0],"width":1}\n'),
    (M + "cert close M 1", '{"gens":[], "kind":"listing","origins":[],"ranks":[],"rows":[],"width":1}\n'),
    (M + "", "closed 0\n"),
]


def answers_to(script, reply, budget=None):
    text = script.encode() if isinstance(script, str) else script
    reply = reply.encode() if isinstance(reply, str) else reply
    return list(Replies(Script.parse(text), reply.splitlines(True), text, budget))


class Reading(unittest.TestCase):
    def test_the_examples(self):
        for name, script, reply in examples():
            self.assertEqual(len(answers_to(script, reply)), len(Script.parse(script)), name)

    def test_the_terms_and_the_certificates_of_the_examples(self):
        terms = certificates = 0
        for name, text, reply in examples():
            script = Script.parse(text)
            algebras = {item.name: item for item in script.items if isinstance(item, Algebra)}
            for command, answer in zip(script.commands, answers_to(text, reply)):
                with self.subTest(name=name, command=command.text()):
                    if isinstance(answer, Certificate):
                        self.assertTrue(answer.check(algebras[command.values[0]]))
                        certificates += 1
                    elif isinstance(answer, Yes) and command.word == "member":
                        algebra = algebras[command.values[0]]
                        vectors = [list(map(algebra.element, vector)) for vector in command.values[2]]
                        target = list(map(algebra.element, command.values[3]))
                        points = zip(*vectors) if vectors else [()] * len(target)
                        self.assertEqual([answer.term.value(algebra, point) for point in points], target)
                        terms += 1
        self.assertGreater(min(terms, certificates), 5)

    def test_a_reply_that_is_cut_is_never_read(self):
        for name, script, reply in examples():
            step = 1 + len(reply) // 900
            for end in range(0, len(reply), step):
                with self.subTest(name=name, end=end), self.assertRaises(ReplyFault):
                    answers_to(script, reply[:end])

    def test_what_is_no_reply(self):
        for script, reply in WRONG:
            with self.subTest(script=script, reply=reply), self.assertRaises(ReplyFault):
                answers_to(script, reply)

    def test_the_place_of_a_fault(self):
        with self.assertRaises(ReplyFault) as caught:
            answers_to(M + "close M 2 [0 1] [1 0]", CLOSED.replace("meet 2 1", "meet 2 x"))
        self.assertEqual(str(caught.exception), "2:16 a number is needed, and x is none")

    def test_names_of_elements(self):
        script = N + "close N 1 [top] [bot]\neval N x0 [top]\nsub N [bot top]\nones N\nhom N N [bot] [bot]"
        reply = "closed 2\n[bot] 1 gen 1\n[top] 0 gen 0\nvalue top\n{bot top}\nones 2\nbot {bot}\ntop {top}\nmap 1\nbot bot\n"
        listing, value, elements, ones, hom = answers_to(script, reply)
        self.assertEqual((listing.vectors, value, elements, ones), ([(0,), (1,)], 1, (0, 1), ((0,), (1,))))
        self.assertEqual(hom.images, {0: 0})

    def test_listings(self):
        (listing,) = answers_to(M + "close M 2 [0 1] [1 0]", CLOSED)
        self.assertIsInstance(listing, Listing)
        self.assertIn((0, 0), listing)
        self.assertNotIn((1, 1), listing)
        self.assertEqual(str(listing.term((0, 0))), "meet(x1, x0)")
        self.assertTrue(listing)

    def test_exceeds_is_neither_yes_nor_no(self):
        script = Z + "member Z 2 [0 1] [1 0] = [1 1]"
        reply = "exceeds 1\n[0 1] 0 gen 0\n[1 0] 1 gen 1\n"
        (answer,) = answers_to(script, reply)
        self.assertIsInstance(answer, Exceeds)
        self.assertEqual(answer.rows.vectors, [(0, 1), (1, 0)])
        with self.assertRaises(Undecided):
            bool(answer)
        with self.assertRaises(ReplyFault):
            answers_to(script, reply, budget=2)

    def test_beyond_the_budget(self):
        (con,) = answers_to(M + "con M", "exceeds 1\n|0|1|\n|0 1|\n")
        self.assertEqual([str(part) for part in con.partitions], ["|0|1|", "|0 1|"])
        (chain,) = answers_to(Z + "day Z", "exceeds 1\n" + "".join(f"[{'0 ' * 15}{i}] {i} gen {i}\n" for i in (0, 1)))
        self.assertEqual(len(chain.rows), 2)
        for command in ("hom M M [0] [0]", "types M", "comm M |0 1| |0 1|", "central M |0 1| |0 1| |0 1|", "cert hm M"):
            self.assertEqual(answers_to(M + command, "exceeds 7\n"), [Exceeds(7)])

    def test_a_series_beyond_the_budget(self):
        script = M + "series M derived\ncon M"
        series, con = answers_to(script, "exceeds 5\n|0 1|\n" + LATTICE)
        self.assertEqual(series.partitions, (Partition.full(2),))
        self.assertIsInstance(con, CongruenceLattice)
        with self.assertRaises(ReplyFault):
            answers_to(M + "series M derived\ncg M", "exceeds 5\n|0 1|\n|0|1|\n")
        (whole,) = answers_to(M + "series M lower", "series 1\n|0 1|\n")
        self.assertEqual(whole, Series("lower", (Partition.full(2),)))

    def test_errors_have_their_place(self):
        script = M + "close M 2\n [0 2]\ncon K\nclose M 68\ncomm M |0 1| |0 1|\n"
        reply = "error range 3:5\nerror unknown 4:5\nerror wide 3 4\nerror congruence 6:8 meet [0 1] [1 1]\n"
        first, second, third, fourth = answers_to(script, reply)
        self.assertIsInstance(first, CommandError)
        self.assertEqual(str(first), "error range 3:5, at `2`, in `close M 2 [0 2]`")
        self.assertEqual((second.kind, second.token), ("unknown", "K"))
        self.assertEqual((third.records, third.cells), (3, 4))
        self.assertEqual(fourth.clash, ("meet", (0, 1), (1, 1)))

    def test_an_algebra_that_is_made_may_be_asked_about(self):
        script = M + "make P product M M\nmake Q quotient P |0|\neval P x0 [3]\ncon Q"
        block = Algebra.from_functions("P", 4, {"meet": lambda x, y: x & y}).canonical()
        made, error, value, unknown = answers_to(script, block + "error shape 3:17\nvalue 3\nerror unknown 5:5\n")
        self.assertEqual((made.size, error.kind, value, unknown.kind), (4, "shape", 3, "unknown"))

    def test_certificates_and_verdicts(self):
        text = '{"gens":[[0,1]],"kind":"member","steps":[["gen",0]],"target":[0,1],"width":2}'
        script = M + f"cert member M 2 [0 1] = [0 1]\ncheck M {text}\ncheck M {{}}"
        cert, valid, invalid = answers_to(script, f"{text}\nvalid\ncert shape kind\n")
        self.assertIsInstance(cert, Certificate)
        self.assertEqual(cert.text(), text)
        self.assertTrue(valid)
        self.assertFalse(invalid)
        self.assertEqual(str(invalid), "cert shape kind")

    def test_rows_of_each_width(self):
        row = "no 1\n[{}] 0 gen 0\n"
        for command, width in [
            ("cond M maltsev", 8),
            ("cond M majority", 12),
            ("nu M 4", 16),
            ("condition M 2 (x y) = x (x y) = z", 16),
            ("clone M 1 term total [0 1]", 2),
            ("clone M 1 term partial [0 1]", 1),
        ]:
            with self.subTest(command=command):
                (answer,) = answers_to(M + command, row.format(" ".join("0" * width)))
                self.assertFalse(answer)
                with self.assertRaises(ReplyFault):
                    answers_to(M + command, row.format(" ".join("0" * (width + 1))))
        reached = "reached even 0\nreached odd\n"
        (answer,) = answers_to(M + "jonsson M", row.format(" ".join("0" * 12)) + reached)
        self.assertIsInstance(answer, NoChain)
        self.assertEqual((answer.even, answer.odd), ((0,), ()))
