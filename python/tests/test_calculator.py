"""The calculator: every command on the program, and programs that do not run as they should."""

import io
import os
import sys
import unittest
from unittest import mock

from uacalc import (
    Calculator,
    Central,
    Certificate,
    Chain,
    Clash,
    CommandError,
    Exceeds,
    Fails,
    Holds,
    Homomorphism,
    InputFault,
    Listing,
    No,
    NoChain,
    NotCentral,
    Partition,
    ProgramError,
    ReplyFault,
    Script,
    ScriptFault,
    TimeLimit,
    Valid,
    Yes,
)
from uacalc.commands import FORMS
from uacalc.progress import Progress
from uacalc.questions import Questions

from .support import EXAMPLES, LATTICE, MEET, NAMED, Z2, Z3, Z4, FakeProgram, examples, needs_program

FULL2, FULL4 = "|0 1|", "|0 1 2 3|"
HUGE = [[int(place == other) for place in range(12)] for other in range(12)]


class Words(Questions):
    """Notes the word of each question in place of asking it."""

    def __init__(self):
        self.asked = []

    def ask(self, word, *values, cert=False):
        script = Script()
        script.ask(word, *values, cert=cert)
        self.asked.append((word, cert))


@needs_program
class Answers(unittest.TestCase):
    @classmethod
    def setUpClass(cls):
        cls.calc = Calculator()

    def test_closures(self):
        listing = self.calc.close(MEET, 2, [[0, 1], [1, 0]])
        self.assertIsInstance(listing, Listing)
        self.assertEqual(listing.vectors, [(0, 0), (0, 1), (1, 0)])
        self.assertEqual(str(listing.term((0, 0))), "meet(x1, x0)")
        self.assertEqual(self.calc.close(MEET, 3, [[0, 1, 1], [1, 0, 1], [1, 1, 0]], least=True)[0].rank, 6)
        self.assertEqual(self.calc.size(Z2, 3, [[1, 1, 0], [0, 1, 1]]), 4)
        self.assertEqual(len(self.calc.free(Z2, 2)), 4)
        self.assertEqual(self.calc.free_size(LATTICE, 4), 166)
        self.assertEqual(self.calc.close(Z2, 3, []).vectors, [])

    def test_members(self):
        yes = self.calc.member(MEET, 2, [[0, 1], [1, 0]], [0, 0])
        self.assertTrue(yes)
        self.assertEqual(str(yes.term), "meet(x1, x0)")
        no = self.calc.member(MEET, 2, [[0, 1], [1, 0]], [1, 1])
        self.assertFalse(no)
        self.assertEqual(len(no), 3)

    def test_elements(self):
        self.assertEqual(self.calc.sub(Z4, [2]), (0, 2))
        self.assertEqual(self.calc.ones(Z2), ((0,), (0, 1)))
        self.assertEqual(self.calc.eval(Z3, "plus(x0, x1)", [1, 1]), 2)
        self.assertIsInstance(self.calc.holds(Z3, "plus(x0, x1)", "plus(x1, x0)"), Holds)
        self.assertEqual(self.calc.holds(Z3, "plus(x0, x1)", "x1"), Fails((1, 0)))

    def test_homomorphisms(self):
        self.assertEqual(self.calc.hom(Z4, Z2, [1], [1]), Homomorphism({0: 0, 1: 1, 2: 0, 3: 1}))
        clash = self.calc.hom(Z2, Z4, [1], [1])
        self.assertIsInstance(clash, Clash)
        self.assertEqual((clash.element, clash.values, str(clash.steps[1])), (1, (1, 3), "plus(plus(x0, x0), x0)"))

    def test_congruences(self):
        self.assertEqual(self.calc.cg(Z4, [[0, 2]]), Partition([[0, 2], [1, 3]]))
        lattice = self.calc.con(Z4)
        self.assertEqual((len(lattice), lattice.covers, lattice.join_irreducibles), (3, ((0, 1), (1, 2)), (1, 2)))
        self.assertEqual([cover.type for cover in self.calc.types(Z4).covers], [2, 2])
        self.assertIn('[label="4"]', self.calc.typed_con(LATTICE).to_dot())
        self.assertIsInstance(self.calc.central(Z4, FULL4, FULL4, "|0|1|2|3|"), Central)
        matrix = self.calc.central(LATTICE, FULL2, FULL2, "|0|1|")
        self.assertIsInstance(matrix, NotCentral)
        self.assertEqual((matrix.matrix, str(matrix.steps)), ((0, 0, 0, 1), "meet(x5, x1)"))
        self.assertEqual(self.calc.comm(LATTICE, FULL2, FULL2), Partition.full(2))
        self.assertEqual(len(self.calc.series(Z4, "derived").members), 2)
        self.assertEqual(self.calc.series(LATTICE, "lower").members, (Partition.full(2),))

    def test_conditions(self):
        self.assertIsInstance(self.calc.cond(Z3, "maltsev"), Yes)
        self.assertIsInstance(self.calc.cond(LATTICE, "maltsev"), No)
        self.assertTrue(self.calc.nu(LATTICE, 3))
        self.assertTrue(self.calc.condition(Z3, 4, "(x x x y) = y (x y y y) = x"))
        self.assertFalse(self.calc.condition(MEET, 2, [("xy", "y"), ("yx", "y")]))
        self.assertTrue(self.calc.clone(MEET, 2, [0, 0, 0, 1]))
        self.assertFalse(self.calc.clone(MEET, 2, [0, 1, 1, 1]))
        self.assertEqual(str(self.calc.clone(Z2, 1, [1, 0], polynomial=True).term), "plus(1, x0)")
        self.assertFalse(self.calc.interpolate(Z2, 1, [[0, 1]]))
        self.assertTrue(self.calc.interpolate(Z2, 1, [[0, 1]], polynomial=True))

    def test_chains(self):
        chain = self.calc.jonsson(LATTICE)
        self.assertIsInstance(chain, Chain)
        self.assertEqual((chain.length, str(chain.terms[0]), str(chain.terms[2])), (2, "x0", "x2"))
        self.assertIsInstance(self.calc.hm(LATTICE), NoChain)
        self.assertIsInstance(self.calc.hm(Z3), Chain)
        self.assertIsInstance(self.calc.day(Z2), Chain)
        self.assertIsInstance(self.calc.day(MEET), NoChain)

    def test_constructions(self):
        product = self.calc.product(Z2, Z2, "V")
        self.assertEqual((product.name, product.size, product.value("plus", 1, 2)), ("V", 4, 3))
        self.assertEqual(self.calc.quotient(Z4, "|0 2|1 3|").operations, Z2.operations)
        self.assertEqual(self.calc.subalgebra(Z4, [2]).operations, Z2.operations)
        self.assertEqual(list(self.calc.reduct(LATTICE, ["join"]).operations), ["join"])

    def test_certificates(self):
        for algebra, certificate, kind in [
            (MEET, self.calc.certify_close(MEET, 2, [[0, 1], [1, 0]]), "listing"),
            (MEET, self.calc.certify_member(MEET, 2, [[0, 1], [1, 0]], [0, 0]), "member"),
            (MEET, self.calc.certify_member(MEET, 2, [[0, 1], [1, 0]], [1, 1]), "not_member"),
            (Z3, self.calc.certify_cond(Z3, "maltsev"), "condition"),
            (Z3, self.calc.certify_nu(Z3, 3), "no_condition"),
            (LATTICE, self.calc.certify_jonsson(LATTICE), "chain"),
            (LATTICE, self.calc.certify_hm(LATTICE), "no_chain"),
            (Z3, self.calc.certify_condition(Z3, 4, "(x x x y) = y (x y y y) = x"), "member"),
            (MEET, self.calc.certify_condition(MEET, 2, "(x y) = y (y x) = y"), "not_member"),
            (MEET, self.calc.certify_clone(MEET, 2, [0, 0, 0, 1]), "member"),
            (Z2, self.calc.certify_clone(Z2, 1, [1, 0]), "not_member"),
            (Z2, self.calc.certify_clone(Z2, 1, [1, 0], polynomial=True), "member"),
        ]:
            with self.subTest(kind=kind):
                self.assertIsInstance(certificate, Certificate)
                self.assertEqual(certificate.kind, kind)
                self.assertEqual((certificate.check(algebra), self.calc.check(algebra, certificate)), (Valid(), Valid()))
        self.assertEqual(str(self.calc.check(MEET, '{"kind":"ä"}')), "cert shape kind")

    def test_names_of_elements(self):
        listing = self.calc.close(NAMED, 2, [["bot", "top"], ["top", 0]])
        self.assertEqual(listing.vectors, [(0, 0), (0, 1), (1, 0)])
        self.assertEqual(self.calc.eval(NAMED, "meet(x0, x1)", ["top", "bot"]), 0)
        self.assertEqual(self.calc.hom(NAMED, NAMED, ["top"], ["bot"]), Homomorphism({1: 0}))
        self.assertEqual(self.calc.sub(NAMED, [1, "bot"]), (0, 1))

    def test_errors(self):
        for kind, ask in [
            ("unknown", lambda: self.calc.eval(MEET, "join(x0, x1)", [0, 1])),
            ("unknown", lambda: self.calc.sub(NAMED, ["mid"])),
            ("range", lambda: self.calc.close(MEET, 2, [[0, 2]])),
            ("range", lambda: self.calc.nu(MEET, 2)),
            ("shape", lambda: self.calc.close(MEET, 2, [[0]])),
            ("congruence", lambda: self.calc.comm(Z4, "|0 1|2|3|", FULL4)),
            ("signature", lambda: self.calc.hom(Z2, MEET, [0], [0])),
            ("size", lambda: self.calc.subalgebra(Z4, [])),
            ("wide", lambda: self.calc.close(MEET, 67_108_864, [])),
        ]:
            with self.subTest(kind=kind), self.assertRaises(CommandError) as caught:
                ask()
            self.assertEqual(caught.exception.kind, kind)
        self.assertGreater(caught.exception.cells, 67_108_864)
        with self.assertRaises(CommandError) as caught:
            self.calc.close(MEET, 2, [[0, 2]])
        self.assertEqual(caught.exception.token, "2")
        with self.assertRaises(CommandError) as caught:
            self.calc.comm(Z4, "|0 1|2|3|", FULL4)
        self.assertEqual(caught.exception.clash[0], "plus")

    def test_exceeds(self):
        small = Calculator(budget=3)
        answer = small.close(Z2, 3, [[1, 0, 0], [0, 1, 0], [0, 0, 1]])
        self.assertIsInstance(answer, Exceeds)
        self.assertEqual((answer.budget, len(answer.rows)), (3, 4))
        self.assertEqual(small.size(Z4, 2, [[0, 1], [1, 0]]), Exceeds(3))
        self.assertIsInstance(small.hm(LATTICE), Exceeds)
        self.assertIsInstance(small.certify_hm(LATTICE), Exceeds)
        self.assertIsInstance(small.cond(LATTICE, "maltsev"), Exceeds)
        two = Calculator(budget=2)
        self.assertEqual(len(two.con(Z4).partitions), 3)
        self.assertEqual(two.types(Z4), Exceeds(2))
        self.assertIsInstance(two.typed_con(Z4), Exceeds)

    def test_many_questions_in_one_process(self):
        script = Script()
        for algebra in (MEET, LATTICE, Z2, Z3, Z4):
            script.ask("con", algebra)
            script.ask("series", algebra, "derived")
            script.ask("cg", algebra, [[0, 1]])
        wanted = self.calc.run(script)
        self.assertEqual(len(wanted), 15)
        for options in ({"jobs": 4}, {"workers": 4}, {"workers": 2, "jobs": 8}):
            self.assertEqual(Calculator(**options).run(script), wanted)
        beyond = Calculator(budget=3).run(script, errors="keep")
        self.assertIsInstance(beyond[13], Exceeds)
        self.assertEqual(beyond[14], Partition.full(4))

    def test_errors_are_kept_where_that_is_asked(self):
        script = Script()
        script.ask("close", MEET, 2, [[0, 2]])
        script.ask("sub", MEET, [1])
        error, answer = self.calc.run(script, errors="keep")
        self.assertEqual((error.kind, answer), ("range", (1,)))
        with self.assertRaises(CommandError):
            self.calc.run(script)
        with self.assertRaises(InputFault):
            self.calc.run(script, errors="ignore")

    def test_the_examples(self):
        for name, text, replies in examples():
            if not (EXAMPLES / name).with_suffix(".args").exists():
                with self.subTest(name=name):
                    self.assertEqual(len(self.calc.answers_to(text)), len(Script.parse(text)))
                    self.assertTrue(replies)
        (error,) = self.calc.answers_to("algebra M size 2 end # ä\n\n close M 2 [0\n  5]")
        self.assertEqual((str(error.place), error.token), ("4:3", "5"))
        with self.assertRaises(ScriptFault):
            self.calc.answers_to("con")

    def test_a_time_limit(self):
        script = Script()
        script.ask("sub", MEET, [1])
        script.ask("close", Z4, 12, HUGE, "count")
        with self.assertRaises(TimeLimit) as caught:
            Calculator(seconds=0.5, budget=1_000_000).run(script)
        self.assertEqual(caught.exception.answers, [(1,)])


class Methods(unittest.TestCase):
    def test_every_form_has_a_method(self):
        words = Words()
        arguments = {
            "algebra": MEET, "other": MEET, "first": MEET, "second": MEET, "width": 2, "vectors": [[0, 1]], "target": [0, 1],
            "generators": 2, "elements": [0], "images": [1], "term": "x0", "left": "x0", "right": "x1", "pairs": [[0, 1]],
            "alpha": FULL2, "beta": FULL2, "delta": FULL2, "kind": "derived", "name": "maltsev", "places": 3,
            "identities": "(x y y) = x", "arity": 1, "values": [0, 1], "points": [[0, 1]], "congruence": FULL2,
            "operations": ["meet"], "certificate": "{}",
        }  # fmt: skip
        for name, method in vars(Questions).items():
            if name.startswith("_") or name == "ask":
                continue
            code = method.__code__
            taken = code.co_varnames[1 : code.co_argcount - len(method.__defaults__ or ())]
            getattr(words, name)(*(arguments[word] for word in taken))
        self.assertEqual({word for word, _ in words.asked}, set(FORMS))
        certified = {word for word, form in FORMS.items() if form.can_certify}
        self.assertEqual({word for word, cert in words.asked if cert}, certified)


class Processes(unittest.TestCase):
    """Programs that stand in for the calculator and do not run as it does."""

    def asks(self, code, error, **options):
        script = Script()
        script.ask("sub", MEET, [1])
        script.ask("close", MEET, 1, [[0], [1]])
        with FakeProgram(code, **options) as calculator, self.assertRaises(error) as caught:
            calculator.run(script)
        return caught.exception

    def test_a_program_that_is_missing(self):
        with self.assertRaises(ProgramError):
            Calculator("/nowhere/uacalc")
        with mock.patch.dict(os.environ, {"UACALC": "/nowhere/uacalc"}), self.assertRaises(ProgramError):
            Calculator()

    def test_a_program_that_cannot_be_run(self):
        with FakeProgram("") as calculator:
            calculator.program = os.path.dirname(calculator.program)
            with self.assertRaises(ProgramError) as caught:
                calculator.sub(MEET, [1])
        self.assertIsNone(caught.exception.status)

    def test_a_program_that_goes_away(self):
        with FakeProgram("") as calculator:
            pass
        with self.assertRaises(ProgramError):
            calculator.sub(MEET, [1])

    def test_a_program_that_is_killed(self):
        error = self.asks("sys.stdout.write('{1}\\nclosed 2\\n'); sys.stdout.flush(); os.kill(os.getpid(), 9)", ProgramError)
        self.assertEqual((error.status, error.message), (-9, "the program was killed by signal 9"))

    def test_a_program_that_ends_otherwise(self):
        error = self.asks("sys.stdin.read(); sys.stderr.write('out of memory\\n'); sys.exit(6)", ProgramError)
        self.assertEqual((error.status, error.message), (6, "out of memory"))
        whole = "{1}\\nclosed 2\\n[0] 0 gen 0\\n[1] 1 gen 1\\n"
        error = self.asks(f"sys.stdout.write('{whole}'); sys.exit(4)", ProgramError)
        self.assertEqual((error.status, error.message), (4, "the program said nothing"))

    def test_a_reply_that_is_cut_at_any_byte(self):
        whole = "{1}\nclosed 2\n[0] 0 gen 0\n[1] 1 gen 1\n"
        for end in range(len(whole)):
            self.asks(f"sys.stdout.write({whole[:end]!r})", ReplyFault)

    def test_a_reply_to_other_questions(self):
        self.asks("sys.stdout.write('{1}\\n{1}\\n')", ReplyFault)
        self.asks("sys.stdout.write('{1}\\nclosed 2\\n[0] 0 gen 0\\n[1] 1 gen 1\\n{}\\n')", ReplyFault)
        self.asks("sys.stdout.write('{1}\\nexceeds 5\\n'); time.sleep(60)", ReplyFault)

    def test_a_program_that_does_not_end(self):
        error = self.asks("sys.stdout.write('{1}\\n'); sys.stdout.flush(); time.sleep(60)", TimeLimit, seconds=0.5)
        self.assertEqual(error.answers, [(1,)])

    def test_a_program_that_does_not_read(self):
        long = Script()
        for _ in range(20_000):
            long.ask("sub", MEET, [1])
        with FakeProgram("os.close(0); sys.stdout.write('{1}\\n' * 20000)") as calculator:
            self.assertEqual(len(calculator.run(long)), 20_000)

    def test_options(self):
        for options in ({"workers": 0}, {"workers": 17}, {"jobs": 5, "workers": 4}, {"budget": 0}, {"budget": 1_000_001}):
            with self.subTest(options=options), self.assertRaises(InputFault):
                Calculator(sys.executable, **options)

    def test_the_words_of_the_command_line(self):
        code = "import json; open(sys.argv[0] + '.words', 'w').write(json.dumps(sys.argv[1:])); sys.stdout.write('{1}\\n')"
        with FakeProgram(code, workers=2, budget=7, jobs=3) as calculator:
            calculator.sub(MEET, [1])
            with open(f"{calculator.program}.words", encoding="utf-8") as words:
                self.assertEqual(words.read(), '["--workers", "2", "--budget", "7", "--jobs", "3"]')


class Bars(unittest.TestCase):
    def test_a_bar_is_drawn_at_a_terminal_alone(self):
        for is_terminal in (True, False):
            stream = io.StringIO()
            stream.isatty = lambda: is_terminal  # noqa: B023
            with mock.patch("uacalc.progress.EVERY", 0):
                bar = Progress(2, stream)
                bar.step()
                bar.close()
            self.assertEqual("1/2" in stream.getvalue(), is_terminal)
            self.assertEqual(bool(stream.getvalue()), is_terminal)
