"""The tools: each case in cases/, the check of certificates, and what is said of faulty words.

A file TOOL-CASE.in is an input, with the words of TOOL-CASE.args where that stands. What the tool is to print stands in
TOOL-CASE.out, with status 0, or 1 where a certificate is not valid; or what it is to say on standard error, with status
1, in TOOL-CASE.err.
"""

import subprocess
import unittest

from uacalc.__main__ import TOOLS
from uacalc.process import find_program

from .support import CASES, EXAMPLES, MEET, NAMED, examples, needs_program, run_process, run_tool
from .test_checking import LISTING, MEMBER, OUTSIDE


def expected_of(case):
    said = case.with_suffix(".err")
    if said.exists():
        return b"", said.read_bytes(), 1
    out = case.with_suffix(".out").read_bytes()
    return out, b"", int(tool_of(case) == "check" and out != b"valid\n")


def tool_of(case):
    return case.stem.partition("-")[0]


def words_of(case):
    words = case.with_suffix(".args")
    return words.read_text(encoding="utf-8").split("\n")[:-1] if words.exists() else []


class Cases(unittest.TestCase):
    def test_each(self):
        for case in sorted(CASES.glob("*.in")):
            with self.subTest(case=case.stem):
                self.assertEqual(run_tool([tool_of(case), *words_of(case)], case.read_bytes()), expected_of(case))

    @needs_program
    def test_the_program_reads_each_block(self):
        for case in sorted(CASES.glob("*2script-*.out")):
            with self.subTest(case=case.stem):
                run = subprocess.run([find_program()], input=case.read_bytes(), capture_output=True, check=False)
                self.assertEqual((run.stdout, run.stderr, run.returncode), (b"", b"", 0))


class Words(unittest.TestCase):
    def test_a_tool_is_a_process(self):
        case = CASES / "gap2script-group.in"
        wanted = run_tool(["gap2script", *words_of(case)], case.read_bytes())
        self.assertEqual(run_process(["gap2script", *words_of(case)], case.read_bytes()), wanted)
        self.assertEqual(run_process(["con2dot"], b"types 0\n")[2], 1)
        self.assertEqual(run_process(["check"], b"check M {}")[:2], (b"error unknown 1:7\n", b""))
        self.assertEqual(run_process([])[2], 2)

    def test_each_tool_tells_its_words(self):
        for tool in TOOLS:
            out, error, status = run_tool([tool, "--help"])
            self.assertEqual((status, error), (0, b""), tool)
            self.assertIn(b"usage: uacalc " + tool.encode(), out)

    def test_what_is_no_tool(self):
        for words in ([], ["con2dots"], [""]):
            out, error, status = run_tool(words)
            self.assertEqual((out, status), (b"", 2))
            self.assertTrue(error.startswith(b"usage:"))
        self.assertEqual(run_tool(["gap2script", "3"])[2], 2)


class Scripts(unittest.TestCase):
    """Replies that are read with their script."""

    def test_types_are_drawn_on_their_own_algebra_alone(self):
        script, replies = CASES / "other.ua", (CASES / "other.replies").read_bytes()
        out, error, status = run_tool(["con2dot", "--script", str(script), "--algebra", "Z2"], replies)
        self.assertEqual((error, status), (b"", 0))
        self.assertIn(b"n0 -> n1;", out)
        out, _, _ = run_tool(["con2dot", "--script", str(script), "--algebra", "L"], replies)
        self.assertIn(b'n0 -> n1 [label="4"];', out)
        _, error, status = run_tool(["con2dot", "--script", str(script)], replies)
        told = f"con2dot: {script}: the script has several `con`: name one by --algebra\n"
        self.assertEqual((error, status), (told.encode(), 1))
        _, error, status = run_tool(["con2dot", "--script", str(script), "--algebra", "K"], replies)
        self.assertEqual((error, status), (f"con2dot: {script}: the script has no `con` of K\n".encode(), 1))
        self.assertEqual(run_tool(["con2dot", "--script", "nothing.ua"], replies)[2], 1)

    def test_every_term_comes(self):
        script, replies = EXAMPLES / "certificates.ua", (EXAMPLES / "certificates.out").read_bytes()
        self.assertEqual(run_tool(["steps2term", "--script", str(script)], replies)[0], b"")
        script, replies = EXAMPLES / "maltsev.ua", (EXAMPLES / "maltsev.out").read_bytes()
        out, error, status = run_tool(["steps2term", "--script", str(script)], replies)
        self.assertEqual((error, status, out.count(b"\n")), (b"", 0, replies.count(b"yes")))
        _, error, status = run_tool(["steps2term"], replies)
        self.assertEqual(status, 1)
        self.assertIn(b"several replies have steps: --script tells them apart", error)

    def test_a_reply_to_another_script(self):
        replies = (EXAMPLES / "maltsev.out").read_bytes()
        _, error, status = run_tool(["steps2term", "--script", str(EXAMPLES / "meet.ua")], replies)
        self.assertEqual((error, status), (b"steps2term: 1:1 `closed N` or `exceeds N` is needed\n", 1))

    def test_the_examples(self):
        for name, _, replies in examples():
            with self.subTest(name=name):
                _, error, status = run_tool(["steps2term", "--script", str(EXAMPLES / name)], replies)
                self.assertEqual((error, status), (b"", 0))


class Check(unittest.TestCase):
    def test_verdicts(self):
        script = MEET.block() + "".join(f"check M {text}\n" for text in (MEMBER, OUTSIDE, LISTING))
        self.assertEqual(run_tool(["check"], script.encode()), (b"valid\nvalid\nvalid\n", b"", 0))
        script += f"check K {MEMBER}\ncheck M {{}}\n" + 'check M {"kind":"member","ä":0}'
        told = b"valid\nvalid\nvalid\nerror unknown 9:7\ncert shape kind\ncert shape gens\n"
        self.assertEqual(run_tool(["check"], script.encode()), (told, b"", 1))
        self.assertEqual(run_tool(["check"], f"{NAMED.script()}check N {MEMBER}".encode()), (b"valid\n", b"", 0))

    def test_a_block_with_a_value_too_many_is_none(self):
        script = f"algebra M size 2\nop meet 2 = 0 0 0 1 1\nop join 2 = 0 1 1 1\nend\ncheck M {OUTSIDE}\n"
        self.assertEqual(run_tool(["check"], script.encode()), (b"", b"syntax 2:21 word\n", 2))

    def test_a_script_longer_than_the_program_takes(self):
        script = f"{MEET.block()}# {'x' * 2**24}\ncheck M {MEMBER}\n"
        self.assertEqual(run_tool(["check"], script.encode()), (b"valid\n", b"", 0))

    def test_what_is_no_such_script(self):
        told = b" only blocks and `check` may stand here, and at least one `check`\n"
        self.assertEqual(run_tool(["check"], b""), (b"", b"1:1" + told, 2))
        self.assertEqual(run_tool(["check"], MEET.block().encode() + b"con M"), (b"", b"6:5" + told, 2))
        self.assertEqual(run_tool(["check"], b"check M 3"), (b"", b"syntax 1:9 word\n", 2))
