"""Scripts: what is read, what is refused and where, what is printed, what is built."""

import subprocess
import unittest

from uacalc import Algebra, InputFault, Script, ScriptFault
from uacalc.commands import FORMS
from uacalc.process import find_program

from .support import LATTICE, MEET, NAMED, Z2, Z4, examples, needs_program

M = "algebra M size 2\nop m 2 = 0 0 0 1\nend\n"
LONG = "a" * 33

# A text, and the fault that is told of it.
FAULTS = [
    ("foo", "1:1 word"),
    ("# comment\n\n  $", "3:3 byte"),
    ("version 3\n", "1:9 number"),
    ("version", "1:8 end"),
    ("version x", "1:9 number"),
    ("version 2 version 2\n", "1:11 word"),
    ("algebra\n", "2:1 end"),
    ("algebra 3", "1:9 name"),
    ("algebra M M size 2\nend", "1:11 word"),
    ("algebra M size 0 end", "1:16 number"),
    ("algebra M size 256 end", "1:16 number"),
    ("version 2 algebra M size 1001 end", "1:26 number"),
    ("algebra M size 02 end", "1:16 byte"),
    ("algebra M size 2 names (a b) end", "1:18 word"),
    ("version 2 algebra M size 2 names a end", "1:34 word"),
    ("version 2 algebra M size 2 names (a) end", "1:36 name"),
    ("version 2 algebra M size 2 names (a 1) end", "1:37 name"),
    ("version 2 algebra M size 2 names (a b c) end", "1:39 word"),
    ("version 2 algebra M size 2 names (a a) end", "1:37 name"),
    ("algebra M size 2\nop gen 1 = 0 0\nend", "2:4 name"),
    ("algebra M size 2\nop x12 1 = 0 0\nend", "2:4 name"),
    ("algebra M size 2\nop f 1 = 0 0\nop f 1 = 0 0\nend", "3:4 name"),
    ("algebra M size 2\nop f 5 = 0\nend", "2:6 number"),
    ("algebra M size 2\nop f f = 0\nend", "2:6 number"),
    ("algebra M size 2\nop f 1 0 0\nend", "2:8 word"),
    ("algebra M size 2\nop f 1 = 0\nend", "3:1 value"),
    ("algebra M size 2\nop f 1 = 0 2\nend", "2:12 value"),
    ("algebra M size 2\nop f 1 = 2 0\nend", "2:10 value"),
    ("algebra M size 2\nop f 1 = 0 0 0\nend", "2:14 word"),
    ("algebra M size 2\nop f 1 = 0 1x\nend", "2:13 byte"),
    ("algebra M size 2\nop f 1 = 0 1_\nend", "2:13 byte"),
    ("algebra M size 2\nop f 1 = 0 1234567890\nend", "2:12 byte"),
    ("algebra M size 2\nop f 1 = 0 00\nend", "2:12 byte"),
    ("algebra M size 2\nop f 1 = 0 -1\nend", "2:12 byte"),
    ("algebra M size 2\nop f 1 = 0 1\n", "3:1 end"),
    ("algebra M size 2\nop f 1 = 0 # 1\n 1 stop", "3:4 word"),
    ("algebra M size 2 " + "".join(f"op f{i} 0 = 0 " for i in range(65)) + "end", f"1:{18 + 10 * 12 + 54 * 13} word"),
    (f"algebra {LONG} size 2 end", "1:9 byte"),
    (M + M, "4:9 name"),
    (M + "make M product M M", "4:6 name"),
    (M + "make 3 product M M", "4:6 name"),
    (M + "make P prod M M", "4:8 word"),
    (M + "make P reduct M ()", "4:18 name"),
    (M + "make P reduct M (m 3)", "4:20 word"),
    (M + "make P sub M (0)", "4:14 word"),
    (M + "check M\n", "5:1 end"),
    (M + "check {}\n", "4:7 name"),
    (M + "check M [0]\n", "4:9 word"),
    (M + "check M {} con M", "OK"),
    (M + "\x00", "4:1 byte"),
    (M + "ä", "4:1 byte"),
    (M + "close", "4:6 end"),
    (M + "close M x", "4:9 number"),
    (M + "close M 2 [0 b]", "4:14 item"),
    (M + "close M 2 [0 1", "4:15 end"),
    (M + "close M 2 [0 1] least count", "4:23 word"),
    (M + "cert close M 2 [0 1] least", "4:22 word"),
    (M + "cert free M 2", "4:6 word"),
    (M + "member M 2 [0 1]", "4:17 end"),
    (M + "member M 2 [0 1] [1 0] [1 1]", "4:29 end"),
    (M + "member M 2 [0 1] = 3", "4:20 word"),
    (M + "free M", "4:7 end"),
    (M + "eval M 3 [0]", "4:8 term"),
    (M + "eval M x0(x1) [0]", "4:10 term"),
    (M + "eval M m(x0, ) [0]", "4:14 term"),
    (M + "eval M m(x0 x1) [0]", "4:13 word"),
    (M + "eval M m(x0, x1 [0]", "4:17 word"),
    (M + "eval M m() [0]", "4:10 term"),
    (M + "eval M " + "m(" * 64 + "x0", f"4:{8 + 128 + 2} end"),
    (M + "eval M " + "m(" * 65, f"4:{8 + 129} term"),
    (M + "holds M x0", "4:11 end"),
    (M + "holds M x0 x1", "4:12 word"),
    (M + "cg M [0 1] |", "4:12 word"),
    (M + "comm M 0", "4:8 word"),
    (M + "comm M |a", "4:9 item"),
    (M + "comm M ||", "4:9 item"),
    (M + "comm M |0 1|", "4:13 end"),
    (M + "comm M |0 x", "4:11 item"),
    (M + "comm M |0|1 x", "4:13 item"),
    (M + "comm M |0|1| x", "4:14 word"),
    (M + "series M up", "4:10 word"),
    (M + "cond M nu", "4:8 word"),
    (M + "nu M x", "4:6 number"),
    (M + "condition M 2 x", "4:15 word"),
    (M + "condition M 2", "4:14 end"),
    (M + "condition M 2 ()", "4:16 word"),
    (M + "condition M 2 (x v) = x", "4:18 word"),
    (M + "condition M 2 (x y) x", "4:21 word"),
    (M + "clone M 1 terms", "4:11 word"),
    (M + "clone M 1 term whole", "4:16 word"),
    (M + "clone M 1 term total 1", "4:22 word"),
    (M + "clone M 1 term partial", "4:23 end"),
    (M + "clone M 1 term partial x", "4:24 word"),
    (M + "hom M [0]", "4:7 name"),
    (M + "types", "4:6 end"),
    (M + "end", "4:1 word"),
    (M + "con M {", "4:7 word"),
    ("version 1 " + M + "sub M [a]", "4:8 item"),
    ("version 2 " + M + "sub M [a]", "OK"),
    ("", "OK"),
    ("version 1", "OK"),
]


def fault_of(text):
    try:
        Script.parse(text)
    except ScriptFault as fault:
        return f"{fault.place} {fault.kind}"
    return "OK"


class Reading(unittest.TestCase):
    def test_faults(self):
        for text, fault in FAULTS:
            with self.subTest(text=text):
                self.assertEqual(fault_of(text), fault)

    @needs_program
    def test_faults_are_those_of_the_program(self):
        for text, _ in FAULTS:
            with self.subTest(text=text):
                run = subprocess.run([find_program()], input=text.encode(), capture_output=True, check=False)
                told = run.stderr.decode().strip()
                self.assertEqual(told.replace("syntax ", "", 1) if run.returncode == 5 else "OK", fault_of(text))

    def test_every_beginning_of_a_script_is_a_fault_or_a_script(self):
        for name, text, _ in examples():
            items = Script.parse(text).items
            for end in range(0, len(text), 7):
                fault = fault_of(text[:end])
                if fault == "OK":
                    read = Script.parse(text[:end]).items
                    self.assertLessEqual(len(read), len(items), name)

    def test_examples_are_printed_and_read_back(self):
        for name, text, _ in examples():
            script = Script.parse(text)
            again = Script.parse(script.text())
            self.assertEqual(again.items, script.items, name)
            self.assertEqual(again.text(), script.text(), name)

    def test_tables(self):
        values = list(range(7)) * 1000
        text = "algebra A size 7\nop f 4 = " + " ".join(map(str, values[: 7**4])) + "\nend"
        self.assertEqual(Script.parse(text).items[0].operations["f"].values, tuple(values[: 7**4]))
        scattered = "version 2 algebra A size 3 names (a b c) op f 2 = 0 1 2 # x\n a b 2\t\r\n c\n1 0 end"
        self.assertEqual(Script.parse(scattered).items[0].operations["f"].values, (0, 1, 2, 0, 1, 2, 2, 1, 0))

    def test_places_of_operands(self):
        (command,) = Script.parse(M + "close  M 2\n [0 1]").commands
        self.assertEqual([str(place) for place in command.places], ["4:8", "4:10", "5:2", "5:7"])

    def test_every_form_is_read_and_printed(self):
        texts = [
            "close A 2 [0 1] [a 0] least",
            "close A 0",
            "cert close A 2 [0 1]",
            "member A 2 [0 1] = [1 1]",
            "free A 3 count",
            "sub A []",
            "ones A",
            "hom A B [0] [1]",
            "eval A f(x0, g(c), x12) [0 1]",
            "holds A f(x0, x1) = x0",
            "cg A [0 1] [1 2]",
            "con A",
            "central A |0|1| |0 1| |0|1|",
            "comm A |0 1|2| |0|1|2|",
            "series A lower",
            "types A",
            "cond A pixley",
            "cert nu A 5",
            "jonsson A",
            "hm A",
            "day A",
            "condition A 3 (x y y) = x (x x w) = w",
            "clone A 2 polynomial partial [0 1 0] [1 1 0]",
            "clone A 1 term total [0 1]",
            "make P product A A",
            "make Q quotient A |0 1|",
            "make S sub A [0 1]",
            "make R reduct A (f g)",
            'check A {"kind":"member"}',
        ]
        for text in texts:
            (command,) = Script.parse(f"version 2 {text}").commands
            self.assertEqual(command.text(), text)
        self.assertEqual({Script.parse(f"version 2 {text}").commands[0].word for text in texts}, set(FORMS))


class Building(unittest.TestCase):
    def test_questions_and_blocks(self):
        script = Script()
        self.assertEqual(script.ask("close", MEET, 2, [[0, 1], [1, 0]]), 0)
        self.assertEqual(script.ask("close", MEET, 2, [[0, 1]], "count"), 1)
        self.assertEqual(script.ask("make", "P", ("product", MEET, MEET)), 2)
        self.assertEqual(script.ask("con", "P"), 3)
        text = script.text()
        self.assertEqual(text.count("algebra"), 1)
        self.assertTrue(text.endswith("close M 2 [0 1] count\nmake P product M M\ncon P\n"))
        self.assertEqual(Script.parse(text).commands, script.commands)

    def test_another_algebra_of_the_same_name_gets_its_own(self):
        script = Script()
        script.ask("con", MEET)
        script.ask("con", LATTICE.renamed("M"))
        script.ask("con", MEET.renamed("M"))
        self.assertEqual([command.values[0] for command in script.commands], ["M", "M_1", "M"])
        self.assertEqual(len(script.items), 5)

    def test_the_version(self):
        script = Script()
        script.ask("con", MEET)
        self.assertEqual(script.version, 1)
        script.ask("sub", NAMED, ["top", 0])
        self.assertEqual(script.version, 2)
        self.assertTrue(script.text().startswith("version 2\n"))
        large = Algebra("Large", 256, {})
        self.assertEqual(large.version, 2)

    def test_what_is_no_question(self):
        script = Script()
        for word, *values in [
            ("clos", MEET, 2, []),
            ("close", MEET),
            ("close", MEET, -1, []),
            ("close", MEET, 2, [[0, "1"]]),
            ("close", MEET, 2, [0, 1]),
            ("close", MEET, 2, [], "most"),
            ("eval", MEET, 3, [0]),
            ("cond", MEET, "nu"),
            ("comm", MEET, "|0 0|", "|0 1|"),
            ("clone", MEET, 1, "term", ("partial", [])),
            ("clone", MEET, 1, "term", ("whole", [0, 1])),
            ("make", "P", ("prod", MEET, MEET)),
            ("make", "P", ("reduct", MEET, [])),
            ("check", MEET, "{\n}"),
            ("con", MEET, 1),
            ("con", "not a name"),
        ]:
            with self.subTest(word=word, values=values), self.assertRaises((InputFault, TypeError)):
                script.ask(word, *values)
        with self.assertRaises(InputFault):
            script.ask("con", Z2, cert=True)
        script.ask("make", "P", ("product", Z2, Z2))
        with self.assertRaises(InputFault):
            script.ask("make", "P", ("product", Z4, Z4))
        with self.assertRaises(ScriptFault):
            script.ask("eval", MEET, "meet(", [0])
