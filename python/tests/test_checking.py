"""Certificates: how texts are read, and the first flaw of each."""

import json
import unittest

from uacalc import Algebra, Certificate, CertificateFault
from uacalc.checking import check_text

from .support import LATTICE, MEET, NAMED, Z2, Z3

GENS = '"gens":[[0,1],[1,0]]'
MEMBER = '{"gens":[[0,1],[1,0]],"kind":"member","steps":[["gen",0],["gen",1],["meet",1,0]],"target":[0,0],"width":2}'
OUTSIDE = '{"gens":[[0,1],[1,0]],"kind":"not_member","rows":[[0,0],[0,1],[1,0]],"target":[1,1],"width":2}'
LISTING = (
    '{"gens":[[0,1],[1,0]],"kind":"listing","origins":[["meet",2,1],["gen",0],["gen",1]],"ranks":[2,0,1],'
    '"rows":[[0,0],[0,1],[1,0]],"width":2}'
)
MAJORITY = (
    '{"k":3,"kind":"condition","name":"majority","steps":[["gen",0],["gen",1],["gen",2],["meet",1,0],["join",1,0],'
    '["join",3,2],["meet",5,4]]}'
)
NONE = (
    '{"k":3,"kind":"no_condition","name":"majority","rows":[[0,0,0,1,0,0,0,1,0,0,0,1],[0,0,0,1,0,0,0,1,0,0,1,1],'
    "[0,0,0,1,0,0,1,1,0,0,0,1],[0,0,1,1,0,0,0,1,0,0,0,1],[0,0,1,1,0,0,1,1,0,1,0,1],[0,0,1,1,0,1,0,1,0,0,1,1],"
    "[0,1,0,1,0,0,1,1,0,0,1,1]]}"
)
CHAIN = (
    '{"kind":"chain","name":"jonsson","terms":[[["gen",0]],[["gen",0],["gen",1],["gen",2],["meet",1,0],["join",1,0],'
    '["join",3,2],["meet",5,4]],[["gen",2]]]}'
)
NO_CHAIN = (
    '{"even":[3],"kind":"no_chain","name":"hm","odd":[],"rows":[[0,0,0,1,0,0,0,1],[0,0,0,1,0,1,0,1],[0,0,1,1,0,0,0,1],'
    "[0,0,1,1,0,0,1,1],[0,0,1,1,0,1,0,1],[0,1,0,1,0,1,0,1]]}"
)
JSON = [
    ("{", "json"),
    ("[]", "shape"),
    ("3", "shape"),
    ("{}", "shape kind"),
    ('{"kind":"members"}', "shape kind"),
    ('{"kind":3}', "shape kind"),
    (MEMBER.replace('"width":2', '"width":2,'), "json"),
    (MEMBER + "x", "json"),
    (MEMBER.replace('"width"', '"size"'), "shape size"),
    (MEMBER.replace(',"width":2', ""), "shape width"),
    (MEMBER.replace('"width":2', '"width":"2"'), "shape width"),
    (MEMBER.replace('"width":2', '"width":true'), "shape width"),
    (MEMBER.replace('"width":2', '"width":-0'), "range width"),
    (MEMBER.replace('"width":2', '"width":2.0'), "range width"),
    (MEMBER.replace('"width":2', '"width":2e0'), "range width"),
    (MEMBER.replace('"width":2', '"width":4294967296'), "range width"),
    (MEMBER.replace('"width":2', '"width":4294967295'), "flaw width"),
    (MEMBER.replace('"width":2', '"width":' + "9" * 300), "range width"),
    (MEMBER.replace('"width":2', '"width":' + "9" * 400), "json"),
    (MEMBER.replace('"width":2', '"width":1e999'), "json"),
    (MEMBER.replace('"width":2', '"width":02'), "json"),
    (MEMBER.replace('"width":2', '"width":NaN'), "json"),
    (MEMBER.replace("[0,1]", "[0,-1]"), "range gens/0/1"),
    (MEMBER.replace("[0,1]", '[0,"1"]'), "shape gens/0/1"),
    (MEMBER.replace("[0,1]", "[0,-1]").replace('"width":2', '"width":null'), "shape width"),
    (MEMBER.replace('["meet",1,0]', "[]"), "shape steps/2"),
    (MEMBER.replace('["meet",1,0]', "3"), "shape steps/2"),
    (MEMBER.replace('["meet",1,0]', "[0,1,0]"), "shape steps/2/0"),
    (MEMBER.replace('["meet",1,0]', '["meet",1,"0"]'), "shape steps/2/2"),
    (MAJORITY.replace("majority", "day"), "shape name"),
    (CHAIN.replace("jonsson", "day"), "shape name"),
    (CHAIN.replace('[["gen",2]]', '["gen",2]'), "shape terms/2/0"),
    (MEMBER.replace("meet", "m\\u0065et"), "valid"),
    (MEMBER.replace("meet", "\\ud83d\\ude00"), "flaw step 2"),
    (MEMBER.replace("meet", "\\ud83d"), "json"),
    (MEMBER.replace('"gens"', '"\\ude00"'), "json"),
    (MEMBER[:-1] + ',"width":2}', "valid"),
    (MEMBER[:-1] + ',"width":"x","width":2}', "valid"),
    (MEMBER[:-1] + ',"width":[1e999],"width":2}', "json"),
    (MEMBER[:-1] + ',"width":' + "[" * 126 + "]" * 126 + ',"width":2}', "valid"),
    (MEMBER[:-1] + ',"width":' + "[" * 127 + "]" * 127 + ',"width":2}', "json"),
    (MEMBER[:-1] + ',"width":' + "[" * 9999 + "]" * 9999 + ',"width":2}', "json"),
    (" " + MEMBER.replace(",", "\t,\r ") + " ", "valid"),
]
FLAWS = [
    (MEET, MEMBER, '"width":2', '"width":0', "width"),
    (MEET, MEMBER, '"width":2', '"width":67108865', "width"),
    (MEET, MEMBER, '[["gen",0],["gen",1],["meet",1,0]]', "[]", "width"),
    (MEET, MEMBER, "[1,0]],", "[1,2]],", "vector gens 1"),
    (MEET, MEMBER, '"target":[0,0]', '"target":[0]', "vector target 0"),
    (MEET, MEMBER, '["gen",1]', '["gen",2]', "step 1"),
    (MEET, MEMBER, '["meet",1,0]', '["meet",2,0]', "step 2"),
    (MEET, MEMBER, '["meet",1,0]', '["meet",1]', "step 2"),
    (MEET, MEMBER, '["meet",1,0]', '["join",1,0]', "step 2"),
    (MEET, MEMBER, '"target":[0,0]', '"target":[0,1]', "target"),
    (MEET, OUTSIDE, "[0,0],[0,1]", "[0,1],[0,0]", "order 1"),
    (MEET, OUTSIDE, "[0,0],[0,1]", "[0,0],[0,0]", "order 1"),
    (MEET, OUTSIDE, "[0,0],[0,1]", "[0,0],[0,2]", "vector rows 1"),
    (MEET, OUTSIDE, ",[1,0]],\"t", "],\"t", "generator 1"),
    (MEET, OUTSIDE, "[0,0],", "", "result meet 0 1"),
    (MEET, OUTSIDE, '"target":[1,1]', '"target":[1,0]', "target"),
    (MEET, LISTING, "[2,0,1]", "[2,0]", "rank 2"),
    (MEET, LISTING, "[2,0,1]", "[2,0,0]", "rank 2"),
    (MEET, LISTING, "[2,0,1]", "[3,0,1]", "rank 0"),
    (MEET, LISTING, "[2,0,1]", "[2,0,1,3]", "rank 3"),
    (MEET, LISTING, "[2,0,1]", "[0,1,2]", "origin 0"),
    (MEET, LISTING, '["gen",0],', '["gen",1],', "origin 1"),
    (MEET, LISTING, ',["gen",1]]', "]", "origin 2"),
    (MEET, LISTING, '["gen",1]]', '["gen",1],["gen",1]]', "origin 3"),
    (MEET, LISTING, '"meet",2,1', '"meet",3,1', "origin 0"),
    (MEET, LISTING, '"gens":[[0,1],[1,0]]', '"gens":[[0,1],[1,0],[1,1]]', "generator 2"),
    (LATTICE, MAJORITY, '"k":3', '"k":4', "width"),
    (LATTICE, MAJORITY, '"name":"majority"', '"name":"maltsev"', "identity 0 [0 1]"),
    (LATTICE, MAJORITY, '["meet",5,4]', '["join",5,4]', "identity 0 [0 1]"),
    (LATTICE, MAJORITY, '["gen",2]', '["gen",3]', "step 2"),
    (MEET, NONE, '"name":"majority"', '"name":"maltsev"', "vector rows 0"),
    (MEET, NONE, '"k":3', '"k":16', "width"),
    (MEET, NONE, "[0,0,0,1,0,0,0,1,0,0,0,1],", "", "result meet 0 1"),
    (LATTICE, CHAIN, '[["gen",0]],', '[["gen",1]],', "link 0"),
    (LATTICE, CHAIN, '[["gen",2]]]', '[["gen",0]]]', "link 1"),
    (LATTICE, CHAIN, '["meet",5,4]', '["join",5,4]', "link 0"),
    (LATTICE, CHAIN, '["meet",5,4]', '["meet",6,4]', "step 1 6"),
    (LATTICE, CHAIN, '[["gen",0]],', "[],", "width"),
    (MEET, NO_CHAIN, '"even":[3]', '"even":[]', "reached 3"),
    (MEET, NO_CHAIN, '"even":[3]', '"even":[3,2]', "reached 2"),
    (MEET, NO_CHAIN, '"even":[3]', '"even":[3,6]', "reached 6"),
    (MEET, NO_CHAIN, '"odd":[]', '"odd":[3]', "reached 3"),
    (MEET, NO_CHAIN, '"even":[3]', '"even":[3,5]', "reached 1"),
    (MEET, NO_CHAIN, '"even":[3]', '"even":[0,3]', "reached 2"),
    (MEET, NO_CHAIN, '"name":"hm"', '"name":"jonsson"', "vector rows 0"),
]


class Reading(unittest.TestCase):
    def test_texts(self):
        for text, told in JSON:
            with self.subTest(text=text[:200]):
                verdict = str(check_text(MEET, text))
                self.assertEqual(verdict.replace("cert ", "", 1), told)

    def test_bytes_that_are_not_utf8(self):
        self.assertEqual(str(check_text(MEET, MEMBER.encode().replace(b"meet", b"\xff"))), "cert json")
        self.assertEqual(str(check_text(MEET, MEMBER.replace("meet", "é"))), "flaw step 2")

    def test_certificates_are_written_as_they_are_read(self):
        for text in (MEMBER, OUTSIDE, LISTING, MAJORITY, NONE, CHAIN, NO_CHAIN):
            self.assertEqual(Certificate.read(text).text(), text)
            self.assertEqual(Certificate.read(json.dumps(json.loads(text), indent=1)).text(), text)
        with self.assertRaises(CertificateFault) as caught:
            Certificate.read("{}")
        self.assertEqual((caught.exception.kind, caught.exception.path), ("shape", "kind"))


class Checking(unittest.TestCase):
    def test_valid_ones(self):
        for algebra, text in [(MEET, MEMBER), (MEET, OUTSIDE), (MEET, LISTING), (LATTICE, MAJORITY), (MEET, NONE)]:
            self.assertTrue(Certificate.read(text).check(algebra), text)
        for algebra, text in [(LATTICE, CHAIN), (MEET, NO_CHAIN), (NAMED, MEMBER)]:
            self.assertTrue(Certificate.read(text).check(algebra), text)

    def test_the_first_flaw(self):
        for algebra, text, old, new, flaw in FLAWS:
            with self.subTest(text=text, old=old, new=new):
                self.assertIn(old, text)
                self.assertEqual(str(check_text(algebra, text.replace(old, new, 1))), f"flaw {flaw}")

    def test_operations_of_each_arity(self):
        ternary = Algebra.from_functions("T", 2, {"f": lambda x, y, z: x ^ y ^ z, "c": lambda: 0, "g": lambda x: x})
        rows = '{{"gens":[[0,1]],"kind":"not_member","rows":{},"target":[1,1],"width":2}}'
        self.assertEqual(str(check_text(ternary, rows.format("[[0,0],[0,1]]"))), "valid")
        self.assertEqual(str(check_text(ternary, rows.format("[[0,1]]"))), "flaw result c")
        self.assertEqual(str(check_text(ternary, rows.format("[[0,0],[0,1],[1,0]]"))), "flaw result f 0 1 2")
        quaternary = Algebra.from_functions("Q", 2, {"h": lambda w, x, y, z: w & x & y & z})
        self.assertEqual(str(check_text(quaternary, rows.format("[[0,1],[1,0]]"))), "flaw result h 0 0 0 1")

    def test_a_wide_power_without_rows(self):
        constant = Algebra.from_tables("C", {"f": [0, 1], "c": 0})
        text = '{"gens":[],"kind":"listing","origins":[],"ranks":[],"rows":[],"width":67108864}'
        self.assertEqual(str(check_text(constant, text)), "flaw result c")
        self.assertEqual(str(check_text(MEET, text)), "valid")

    def test_large_algebras(self):
        large = Algebra.from_functions("Z", 300, {"minus": lambda x, y: (x - y) % 300})
        cert = {"gens": [[150]], "kind": "not_member", "rows": [[0], [150]], "target": [1], "width": 1}
        self.assertEqual(str(check_text(large, json.dumps(cert))), "valid")
        cert["rows"] = [[0], [50], [150]]
        self.assertEqual(str(check_text(large, json.dumps(cert))), "flaw result minus 0 1")

    def test_a_chain_whose_ends_are_not_written_as_variables(self):
        last = '[["gen",1],["gen",2],["plus",0,0],["plus",1,2]]'
        text = '{"kind":"chain","name":"hm","terms":[[["gen",0]],%s,%s]}'
        maltsev = '[["gen",0],["gen",1],["gen",2],["plus",0,2],["plus",3,1]]'
        self.assertEqual(str(check_text(Z2, text % (maltsev, last))), "valid")
        self.assertEqual(str(check_text(Z3, text % (maltsev, last))), "flaw link 0")
        self.assertEqual(str(check_text(Z2, text % (maltsev, last.replace('"gen",2', '"gen",1')))), "flaw link 2")
