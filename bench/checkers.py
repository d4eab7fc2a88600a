#!/usr/bin/env python3
"""Compares the checkers of certificates: bench/checkers.py PROGRAM [--coq CHECKER] [--seed N] [--certificates N]

The program makes certificates of all kinds on algebras that are drawn at random, in scripts of both versions. These and
damaged copies of them are checked by the program's `check`, by the check in Python, which is to print the same, and by the
checker in Coq, which is never to take one that the program does not. Scripts with damaged blocks are compared too: both
are to refuse them at the same place. A difference is printed, and ends the run with status 1.
"""

import argparse
import collections
import pathlib
import subprocess
import sys

from damage import damaged, damaged_block, draw_from

PACKAGE = pathlib.Path(__file__).resolve().parents[1] / "python"
sys.path.insert(0, str(PACKAGE))

from uacalc import Algebra, Calculator, Certificate, Operation, Script  # noqa: E402
from uacalc.tools.check import checked, verdicts  # noqa: E402

GROUP = 20  # algebras whose certificates are checked by one run
COPIES = 7  # damaged copies of each certificate
NAMES = ["bot", "a", "b", "c", "top"]


def algebra(draw, name):
    """An algebra of 1 to 4 elements with up to three operations."""
    size = draw.choice([1, 2, 2, 2, 3, 3, 4])
    operations = {}
    for index in range(draw.choice([0, 1, 1, 2, 2, 3])):
        arity = draw.choice([0, 1, 2, 2, 2, 3] if size < 4 else [0, 1, 2])
        word = draw.choice(["f", "meet", "plus"]) + str(index)
        operations[word] = Operation(arity, tuple(draw.randrange(size) for _ in range(size**arity)))
    if draw.random() < 0.4:
        operations["meet"] = Operation(2, tuple(min(x, y) for x in range(size) for y in range(size)))
    if draw.random() < 0.3:
        operations["join"] = Operation(2, tuple(max(x, y) for x in range(size) for y in range(size)))
    if draw.random() < 0.2:
        operations["plus"] = Operation(2, tuple((x + y) % size for x in range(size) for y in range(size)))
    return Algebra(name, size, operations, NAMES[:size] if draw.random() < 0.2 else [])


def vector(draw, made, width):
    return [draw.randrange(made.size) for _ in range(width)]


def questions(draw, script, made):
    """Asks for certificates of every kind."""
    width = draw.choice([1, 2, 3, 4])
    gens = [vector(draw, made, width) for _ in range(draw.randrange(4))]
    script.ask("close", made, width, gens, cert=True)
    script.ask("member", made, width, gens, vector(draw, made, width), cert=True)
    script.ask("member", made, width, gens, gens[0] if gens else vector(draw, made, width), cert=True)
    script.ask("cond", made, draw.choice(["maltsev", "majority", "minority", "pixley"]), cert=True)
    script.ask("nu", made, draw.choice([3, 3, 4]), cert=True)
    script.ask("jonsson", made, cert=True)
    script.ask("hm", made, cert=True)


def groups(program, draw, count):
    """Groups of algebras, each with its certificates and damaged copies, until there are so many in all."""
    calculator = Calculator(program, budget=60)
    made = 0
    while made < count:
        script = Script()
        group = {}
        asked = []
        for number in range(GROUP):
            drawn = algebra(draw, f"A{number}")
            before = len(script)
            questions(draw, script, drawn)
            asked += [drawn] * (len(script) - before)
        for drawn, answer in zip(asked, calculator.run(script, errors="keep", progress=False)):
            if isinstance(answer, Certificate):
                text = answer.text()
                copies = [text.encode()] + [damaged(draw, text) for _ in range(COPIES)]
                group.setdefault(drawn.name, (drawn, []))[1].append((answer.kind, copies))
                made += len(copies)
        yield list(group.values())


def ran(words, text):
    run = subprocess.run(words, input=text, capture_output=True, check=False)
    return run.stdout, run.stderr, run.returncode


def in_python(text):
    """What `python3 -m uacalc check` does with a text, in this process."""
    told, fault, status = checked(text)
    return told.encode(), fault.encode(), status


class Comparison:
    """The runs of the checkers, with what was found."""

    def __init__(self, options):
        self.program = options.program
        self.coq = options.coq
        self.counts = collections.Counter()
        self.differences = 0

    def differ(self, what, text):
        self.differences += 1
        print(f"{what}:\n{text.decode(errors='replace')[:2000]}\n", flush=True)

    def check(self, head, group):
        """Certificates on the algebras of a group, after a line of the version or none."""
        pieces = [head]
        for drawn, certificates in group:
            texts = [text for _, copies in certificates for text in copies]
            pieces.append(drawn.block().encode())
            pieces += [b"check %s %s\n" % (drawn.name.encode(), text) for text in texts]
        script = b"".join(pieces)
        told, error, status = ran([self.program], script)
        if status:
            self.differ(f"the program ended with {status} {error!r}", script)
            return
        lines = told.split(b"\n")[:-1]
        python, error, status = in_python(script)
        if (python, error, status) != (told, b"", 0 if set(lines) == {b"valid"} else 1):
            self.compare_lines(script, lines, python.split(b"\n")[:-1], error)
        for line in lines:
            self.counts[line.decode(errors="replace") if line == b"valid" else b" ".join(line.split()[:2]).decode()] += 1
        if self.coq:
            # A path with a key that has an escape for a line feed takes two lines, so verdicts are counted and not lines.
            self.check_coq(script, [verdict.encode() for verdict in verdicts(Script.parse(script))[0]])

    def compare_lines(self, script, lines, others, error):
        """Tells the certificates of which the two say different things."""
        texts = [line for line in script.split(b"\n") if line.startswith(b"check")]
        for text, line, other in zip(texts, lines, others):
            if line != other:
                self.differ(f"the program tells {line!r}, Python {other!r}", text)
        if len(lines) != len(others):
            self.differ(f"Python tells {len(others)} lines of {len(lines)}, {error!r}", script)

    def check_coq(self, script, lines):
        """What the checker in Coq takes, the program takes."""
        told, error, status = ran([self.coq, "/dev/stdin"], script)
        found = told.split(b"\n")[:-1]
        if status not in (0, 1, 3) or len(found) != len(lines):
            self.differ(f"the checker in Coq ended with {status} {error!r}", script)
            return
        for line, other in zip(lines, found):
            if other == b"valid" and line != b"valid":
                self.differ(f"the checker in Coq takes what is {line!r}", script)
            self.counts["Coq refuses what is valid" if line == b"valid" != other else "Coq agrees"] += 1

    def refuse(self, script):
        """A script with a damaged block: the same fault, or the same replies."""
        told, error, status = ran([self.program], script)
        python, python_error, python_status = in_python(script)
        self.counts["damaged blocks refused" if status == 5 else "damaged blocks that are blocks"] += 1
        if (told, error) != (python, python_error) or (status == 5) != (python_status == 2):
            self.differ(f"status {status} {told} {error}, Python {python_status} {python} {python_error}", script)
        if self.coq:
            coq_told, _, coq_status = ran([self.coq, "/dev/stdin"], script)
            if status and coq_status != 2:
                self.differ(f"the checker in Coq takes it: {coq_told}", script)


def damaged_scripts(draw, drawn, text):
    """Scripts with a damaged block, and one with the same block twice."""
    block = drawn.block().encode()
    head = b"version 2\n" if drawn.version == 2 or draw.random() < 0.5 else b""
    line = b"check %s %s\n" % (drawn.name.encode(), text)
    for _ in range(3):
        yield damaged_block(draw, head + block) + line
    if draw.random() < 0.2:
        yield head + block + damaged_block(draw, block) + line
        yield head + block + line + block + line


def main():
    parser = argparse.ArgumentParser(description=__doc__, formatter_class=argparse.RawDescriptionHelpFormatter)
    parser.add_argument("program")
    parser.add_argument("--coq", help="the checker in Coq")
    parser.add_argument("--seed", type=int, default=1)
    parser.add_argument("--certificates", type=int, default=4000)
    options = parser.parse_args()
    draw = draw_from(options.seed)
    comparison = Comparison(options)
    kinds = collections.Counter()
    for group in groups(options.program, draw, options.certificates):
        kinds.update(kind for _, certificates in group for kind, _ in certificates)
        first = [pair for pair in group if pair[0].version == 1]
        for head, part in ((b"", first), (b"version 1\n", first[:3]), (b"version 2\n", group)):
            comparison.check(head, part)
        for drawn, certificates in group:
            for script in damaged_scripts(draw, drawn, certificates[0][1][0]):
                comparison.refuse(script)
    print("certificates of the program:", ", ".join(f"{kind} {count}" for kind, count in sorted(kinds.items())))
    print("told by the program:", ", ".join(f"{word} {count}" for word, count in sorted(comparison.counts.items())))
    print(f"checkers: {comparison.differences} differences")
    sys.exit(1 if comparison.differences else 0)


if __name__ == "__main__":
    main()
