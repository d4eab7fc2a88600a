#!/usr/bin/env python3
"""Runs the examples and the cases on the built program, and compares its replies with what they are to be.

An example is a file NAME.ua here with its reply in NAME.out, or a fenced block marked `script` in a document with
the next block, marked `reply`. The program runs with one worker, and with the words in NAME.args, one on a line, or after
the mark `script`. Cases stand in the folder `cases`, and `cases.py` runs them. Each way to end without all replies is tried
too, with its status and its line on standard error, but for want of memory. All files name the version that VERSION has.

usage: check.py PROGRAM
"""

import os
import pathlib
import re
import subprocess
import sys
import tempfile

import cases

HERE = pathlib.Path(__file__).resolve().parent
DOCUMENTS = ["README.md", "docs/LANGUAGE.md"]
LINES = r"((?:(?!```).*\n)*)"
PAIR = re.compile(rf"^```script(.*)\n{LINES}```\n{LINES}```reply\n{LINES}```$", re.MULTILINE)


def scripts():
    """The name, the words, the script and the reply of each example."""
    for script in sorted(HERE.glob("*.ua")):
        args = script.with_suffix(".args")
        words = args.read_text(encoding="utf-8").split() if args.exists() else []
        yield script.name, words, script.read_bytes(), script.with_suffix(".out").read_bytes()
    for name in DOCUMENTS:
        text = (HERE.parent / name).read_text(encoding="utf-8")
        pairs = PAIR.findall(text)
        if len(pairs) != text.count("\n```script"):
            sys.exit(f"{name}: a script without a reply after it")
        for number, pair in enumerate(pairs, 1):
            yield f"{name}, script {number}", pair[0].split(), pair[1].encode(), pair[3].encode()


def is_as_expected(program, words, script, reply):
    """Whether the program, with one worker, ends with status 0 and gives this reply."""
    command = [program, "--workers", "1", *words]
    run = subprocess.run(command, input=script, stdout=subprocess.PIPE, check=False)
    return (run.stdout, run.returncode) == (reply, 0)


def endings():
    """Words, what standard input reads, a file for standard output or None, and the status and line wanted."""
    with tempfile.TemporaryFile() as script, tempfile.TemporaryFile() as fault, tempfile.TemporaryFile() as blanks:
        script.write(b"algebra E size 2 end con E")
        fault.write(b"algebra E size 2 end\ncon")
        blanks.write(b" " * (2**24 + 1))
        for file in (script, fault, blanks):
            file.flush()
        yield ["--workers", "0"], script, None, 2, cases.USAGE.encode()
        yield [], fault, None, 5, b"syntax 2:4 end\n"
        yield [], blanks, None, 7, b"too long\n"
        if os.path.exists("/dev/full"):
            yield [], script, "/dev/full", 4, b"write fault\n"
        directory = os.open(HERE, os.O_RDONLY)
        yield [], directory, None, 3, b"read fault\n"
        os.close(directory)


def ends_so(program, words, source, sink, status, line):
    """Whether the program ends with this status and line, and writes nothing."""
    if not isinstance(source, int):
        source.seek(0)
    with open(sink or os.devnull, "wb") as out:
        target = out if sink else subprocess.PIPE
        run = subprocess.run([program, *words], stdin=source, stdout=target, stderr=subprocess.PIPE, check=False)
    return (run.stdout or b"", run.stderr, run.returncode) == (b"", line, status)


def other_versions():
    """The files that name another version than VERSION does."""
    root = HERE.parent
    version = (root / "VERSION").read_text(encoding="utf-8").strip()
    named = {
        "README.md": f"Version {version}:",
        "CHANGELOG.md": f"\n## {version}\n",
        "CITATION.cff": f"\nversion: {version}\n",
        "docs/QUOTING.md": f"UACalc {version}",
        "python/uacalc/__init__.py": f'__version__ = "{version}"',
    }
    return [file for file, words in named.items() if words not in (root / file).read_text(encoding="utf-8")]


def main():
    if len(sys.argv) != 2:
        sys.exit(__doc__)
    wrong = 0
    count = 0
    for file in other_versions():
        wrong += 1
        print(f"{file}: another version than in VERSION")
    for name, *example in scripts():
        count += 1
        if not is_as_expected(sys.argv[1], *example):
            wrong += 1
            print(f"{name}: another reply")
    for words, source, sink, status, line in endings():
        count += 1
        if not ends_so(sys.argv[1], words, source, sink, status, line):
            wrong += 1
            print(f"status {status}: another ending")
    print(f"examples: {count - wrong} as expected, {wrong} not", flush=True)
    right, otherwise = cases.try_all(sys.argv[1])
    print(f"cases: {right} as expected, {otherwise} not", flush=True)
    sys.exit(1 if wrong or otherwise else 0)


if __name__ == "__main__":
    main()
