"""The scripts of examples/ and the code of docs/PYTHON.md, with what they print."""

import contextlib
import io
import os
import re
import subprocess
import sys
import unittest

from uacalc import __version__
from uacalc.process import find_program

from .support import PACKAGE, ROOT, needs_program

PAIR = re.compile(r"^```python\n(.*?)^```\n\n```text\n(.*?)^```$", re.DOTALL | re.MULTILINE)
LINK = re.compile(r"\]\((?!https?:)([^)#]+)(?:#[^)]*)?\)")


class Documents(unittest.TestCase):
    @needs_program
    def test_the_code_on_the_page(self):
        text = (ROOT / "docs" / "PYTHON.md").read_text(encoding="utf-8")
        pairs = PAIR.findall(text)
        self.assertEqual(len(pairs), text.count("```python\n"))
        names = {}
        for code, wanted in pairs:
            printed = io.StringIO()
            with self.subTest(code=code), contextlib.redirect_stdout(printed):
                exec(compile(code, "docs/PYTHON.md", "exec"), names)
            self.assertEqual(printed.getvalue(), wanted)

    def test_the_version_is_that_of_the_repository(self):
        self.assertEqual(__version__, (ROOT / "VERSION").read_text(encoding="utf-8").strip())

    def test_links(self):
        for page in [*(ROOT / "docs").glob("*.md"), ROOT / "README.md", ROOT / "checker" / "README.md"]:
            for link in LINK.findall(page.read_text(encoding="utf-8")):
                with self.subTest(page=page.name, link=link):
                    self.assertTrue((page.parent / link).exists())


@needs_program
class Examples(unittest.TestCase):
    def test_each(self):
        environment = {**os.environ, "PYTHONPATH": str(PACKAGE), "UACALC": find_program()}
        for script in sorted((PACKAGE / "examples").glob("*.py")):
            with self.subTest(script=script.name):
                run = subprocess.run([sys.executable, script], capture_output=True, check=False, env=environment)
                self.assertEqual((run.stderr, run.returncode), (b"", 0))
                self.assertEqual(run.stdout, script.with_suffix(".out").read_bytes())
