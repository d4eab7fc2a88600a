"""The annotations, as mypy reads them; left out where mypy is not installed."""

import os
import shutil
import subprocess
import unittest

from .support import PACKAGE

MYPY = shutil.which("mypy")


class Annotations(unittest.TestCase):
    @unittest.skipUnless(MYPY, "mypy is not installed")
    def test_mypy_finds_no_fault(self):
        run = subprocess.run([MYPY, "--cache-dir", os.devnull], cwd=PACKAGE, capture_output=True, check=False)
        self.assertEqual((run.returncode, run.stderr), (0, b""), run.stdout.decode())
