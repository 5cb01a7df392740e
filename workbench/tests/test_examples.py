import subprocess
import sys
import unittest

from workbench import library
from workbench.library import ROOT


class FromPython(unittest.TestCase):
    def test_prints_what_is_stored(self):
        library._loaded()  # makes the library where it is missing, which the example does not
        done = subprocess.run([sys.executable, "examples/shapes.py"], cwd=ROOT, capture_output=True, text=True, check=True, timeout=60)
        self.assertEqual(done.stdout, (ROOT / "examples/shapes.py.expected").read_text())

    def test_is_short(self):
        self.assertLess(len((ROOT / "examples/shapes.py").read_text().splitlines()), 60)
