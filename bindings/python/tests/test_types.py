"""What mypy says of the module and of a bench that uses it, in strict mode."""
import importlib.util
import os
import subprocess
import sys
import unittest
from pathlib import Path

FOLDER = Path(__file__).resolve().parents[1]


class Types(unittest.TestCase):
    @unittest.skipUnless(importlib.util.find_spec("mypy"), "mypy isn't there")
    def test_types_are_strict(self):
        words = ["-m", "mypy", "--strict", "--python-version", "3.9", "--cache-dir", os.devnull]
        told = subprocess.run(
            [sys.executable, *words, "hvpm", "examples/bench.py"], cwd=FOLDER, capture_output=True, text=True
        )
        self.assertEqual(told.returncode, 0, told.stdout + told.stderr)
