"""The shapes of tools/attacks, and what it says of a program that takes too much of them."""

import os
import stat
import tempfile
import unittest
from pathlib import Path

from tool_runner import run

from attack_shapes import SHAPES

LINEAR = "#!/bin/sh\nexit 3\n"
QUADRATIC = """#!/usr/bin/env python3
import os, sys
size = os.path.getsize(sys.argv[-1])
held = bytearray(size * size // 1000)
sys.exit(3)
"""


class ShapesTest(unittest.TestCase):
    def test_have_names_of_their_own(self):
        names = [shape.name for shape in SHAPES]
        self.assertEqual(len(names), len(set(names)))
        self.assertGreaterEqual(len(names), 40)

    def test_are_as_long_as_asked(self):
        for shape in SHAPES:
            with self.subTest(shape.name):
                self.assertAlmostEqual(len(shape.text(20_000)), 20_000, delta=2_500)


@unittest.skipUnless(os.access("/usr/bin/time", os.X_OK), "there is no GNU time")
class AttacksTest(unittest.TestCase):
    def attack(self, program):
        with tempfile.TemporaryDirectory() as folder:
            path = Path(folder) / "program"
            path.write_text(program)
            path.chmod(path.stat().st_mode | stat.S_IXUSR)
            return run("attacks", "--program", str(path), "--mib", "0.1", "--only",
                       "bench one word")

    def test_takes_what_is_in_proportion(self):
        status, told, _ = self.attack(LINEAR)
        self.assertEqual(status, 0)
        self.assertEqual(told.splitlines()[1].split()[:3], ["bench", "one", "word"])

    def test_says_what_is_not(self):
        status, told, _ = self.attack(QUADRATIC)
        self.assertEqual(status, 1)
        self.assertIn("memory out of proportion", told)

    def test_needs_a_program(self):
        self.assertEqual(run("attacks", "--program", "/nowhere")[0], 2)
