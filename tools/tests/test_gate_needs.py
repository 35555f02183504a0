"""Tests of .ci/needs, which says at once what the gate lacks."""

import pathlib
import shutil
import subprocess
import tempfile
import unittest

from tool_runner import TOOLS

NEEDS = TOOLS.parent / ".ci" / "needs"
ALWAYS = ("bash", "env", "dirname", "df", "rt", "python3", "awk", "cmp", "grep", "sed", "timeout")


@unittest.skipUnless(NEEDS.exists(), "this is a release")
class Needs(unittest.TestCase):

    def said(self, commands, stand_ins=()):
        """The status and what is said where there are these commands alone."""
        with tempfile.TemporaryDirectory() as folder:
            for name in commands:
                pathlib.Path(folder, name).symlink_to(shutil.which(name) or "/bin/true")
            for name, text in stand_ins:
                file = pathlib.Path(folder, name)
                file.unlink(missing_ok=True)
                file.write_text(text, encoding="utf-8")
                file.chmod(0o755)
            done = subprocess.run([NEEDS], capture_output=True, encoding="utf-8", check=False,
                                  env={"PATH": folder})
        return done.returncode, done.stdout + done.stderr

    def test_what_it_can_do_without(self):
        status, told = self.said(ALWAYS)
        self.assertEqual(status, 0, told)
        for name in ("gcc", "g++", "clang", "Chromium", "groff", "vcd2fst", "sigrok-cli"):
            self.assertIn(f"there is no {name}", told)

    def test_what_it_cannot_do_without(self):
        for name in ("rt", "cmp", "timeout"):
            status, told = self.said([it for it in ALWAYS if it != name])
            self.assertEqual(status, 1)
            self.assertIn(f"gate: there is no {name} on the PATH", told)

    def test_an_old_python(self):
        status, told = self.said(ALWAYS, [("python3", '#!/bin/bash\n[ "$1" = --version ] && echo Python 3.9 && exit\nexit 1\n')])
        self.assertEqual(status, 1)
        self.assertIn("Python 3.9 is too old", told)

    def test_nothing_is_missing(self):
        names = ("gcc", "g++", "clang", "clang++", "chromium", "groff", "vcd2fst", "sigrok-cli")
        self.assertNotIn("there is no ", self.said([*ALWAYS, *names])[1].replace("there is no linuxcnc", "").replace(
            "there is no GNU time", ""))


if __name__ == "__main__":
    unittest.main()
