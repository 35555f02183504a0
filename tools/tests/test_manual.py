"""Tests of the man pages and the completion, which are made of the texts of --help."""

import os
import pathlib
import re
import shutil
import subprocess
import tempfile
import unittest

from test_mistakes import MOTION
from tool_runner import TOOLS, run

from motion_tools import manual
from motion_tools.explain import hints


class Pages(unittest.TestCase):

    @classmethod
    def setUpClass(cls):
        cls.folder = tempfile.TemporaryDirectory()
        cls.addClassCleanup(cls.folder.cleanup)
        cls.ended = run("manual", cls.folder.name)

    def page(self, name):
        return pathlib.Path(self.folder.name, "man", "man1", f"{name}.1")

    def test_every_tool_has_its_page(self):
        self.assertEqual(self.ended, (0, "", ""))
        scripts = {path.name for path in TOOLS.iterdir()
                   if path.is_file() and b"motion_tools" in path.read_bytes()}
        self.assertEqual(scripts - {"release", "preview", "build"}, set(manual.TOOLS))
        for name in ["motion", *manual.TOOLS]:
            self.assertTrue(self.page(name).read_text(encoding="utf-8").startswith(".TH "), name)

    def test_each_option_is_in_its_page(self):
        for name in manual.TOOLS:
            text = self.page(name).read_text(encoding="utf-8").replace("\\-", "-")
            for action in manual.parser_of(name)._actions:
                for option in action.option_strings:
                    self.assertIn(option, text, name)

    def test_help_has_the_same_text(self):
        for name in manual.TOOLS:
            status, told, _ = run(name, "--help")
            self.assertEqual(status, 0, name)
            first = (manual.parser_of(name).description or "").split("\n")[0]
            self.assertIn(first, told)

    @unittest.skipUnless(shutil.which("groff"), "there is no groff")
    def test_groff_reads_them(self):
        for name in ["motion", *manual.TOOLS]:
            made = subprocess.run(["groff", "-man", "-Tutf8", "-ww", "-K", "utf8", self.page(name)],
                                  capture_output=True, encoding="utf-8", check=False)
            faults = [line for line in made.stderr.splitlines() if "break" not in line
                      and "adjust" not in line]
            self.assertEqual(faults, [], name)
            self.assertIn("EXIT STATUS", re.sub(r"\x1b\[[0-9;]*m|.\x08", "", made.stdout))

    @unittest.skipUnless(MOTION.exists(), "the program isn't built")
    def test_the_commands_are_those_of_the_program(self):
        usage = subprocess.run([MOTION], capture_output=True, encoding="utf-8",
                               check=False).stdout.strip()
        forms = [f"{name} {words}" for name, (words, _) in hints.commands().items()]
        self.assertEqual(usage, "usage: motion " + " | ".join(
            sorted(forms, key=lambda form: usage.index(form))))
        page = self.page("motion").read_text(encoding="utf-8")
        for form in forms:
            self.assertIn(f".B motion {form}", page)


@unittest.skipUnless(shutil.which("bash"), "there is no bash")
class Completion(unittest.TestCase):

    def completed(self, *words):
        """What bash completes the last word to."""
        with tempfile.TemporaryDirectory() as folder:
            for name in ("a.toml", "a.prog", "a.st", "a.bench", "a.trace", "a.txt"):
                pathlib.Path(folder, name).touch()
            pathlib.Path(folder, "c").write_text(manual.completion(), encoding="utf-8")
            listed = " ".join(f"'{word}'" for word in words)
            function = "_motion" if words[0] == "motion" else "_motion_tool"
            script = (f"source ./c; COMP_WORDS=({listed}); COMP_CWORD={len(words) - 1}; "
                      f"{function}; printf '%s\\n' \"${{COMPREPLY[@]}}\"")
            made = subprocess.run(["bash", "-c", script], cwd=folder, capture_output=True,
                                  encoding="utf-8", check=True, env={**os.environ, "LC_ALL": "C"})
        self.assertEqual(made.stderr, "")
        return sorted(filter(None, made.stdout.split("\n")))

    def test_words(self):
        self.assertEqual(self.completed("motion", "s"), sorted(["scope", "st", "standby", "switches"]))
        self.assertEqual(self.completed("motion", "st", "a"), ["a.st", "a.toml"])
        self.assertEqual(self.completed("motion", "bench", "a"), ["a.bench"])
        self.assertEqual(self.completed("tools/trace_plot", "--ht"), ["--html"])
        self.assertIn("a.trace", self.completed("tools/trace_plot", "a"))
        self.assertNotIn("a.txt", self.completed("tools/explain", "a"))


if __name__ == "__main__":
    unittest.main()
