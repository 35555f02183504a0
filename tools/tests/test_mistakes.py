"""Mistakes that are made in the first days, and that `explain` leads to their cure:
mistakes.toml."""

import os
import pathlib
import re
import shlex
import subprocess
import sys
import tempfile
import tomllib
import unittest
from concurrent.futures import ThreadPoolExecutor

from tool_runner import TOOLS, call

from motion_tools.explain.command import main

MOTION = TOOLS.parent / "crates" / "motion_main" / "out" / "motion_main"
DATA = tomllib.loads((pathlib.Path(__file__).parent / "mistakes.toml").read_text(encoding="utf-8"))
BASE = {key: text.lstrip("\n") for key, text in DATA["base"].items()}
MISTAKES = DATA["mistake"]


def texts_of(mistake):
    """The files of a mistake, by name."""
    files = {"m.toml": BASE["config"]}
    if "change" in mistake:
        old, new = mistake["change"]
        assert old in files["m.toml"], old
        files["m.toml"] = files["m.toml"].replace(old, new, 1)
    body = mistake.get("body", "").strip("\n")
    if "program" in mistake:
        files["p.prog"] = BASE["program"].replace("{body}", mistake["program"].strip("\n"))
    elif "bench" in mistake:
        files["b.bench"] = BASE["bench"].replace("{body}", mistake["bench"].strip("\n"))
    else:
        files["s.st"] = BASE["st"].replace("{declare}", mistake.get("declare", "")).replace(
            "{body}", body)
    return {**files, **mistake.get("files", {})}


def words_of(mistake, files):
    """The words for motion."""
    if "run" in mistake or "tool" in mistake:
        return mistake.get("run", "").split()
    if "b.bench" in files:
        return ["bench", "b.bench"]
    return ["run", "m.toml", "p.prog"] if "p.prog" in files else ["st", "m.toml", "s.st"]


def made_of(mistake, folder):
    """What motion writes of a mistake, whose files are put into a folder."""
    folder.mkdir()
    files = texts_of(mistake)
    for name, text in files.items():
        (folder / name).write_text(text, encoding="utf-8")
    words = words_of(mistake, files)
    if not words:
        return b""
    return subprocess.run([MOTION, *words], cwd=folder, capture_output=True, check=False,
                          timeout=100).stdout


def is_without(mistake):
    """Whether a mistake is shown without the program."""
    return "tool" in mistake and "run" not in mistake and "{motion}" not in mistake["tool"]


class Mistakes(unittest.TestCase):

    def test_each_leads_to_its_cure(self):
        mistakes = [mistake for mistake in MISTAKES if MOTION.exists() or is_without(mistake)]
        with tempfile.TemporaryDirectory() as folder, ThreadPoolExecutor(4) as workers:
            folders = [pathlib.Path(folder) / str(place) for place in range(len(mistakes))]
            outputs = list(workers.map(made_of, mistakes, folders))
            told_of = [self.told(*each) for each in zip(mistakes, folders, outputs)]
        for mistake, (status, told) in zip(mistakes, told_of):
            with self.subTest(mistake=mistake["name"]):
                self.assertEqual(status, mistake.get("status", 0), told)
                for wanted in mistake["wants"]:
                    self.assertIn(wanted, told)
                for unwanted in mistake.get("lacks", []):
                    self.assertNotIn(unwanted, told)
                if "errors" in mistake:
                    self.assertEqual(len(re.findall(r": error [A-Z]\d+:", told)), mistake["errors"])

    def told(self, mistake, folder, output):
        """How a tool ends for a mistake, and what it says; explain where none is named."""
        (folder / "output").write_bytes(output)
        if "tool" in mistake:
            return self.said(mistake, folder, output.decode("utf-8", "replace"))
        words = [folder / word for word in words_of(mistake, texts_of(mistake))[1:]]
        status, told, faults = call(main, *words, "--of", folder / "output")
        self.assertEqual((status, faults), (0, ""))
        return status, told.replace(f"{folder}/", "")

    def said(self, mistake, folder, text):
        """The same of the tool of a row, which is given what motion wrote."""
        name, *words = shlex.split(mistake["tool"].replace("{motion}", str(MOTION)))
        done = subprocess.run([sys.executable, TOOLS / name, *words], cwd=folder, input=text,
                              capture_output=True, encoding="utf-8", check=False,
                              env={**os.environ, **mistake.get("env", {})})
        return done.returncode, done.stdout + done.stderr

    def test_there_are_enough(self):
        self.assertGreaterEqual(len(MISTAKES), 40)
        self.assertEqual(len({mistake["name"] for mistake in MISTAKES}), len(MISTAKES))


if __name__ == "__main__":
    unittest.main()
