"""Tests of the files of pictures: which are written as they are, which by a converter, and which are
refused. The converters are stand-ins, which write down their words."""

import os
import pathlib
import tempfile
import unittest
from unittest import mock

from tool_runner import FIRST_MOVE, call

from motion_tools.plot import command, files

STAND_IN = """#!/bin/sh
for word in "$@"; do
    case "$word" in
    --print-to-pdf=*|--screenshot=*|--export-filename=*) target="${word#*=}" ;;
    file://*) source="${word#file://}" ;;
    *.svg) source="$word" ;;
    *.png|*.pdf) target="$word" ;;
    esac
done
FAILS
{ echo "$0" "$@"; cat "$source"; } >"$target"
"""


class Files(unittest.TestCase):

    def setUp(self):
        folder = tempfile.TemporaryDirectory()
        self.addCleanup(folder.cleanup)
        self.folder = pathlib.Path(folder.name)
        (self.folder / "bin").mkdir()

    def drawn(self, name, programs=(), fails=""):
        """The status, what is in the picture, and the faults, where these converters are there."""
        for program in programs:
            path = self.folder / "bin" / program
            path.write_text(STAND_IN.replace("FAILS", fails), encoding="utf-8")
            path.chmod(0o755)
        path = f"{self.folder / 'bin'}:/bin:/usr/bin"
        target = self.folder / name
        which = files.shutil.which
        with mock.patch.dict(os.environ, {"PATH": path, "CHROMIUM": ""}), \
                mock.patch.object(files.shutil, "which", lambda name: which(name)
                                  if name in programs else None):
            status, _, faults = call(command.main, FIRST_MOVE, "-o", target)
        return status, target.read_text(encoding="utf-8") if target.exists() else "", faults

    def test_by_the_ending_of_the_name(self):
        self.assertTrue(self.drawn("run.svg")[1].startswith("<svg "))
        self.assertTrue(self.drawn("run")[1].startswith("<svg "))
        self.assertTrue(self.drawn("run.html")[1].startswith("<!DOCTYPE html>"))

    def test_a_converter_makes_a_png_and_a_pdf(self):
        for program, words in (("rsvg-convert", "--format {} --output "),
                               ("inkscape", "--export-type={} --export-filename=")):
            for ending in ("png", "pdf"):
                status, made, faults = self.drawn(f"run.{ending}", [program])
                self.assertEqual((status, faults), (0, ""))
                self.assertIn(words.format(ending), made.splitlines()[0])
                self.assertIn("<svg ", made)
            (self.folder / "bin" / program).unlink()

    def test_a_browser_makes_them_of_a_page(self):
        _, made, _ = self.drawn("run.png", ["chromium"])
        self.assertIn("--window-size=1100,496", made.splitlines()[0])
        self.assertIn("size: 1100px 496px", made)
        self.assertIn("--print-to-pdf=", self.drawn("run.pdf", ["chromium"])[1].splitlines()[0])

    def test_without_one_nothing_is_written(self):
        for name in ("run.png", "run.pdf"):
            status, made, faults = self.drawn(name)
            self.assertEqual((status, made), (2, ""))
            self.assertIn("is made by rsvg-convert, inkscape or chromium, and none of them is here", faults)

    def test_another_kind_is_refused(self):
        status, made, faults = self.drawn("run.JPG", ["rsvg-convert"])
        self.assertEqual((status, made), (2, ""))
        self.assertIn("a picture is an SVG (.svg), a page (.html), a PNG (.png) or a PDF (.pdf)", faults)

    def test_a_converter_that_fails(self):
        status, made, faults = self.drawn("run.png", ["rsvg-convert"], "echo no fonts >&2; exit 1")
        self.assertEqual((status, made), (6, ""))
        self.assertIn("cannot write: rsvg-convert made no picture: no fonts", faults)


if __name__ == "__main__":
    unittest.main()
