"""Tests of motion-run, and of switch files in the machine's units."""

import pathlib
import shutil
import subprocess
import tempfile
import unittest

from test_mistakes import BASE, MOTION
from tool_runner import FIRST_MOVE, TOOLS, call, run

from motion_tools import machine, switches
from motion_tools.plot.edges import read_edges

TASK = """\
m(execute := TRUE, pos := 100000, vel := 500000, acc := 2000000, dec := 2000000);
finished := m.done;"""
SWITCHES = "motion-switches 1\nswitch GUN X 25 75.5 1  # glue\nswitch END X 200 300 1\n"


class Folder(unittest.TestCase):
    """Tests in a folder with a machine."""

    def setUp(self):
        self.folder = tempfile.TemporaryDirectory()
        self.addCleanup(self.folder.cleanup)
        self.put("m.toml", BASE["config"])
        self.put("s.st", BASE["st"].replace("{declare}", "").replace("{body}", TASK))
        self.put("my.switches", SWITCHES)

    def path(self, name):
        return pathlib.Path(self.folder.name) / name

    def put(self, name, text):
        self.path(name).write_text(text, encoding="utf-8")

    def run_machine(self, *words):
        """The status and the standard error of motion-run; the standard output stays empty."""
        status, output, faults = call(machine.main, *words, "--motion", MOTION, "-o",
                                      self.path("run.trace"))
        self.assertEqual(output, "")
        return status, faults


class Links(unittest.TestCase):
    """Programs that are called by a link elsewhere."""

    def test_motion_finds_its_folder(self):
        with tempfile.TemporaryDirectory() as folder:
            top, link = pathlib.Path(folder) / "top", pathlib.Path(folder) / "link"
            program = top / "crates" / "motion_main" / "out" / "motion_main"
            program.parent.mkdir(parents=True)
            (top / "crates" / "motion_main" / "src").mkdir()
            shutil.copy(TOOLS.parent / "motion", top)
            program.write_text("#!/bin/sh\necho ran $*\n", encoding="utf-8")
            program.chmod(0o755)
            link.symlink_to(top / "motion")
            done = subprocess.run([link, "check", "a"], capture_output=True, encoding="utf-8",
                                  check=False)
            self.assertEqual((done.returncode, done.stdout), (0, "ran check a\n"))

    def test_a_tool_finds_its_folder(self):
        with tempfile.TemporaryDirectory() as folder:
            link = pathlib.Path(folder) / "why"
            link.symlink_to(TOOLS / "explain")
            self.assertEqual(run(link, "S2")[0], 0)


@unittest.skipUnless(MOTION.exists(), "the program isn't built")
class Machines(Folder):

    def test_tasks_in_structured_text(self):
        for words in (("m.toml", "s.st"), ("s.st", "m.toml")):
            status, told = self.run_machine(*map(self.path, words))
            self.assertEqual(status, 0)
            self.assertIn("m (MoveAbsolute): X 0 mm to 100 mm", told)
            self.assertIn("status 0; the trace is in ", told)
        self.assertTrue(self.path("run.trace").read_text().startswith("kind,a,b"))

    def test_pictures_and_the_check(self):
        page, picture = self.path("run.html"), self.path("run.svg")
        status, told = self.run_machine(self.path("m.toml"), self.path("s.st"), "--check", "--plot",
                                        page, "--plot", picture)
        self.assertEqual(status, 0)
        self.assertIn("the trace is legal", told)
        self.assertIn("mm/s²", picture.read_text(encoding="utf-8"))
        self.assertTrue(page.read_text(encoding="utf-8").startswith("<!DOCTYPE html>"))

    def test_what_is_rejected(self):
        self.put("s.st", "PROGRAM one\nvar\n")
        status, told = self.run_machine(self.path("m.toml"), self.path("s.st"))
        self.assertEqual(status, 3)
        self.assertIn("s.st:2:1: error S2", told)
        self.assertFalse(self.path("run.trace").exists())

    def test_errors_and_warnings_in_the_status(self):
        self.put("s.st", BASE["st"].replace("{declare}", "").replace(
            "{body}", TASK.replace("pos := 100000", "pos := 1000000").replace("m.done", "m.error")))
        self.assertEqual(self.run_machine(self.path("m.toml"), self.path("s.st"))[0], 1)
        self.put("s.st", BASE["st"].replace("{declare}", "").replace("{body}", TASK))
        words = self.path("m.toml"), self.path("s.st")
        self.assertEqual(self.run_machine(*words)[0], 0)
        self.assertEqual(self.run_machine(*words, "--strict")[0], 1)    # px is never called

    def test_files_that_are_no_machine(self):
        status, told = self.run_machine(self.path("s.st"))
        self.assertEqual(status, 2)
        self.assertIn("s.st (st)", told)
        self.assertEqual(self.run_machine(self.path("none"))[0], 2)


@unittest.skipUnless(MOTION.exists(), "the program isn't built")
class Switches(Folder):

    def edges(self, *words):
        self.run_machine(self.path("m.toml"), self.path("s.st"))
        return call(switches.main, self.path("run.trace"), self.path("my.switches"), "--motion",
                    MOTION, *words)

    def test_positions_in_millimetres(self):
        status, edges, told = self.edges("--config", self.path("m.toml"))
        self.assertEqual(status, 0)
        self.assertEqual(list(read_edges(edges.splitlines())), ["GUN"])
        self.assertIn("my.switches:3: warning never-on: the switch END never goes on: X goes from "
                      "0.002 mm to 100 mm", told)

    def test_times(self):
        status, table, _ = self.edges("--config", self.path("m.toml"), "--times")
        self.assertEqual(status, 0)
        self.assertRegex(table, r"GUN +\d+ +\d+ ms  on")

    def test_internal_units(self):
        status, edges, told = self.edges()
        self.assertEqual((status, edges), (3, ""))
        self.assertIn("error K5: OFF is 75.5, and not a whole number", told)
        self.assertIn("--config", told)
        self.put("my.switches", SWITCHES.replace("75.5", "76"))
        self.assertIn("never goes on", self.edges()[2])


class Converting(unittest.TestCase):

    def test_numbers_become_internal_units(self):
        self.assertEqual(switches.internal("120.5", 1e-9), "120500000000")
        self.assertEqual(switches.internal("-0.000000001", 1e-9), "-1")
        self.assertEqual(switches.internal("5", 0.001), "5000")
        self.assertEqual(switches.internal("5mm", 0.001), "5mm")

    def test_options(self):
        status, _, faults = run("switches", FIRST_MOVE, "no_such_file")
        self.assertEqual(status, 4)
        self.assertIn("cannot read no_such_file", faults)
        self.assertTrue((TOOLS / "switches").exists())


if __name__ == "__main__":
    unittest.main()
