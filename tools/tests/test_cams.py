"""Tests of cam tables: the laws, the bound of linear interpolation, and what the kernel says of
it."""

import math
import pathlib
import subprocess
import tempfile
import unittest

from test_mistakes import BASE, MOTION
from tool_runner import call

from motion_tools import cams
from motion_tools.config import config_of

GIVEN = ["0:0", "100:50", "150:50", "250:0"]
TASK = """\
IF n = 0 THEN c(execute := TRUE, vel := 500000, acc := 5000000, dec := 5000000, master := X, table := 1);
  IF c.reached THEN n := 1; END_IF;
ELSE
  c(execute := TRUE, vel := 500000, acc := 5000000, dec := 5000000, master := X, table := 1);
  m(execute := TRUE, pos := 260000, vel := 400000, acc := 5000000, dec := 5000000);
  finished := m.done OR c.error;
END_IF;"""


class Laws(unittest.TestCase):

    def test_they_lead_from_rest_to_rest(self):
        for name in ("poly5", "modsine", "cycloid"):
            way, width = cams.LAWS[name].way, 1e-4
            self.assertAlmostEqual(way(0), 0)
            self.assertAlmostEqual(way(1), 1)
            self.assertAlmostEqual(way(0.5), 0.5)
            self.assertLess(way(width) / width, 0.01, name)
            values = [way(place / 1000) for place in range(1001)]
            self.assertEqual(values, sorted(values), name)

    def test_their_peaks(self):
        for name, velocity, acceleration in (("poly5", 1.875, 5.7735), ("modsine", 1.7596, 5.528),
                                             ("cycloid", 2, 2 * math.pi)):
            way, count = cams.LAWS[name].way, 4000
            values = [way(place / count) for place in range(count + 1)]
            steps = [(after - before) * count for before, after in zip(values, values[1:])]
            turns = [(after - before) * count for before, after in zip(steps, steps[1:])]
            self.assertAlmostEqual(max(steps), velocity, 3, name)
            self.assertAlmostEqual(max(turns), acceleration, 2, name)

    def test_a_spline_goes_through_its_points(self):
        given = [(0, 0), (100, 50), (150, 20), (250, 0)]
        way = cams.spline(given)
        for x, y in given:
            self.assertAlmostEqual(way(x), y)
        for x in (100, 150):                                    # two derivatives go on
            left, right = (way(x - 2e-3) - 2 * way(x - 1e-3) + way(x)), \
                (way(x + 2e-3) - 2 * way(x + 1e-3) + way(x))
            self.assertAlmostEqual(left / 1e-6, right / 1e-6, 3)
        self.assertAlmostEqual((way(1e-6) - way(0)) / 1e-6, 0, 4)


class Tables(unittest.TestCase):

    def made(self, *words):
        """The status, the table and the report of some words."""
        with tempfile.TemporaryDirectory() as folder:
            config = pathlib.Path(folder) / "m.toml"
            config.write_text(BASE["config"], encoding="utf-8")
            return call(cams.main, "--config", config, "--master", "X", "--slave", "Y", *words)

    def test_as_few_points_as_the_slave_allows(self):
        status, table, told = self.made("--velocity", 200, "--acceleration", 1000, *GIVEN)
        self.assertEqual(status, 0, told)
        self.assertRegex(told, r"acceleration up to 4\d\d\d.* mm/s², 9\d% of amax")
        count = table.count(":") - 1                            # one stands in the comment
        self.assertRegex(told, rf"^{table.count(':')} points|^{count} points")
        fewer = int(told.split()[0]) * 9 // 10
        self.assertEqual(self.made("--velocity", 200, "--acceleration", 1000, "--count", fewer,
                                   *GIVEN)[0], 1)

    def test_the_master_speeds_up(self):
        less = self.made("--velocity", 200, "--acceleration", 0, *GIVEN)[2]
        more = self.made("--velocity", 200, "--acceleration", 2000, *GIVEN)[2]
        self.assertLess(int(less.split()[0]), int(more.split()[0]))
        status, _, told = self.made("--velocity", 260, *GIVEN)     # by the master's amax
        self.assertEqual(status, 1)
        self.assertIn("speed up more slowly (--acceleration)", told)

    def test_faults(self):
        for words, wanted in ((["--velocity", 200, "0:0", "0:5"], "X has to rise"),
                              (["--velocity", 200, "0:0", "x"], "no point X:Y"),
                              (["--velocity", 200, "0:0"], "two points at least"),
                              (["--velocity", 200, "--table", 2], "no table 2"),
                              (["--velocity", 200, "--count", 1, *GIVEN], "from 2 to 4096")):
            status, _, told = self.made(*words)
            self.assertEqual(status, 2)
            self.assertIn(wanted, told)
        self.assertEqual(self.made("--velocity", "fast", *GIVEN)[0], 2)
        status, _, told = self.made("--velocity", 1000, "--acceleration", 0, *GIVEN)
        self.assertEqual(status, 1)
        self.assertIn("no number of points suffices", told)
        self.assertIn("beyond its limits", self.made("--velocity", 20, "0:0", "100:500")[2])

    def test_a_table_of_the_configuration(self):
        status, table, told = self.made("--velocity", 200, "--table", 1)
        self.assertEqual((status, table), (1, ""))
        self.assertIn("error 104", told)

    def test_a_line_of_a_bench(self):
        _, line, _ = self.made("--velocity", 200, "--bench", "--count", 3, "0:0", "10:5")
        self.assertEqual(line, "table 0:0 5000000000:2500000000 10000000000:5000000000\n")

    @unittest.skipUnless(MOTION.exists(), "the program isn't built")
    def test_the_kernel_agrees(self):
        for law in (*cams.LAWS, "spline"):
            for count in ([] if law in ("line", "spline") else [None]) + [40]:
                words = ["--velocity", 400, "--law", law, "0:0", "125:25", "250:0"]
                words += ["--count", count] if count else []
                safe, table, told = self.made("--acceleration", 5000, *words)
                if safe == 0:
                    self.assertFalse(self.fails(table), (law, count, told))
                status, table, told = self.made("--acceleration", 0, *words)
                if status == 1:
                    self.assertTrue(self.fails(table), (law, count, told))

    def fails(self, table):
        """Whether the slave meets error 104 where the master goes along a table."""
        with tempfile.TemporaryDirectory() as folder:
            config, tasks = pathlib.Path(folder) / "m.toml", pathlib.Path(folder) / "s.st"
            text = BASE["config"][:BASE["config"].index("[[table]]")] + table
            self.assertEqual(len(config_of("m.toml", text).tables), 1)
            config.write_text(text.replace("cycles = 800", "cycles = 2000"), encoding="utf-8")
            tasks.write_text(BASE["st"].replace("{declare}", "  c : CamIn(Y);")
                             .replace("{body}", TASK), encoding="utf-8")
            made = subprocess.run([MOTION, "st", config, tasks], capture_output=True, check=False,
                                  encoding="ascii")
            self.assertEqual(made.returncode, 0, made.stdout[:200])
            return ",ErrorStop,104," in made.stdout


if __name__ == "__main__":
    unittest.main()
