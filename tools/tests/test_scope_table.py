"""Tests of the tables of reports."""

import unittest

from tool_runner import run

REPORT = """\
axis X driven 7 least 2 greatest 20 still 1 travel 18
axis CONVEYOR driven 0 least - greatest - still 12 travel 0
block M calls 2 done 1 errors 0
block STOP_ALL calls 140 done 0 errors 3
"""

INTERNAL = """\
axis      driven  least  greatest  still  travel
X              7      2        20      1      18
CONVEYOR       0      -         -     12       0

block     calls  done  errors
M             2     1       0
STOP_ALL    140     0       3
"""

SCALED = """\
axis      driven  least  greatest  still  travel  unit
X              7  0.002      0.02      1   0.018  mm
CONVEYOR       0      -         -     12       0

block     calls  done  errors
M             2     1       0
STOP_ALL    140     0       3
"""


class Tables(unittest.TestCase):

    def test_internal_units(self):
        self.assertEqual(run("scope_table", "-", text=REPORT), (0, INTERNAL, ""))

    def test_user_units(self):
        self.assertEqual(run("scope_table", "-", "--scale", "X=0.001mm", text=REPORT),
                         (0, SCALED, ""))
        status, output, _ = run("scope_table", "-", "--scale", "X=0.001mm", "--scale", "0.1deg",
                                text=REPORT)
        self.assertEqual((status, output.splitlines()[2].split()[-1]), (0, "deg"))

    def test_setpoints_at_the_ends_of_64_bits(self):
        report = (f"axis A driven 2 least {-2 ** 63} greatest {2 ** 63 - 1} still 0 "
                  f"travel {2 ** 64 - 1}\nblock B calls 0 done 0 errors 0\n")
        status, output, _ = run("scope_table", "-", text=report)
        self.assertEqual((status, output.splitlines()[1].split()),
                         (0, ["A", "2", str(-2 ** 63), str(2 ** 63 - 1), "0", str(2 ** 64 - 1)]))

    def test_texts_that_are_no_report(self):
        block = "block M calls 2 done 1 errors 0\n"
        cases = ["", "\n", block, REPORT + "axis Y driven 0 least - greatest - still 0 travel 0\n",
                 REPORT.replace("travel 18", "travel 018"), REPORT.replace("block M", "block 1M"),
                 REPORT.replace("errors 3", "errors three"), REPORT[:REPORT.index("block")]]
        for text in cases:
            with self.subTest(text=text):
                status, output, fault = run("scope_table", "-", text=text)
                self.assertEqual((status, output), (3, ""))
                self.assertTrue(fault.startswith("scope_table: refused -: "), fault)

    def test_faulty_options(self):
        status, _, fault = run("scope_table", "-", "--scale", "Z=1mm", text=REPORT)
        self.assertEqual((status, fault),
                         (2, "scope_table: --scale Z: the report has no axis Z\n"))
        self.assertEqual(run("scope_table", "-", "--scale", "X=mm", text=REPORT)[0], 2)
        self.assertEqual(run("scope_table", "no-such-file")[:2], (4, ""))


if __name__ == "__main__":
    unittest.main()
