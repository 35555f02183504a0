"""Tests of the tables."""

import csv
import io
import os
import unittest

from tool_runner import CELL, EXAMPLES, HOMED, changed, run
from motion_tools.trace import Axis, Row, Trace, lines_of
from motion_tools.units import Motion, scale_of
from motion_tools.plot.reader import read_trace


def table_of(path, *words, text=""):
    """The titles of a trace's table, and its lines as dictionaries."""
    status, output, faults = run("trace_to_table", path, *words, text=text)
    assert (status, faults) == (0, ""), faults
    separator = ";" if "--decimal-comma" in words else ","
    reader = csv.DictReader(io.StringIO(output), delimiter=separator, strict=True)
    return reader.fieldnames, list(reader)


def column(lines, title):
    return [line[title] for line in lines]


class Tables(unittest.TestCase):

    def test_titles(self):
        titles, _ = table_of("-", text=HOMED)
        self.assertEqual(titles, ["cycle"] + ["A " + name for name in (
            "setpoint", "velocity", "acceleration", "state", "error", "driven", "statusword",
            "controlword", "target", "actual", "place")])

    def test_rows_of_every_example(self):
        for path in EXAMPLES.glob("*/*.trace"):
            with self.subTest(path=path.name), open(path, encoding="ascii") as file:
                self.compare_rows(Trace(file), table_of(path)[1])

    def compare_rows(self, trace, lines):
        """Each row of a trace stands in its table as it is."""
        cycles = list(trace.cycles())
        self.assertEqual(column(lines, "cycle"), [str(cycle.number) for cycle in cycles])
        for cycle, line in zip(cycles, lines):
            for name, row in cycle.rows.items():
                for field in ("setpoint", "state", "error", "target", "actual"):
                    self.assertEqual(line[f"{name} {field}"], str(getattr(row, field)))
                self.assertEqual(line[f"{name} driven"], str(int(row.driven)))
                self.assertEqual(int(line[f"{name} statusword"], 16), row.statusword)
                self.assertEqual(int(line[f"{name} controlword"], 16), row.controlword)
            for name, row in cycle.groups.items():
                self.assertEqual((line[f"{name} state"], line[f"{name} error"]),
                                 (row.state, str(row.error)))

    def test_a_home_is_no_velocity(self):
        _, lines = table_of("-", text=HOMED)
        self.assertEqual(column(lines, "A setpoint"), ["8", "10", "10", "6", "6"])
        self.assertEqual(column(lines, "A velocity"), ["2", "2", "0", "", "0"])
        self.assertEqual(column(lines, "A acceleration"), ["2", "0", "-2", "", "0"])
        self.assertEqual(column(lines, "A place"), ["6", "8", "10", "6", "6"])

    def test_user_units(self):
        titles, lines = table_of("-", "--cycle-us", "2000", "--scale", "A=0.001mm", text=HOMED)
        self.assertEqual(titles[1:5], ["time [s]", "A setpoint [mm]", "A velocity [mm/s]",
                                       "A acceleration [mm/s^2]"])
        self.assertEqual(titles[-1], "A place [mm]")
        self.assertEqual([list(line.values())[:5] for line in lines], [
            ["1", "0.002", "0.008", "1", "500"], ["2", "0.004", "0.01", "1", "0"],
            ["3", "0.006", "0.01", "0", "-500"], ["4", "0.008", "0.006", "", ""],
            ["5", "0.01", "0.006", "0", "0"]])

    def test_user_units_without_a_cycle_length_are_per_cycle(self):
        titles, lines = table_of("-", "--scale", "1e-3mm", text=HOMED)
        self.assertEqual(titles[1:4], ["A setpoint [mm]", "A velocity [mm/cycle]",
                                       "A acceleration [mm/cycle^2]"])
        self.assertEqual(lines[0]["A velocity [mm/cycle]"], "0.002")

    def test_scales_of_one_axis_and_of_the_others(self):
        titles, _ = table_of(CELL, "--scale", "1um", "--scale", "BELT=0.1deg")
        self.assertIn("X setpoint [um]", titles)
        self.assertIn("BELT setpoint [deg]", titles)

    def test_decimal_comma(self):
        _, lines = table_of("-", "--scale", "0.001mm", "--decimal-comma", text=HOMED)
        self.assertEqual(column(lines, "A setpoint [mm]")[0], "0,008")

    def test_numbers_of_a_configuration_are_exact(self):
        text = HOMED.replace("1,8,000f", "1,999999999999999,000f")
        _, lines = table_of("-", "--scale", "0.000000001mm", text=text)
        self.assertEqual(column(lines, "A setpoint [mm]")[0], "999999.999999999")


class Motions(unittest.TestCase):

    def steps(self, rows):
        """The velocities and accelerations of an axis at 0 in rows of a setpoint, whether it is
        driven, and its state."""
        motion = Motion(Axis("A", 0, 50, 10, 4, 4, 1, 0, True))
        return [motion.step(Row("A", 0x37, 0, 8, state, 0, driven, setpoint, 0xf, 0, None))
                for setpoint, driven, state in rows]

    def test_setpoints_as_they_are(self):
        self.assertEqual(self.steps([(2, True, "DiscreteMotion"), (12, True, "DiscreteMotion")]),
                         [(2, 2), (10, 8)])

    def test_a_fault_has_none(self):
        self.assertEqual(self.steps([(2, True, "DiscreteMotion"), (1, False, "ErrorStop"),
                                     (4, True, "Standstill"), (5, True, "DiscreteMotion")]),
                         [(2, 2), (None, None), (None, None), (1, 1)])

    def test_every_tool_tells_the_same(self):
        _, lines = table_of(CELL)
        trace = read_trace(lines_of(CELL))
        for name, axis in trace.axes.items():
            told = [None if field == "" else int(field)
                    for field in column(lines, f"{name} velocity")]
            self.assertEqual(told, [values[2] for values in axis.lane.columns], name)


class Refusing(unittest.TestCase):

    def refused(self, status, told, *words, text=""):
        found, _, faults = run("trace_to_table", *words, text=text)
        self.assertEqual(found, status)
        self.assertIn(told, faults)

    def test_faulty_options(self):
        for words, told in ((["--scale", "A=1"], "'A=1' isn't AXIS=NUMBERunit"),
                            (["--scale", "0mm"], "isn't AXIS=NUMBERunit"),
                            (["--scale", "Q=1mm"], "the trace has no axis Q"),
                            (["--cycle-us", "0"], "'0' is no whole number"),
                            (["--cycle-us", "1.5"], "'1.5' is no whole number")):
            with self.subTest(words=words):
                self.refused(2, told, CELL, *words)

    def test_scales(self):
        self.assertEqual(scale_of("X=1e-9m"), ("X", (1e-9, "m")))
        self.assertEqual(scale_of("2.5deg"), ("", (2.5, "deg")))

    def test_no_trace(self):
        self.refused(3, "trace_to_table: refused -: record 9: row: the setpoint is '8.0', and not "
                     "a whole number\n", "-", text=changed("1,8,000f", "1,8.0,000f"))

    def test_what_was_read_of_a_bad_trace_is_written(self):
        status, output, _ = run("trace_to_table", "-", text=changed("cycle,3,", "cycle,x,"))
        self.assertEqual((status, output.count("\n")), (3, 3))

    def test_no_file(self):
        self.refused(4, "cannot read no_such_file: No such file", "no_such_file")

    @unittest.skipUnless(os.path.exists("/dev/full"), "there is no /dev/full")
    def test_output_that_takes_nothing(self):
        self.assertEqual(os.system(f"'{os.sys.executable}' '{tool()}' '{CELL}' "
                                   ">/dev/full 2>/dev/null") >> 8, 6)


def tool():
    """The tool's file."""
    return CELL.parents[2] / "tools" / "trace_to_table"


if __name__ == "__main__":
    unittest.main()
