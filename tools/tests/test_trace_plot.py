"""Tests of tools/trace_plot: what is read, what is thinned, what is refused, and the pictures."""

import io
import json
import os
import re
import subprocess
import sys
import unittest
from xml.etree import ElementTree

from plot_runner import END, EXAMPLES, HEAD, TOOLS, call, plot, read, row

from motion_tools.plot import reader
from motion_tools.plot import style
from motion_tools.units import Units, scale_of


class Reading(unittest.TestCase):
    """What is taken from the records."""

    def test_steps(self):
        lane = read(row(1, 2), row(2, 6), row(3, 3)).axes["X"].lane
        self.assertEqual([column[0] for column in lane.columns], [2, 6, 3])
        self.assertEqual([column[2] for column in lane.columns], [2, 4, -3])
        self.assertEqual([column[4] for column in lane.columns], [2, 2, -7])

    def test_no_step_while_not_driven(self):
        lane = read(row(1, 2), row(2, 9, driven=0, state="ErrorStop", error=101), row(3, 4),
                    row(4, 6)).axes["X"].lane
        self.assertEqual([column[2] for column in lane.columns], [2, None, None, 2])
        self.assertEqual([column[4] for column in lane.columns], [2, None, None, 2])
        self.assertEqual([column[9] for column in lane.columns], [0, 101, 0, 0])

    def test_home_is_no_step(self):
        head = HEAD + ["block,H,main,Home,X,,,,,,,"]
        axis = read(["call,H,1,30,,,,,,,BA,0"], row(1, 30, state="Standstill"), row(2, 31),
                    head=head).axes["X"]
        self.assertEqual([column[2] for column in axis.lane.columns], [None, 1])
        self.assertEqual(axis.origin, 30)

    def test_version_one(self):
        head = [HEAD[0], "trace,1,bench,1000,2000,,,,,,,", "axis,X,-50,500,10,4,2,0,1,,,",
                *HEAD[3:]]
        axis = read(["cycle,1,,,,,,,,,,", "row,X,0037,3,8,DiscreteMotion,0,1,2,000f,1,"],
                    head=head).axes["X"]
        self.assertEqual((axis.amax, axis.dmax, axis.increment), (4, 4, 2))
        self.assertEqual(axis.lane.columns[0][6], 6)

    def test_reported_place(self):
        axis = read(row(1, 2, place=-3)).axes["X"]
        self.assertTrue(axis.has_reported)
        self.assertEqual(axis.lane.columns[0][6:8], [-3, -3])

    def test_marks(self):
        trace = read(call("BA"), row(1, 2), call("BA"), row(2, 4), call("D"), call("D"),
                     call("", execute=0), call("E", error=6))
        marks = [mark[:3] for mark in trace.axes["X"].marks.in_order()]
        self.assertEqual(marks, [(0, "Call", "M"), (2, "Done", "M Done"),
                                 (2, "Error", "M Error 6")])

    def test_window(self):
        trace = read(*(row(cycle, 2 * cycle) for cycle in range(1, 9)), first=3, last=5)
        self.assertEqual(trace.cycles, 3)
        self.assertEqual([column[0] for column in trace.axes["X"].lane.columns], [6, 8, 10])
        self.assertEqual(trace.axes["X"].origin, 4)

    def test_quotes_and_line_ends(self):
        text = "\r\n".join(HEAD + row(1, 2) + END).replace("DiscreteMotion", '"DiscreteMotion"')
        trace = reader.read_trace(io.StringIO(text.replace("task", "\r\ntask"), newline=""))
        self.assertEqual(trace.cycles, 1)


class Thinning(unittest.TestCase):
    """The least and the greatest values are kept, in little room."""

    def test_columns(self):
        places = [(37 * cycle * cycle) % 401 for cycle in range(1000)]
        lane = read(*(row(place + 1, value) for place, value in enumerate(places)),
                    limit=100).axes["X"].lane
        self.assertEqual((lane.width, len(lane.columns)), (16, 63))
        for place, column in enumerate(lane.columns):
            values = places[16 * place:16 * place + 16]
            self.assertEqual(column[:2], [min(values), max(values)])

    def test_marks(self):
        parts = [part for cycle in range(1, 3001)
                 for part in (call("BA"), call("", execute=0), row(cycle, 2))]
        marks = read(*parts).axes["X"].marks.in_order()
        self.assertLessEqual(len(marks), reader.MARKS)
        self.assertEqual(sum(mark[3] for mark in marks), 3000)

    def test_states(self):
        parts = [row(cycle, 0, state="ErrorStop" if cycle == 7 else "Standstill",
                     error=101 if cycle == 7 else 0) for cycle in range(1, 65)]
        columns = read(*parts, limit=16).axes["X"].lane.columns
        self.assertEqual([column[9] for column in columns], [0, 101] + [0] * 14)


class Refusals(unittest.TestCase):
    """A bad record is told by its number."""

    def refused(self, lines, record):
        with self.assertRaisesRegex(reader.TraceError, f"^record {record}: "):
            trace = reader.read_trace(io.StringIO("".join(line + "\n" for line in lines)))
            self.assertGreaterEqual(record, 6)
            raise trace.fault or AssertionError("nothing is refused")

    def test_records(self):
        for place, line in ((0, "kind"), (1, "trace,4,bench,1,1,,,,,,,"), (2, "axis,X"),
                            (2, "axis,2X,-50,500,10,4,8,2,0,1,,"), (3, "task,X,,,,,,,,,,"),
                            (4, "block,M,main,MoveAbsolute,Z,,,,,,,"), (5, "cycle,2,,,,,,,,,,"),
                            (6, "row,X,0037,0,8,Nowhere,0,1,2,000f,0,0"),
                            (6, "row,Y,0037,0,8,Standstill,0,1,2,000f,0,0"),
                            (6, "row,X,0037,0,8,Standstill,0,1,two,000f,0,0"),
                            (6, "end,main,,,,,,,,,,"), (7, "end,other,,,,,,,,,,"),
                            (7, "call,N,1,,,,,,,,B,0"), (7, "what,,,,,,,,,,,"),
                            (8, "drive,Y,1,OperationEnabled,0,,,,,,,")):
            lines = HEAD + row(1, 2) + END
            lines[place] = line
            self.refused(lines, place + 1)

    def test_too_early(self):
        self.refused([], 0)
        self.refused(HEAD, 5)
        self.refused(HEAD + row(1, 2) + END[:1], 8)

    def test_after_the_drives(self):
        self.refused(HEAD + row(1, 2) + END + ["end,main,,,,,,,,,,"], 10)

    def test_a_cut_trace_gives_what_there_is(self):
        lines = HEAD + call("BA") + row(1, 2) + row(2, 4) + ["cycle,3,,,,,,,,,,"]
        text = ("\n".join(lines) + "\nrow,X,0037,0,8,Discr").encode()
        for options in ((), ("--html",)):
            status, picture, told = plot("-", *options, text=text)
            self.assertEqual((status, told[:35]), (3, "trace_plot: refused -: record 12: i"))
            self.assertIn(b"Trace of X: cycles 1 to 2, cut short", picture)
        whole = plot("-", "--title", "T", text="\n".join(lines[:-1] + END).encode())[1]
        self.assertEqual(plot("-", "--title", "T", text=text)[1], whole)

    def test_a_terminal(self):
        ours, theirs = os.openpty()
        ran = subprocess.run([sys.executable, TOOLS / "trace_plot", EXAMPLES / "cell/cell.trace"],
                             stdout=theirs, stderr=subprocess.PIPE, check=False)
        os.close(theirs)
        os.close(ours)
        self.assertEqual(ran.returncode, 2)
        self.assertIn(b"-o picture.svg", ran.stderr)

    def test_statuses(self):
        status, _, told = plot("-", text="\n".join(HEAD[:4] + ["a,b"]).encode())
        self.assertEqual((status, told),
                         (3, "trace_plot: refused -: record 5: it has 2 fields, and not twelve\n"))
        self.assertEqual(plot("-", text=b"\xff\xfe\n")[0], 3)
        self.assertEqual(plot("no_such_file")[0], 4)
        self.assertEqual(plot(EXAMPLES / "cell" / "cell.trace", "-o", "no_such_folder/f")[0], 6)
        cell = EXAMPLES / "cell" / "cell.trace"
        for words in (("--scale", "X=mm"), ("--scale", "Q=1mm"), ("--from", "0"), ("--width", "1"),
                      ("--from", "5", "--to", "4"), ("--columns", "1"), ("--cycle-us", "-1")):
            self.assertEqual(plot(cell, *words)[0], 2, words)


class Scales(unittest.TestCase):
    """Units, numbers and scales."""

    def test_units(self):
        units = Units(dict([scale_of("X=0.001mm"), scale_of("0.1°")]), 1000)
        self.assertEqual(units.of_axis("X")["velocity"], (0.001 / 0.001, "mm/s"))
        self.assertEqual(units.of_axis("Y")["position"], (0.1, "°"))
        self.assertEqual(Units(None, 1000).of_axis("X")["velocity"], (1.0, "units/cycle"))
        self.assertEqual(Units().of_axis("X")["acceleration"], (1.0, "units/cycle²"))
        self.assertRaises(ValueError, scale_of, "X=")
        self.assertRaises(ValueError, scale_of, "X=0mm")

    def test_numbers(self):
        self.assertEqual([style.number_text(value) for value in (0, -5, 0.25, 1e6, 4e8, 123456789)],
                         ["0", "-5", "0.25", "1000000", "4e8", "1.2346e8"])

    def test_ticks(self):
        self.assertEqual(style.ticks(-1, 31, 4), [0, 10, 20, 30])

    def test_view(self):
        low, high = style.view(0, 30, [0, 200])
        self.assertTrue(low < 0 and 30 < high < 200)
        self.assertGreater(style.view(0, 60, [0, 200])[1], 200)
        self.assertGreater(style.view(0, 30, [0, 200], whole=True)[1], 200)
        low, high = style.view(5, 5, [0, 200])
        self.assertTrue(low < 0 and high > 200)


class Pictures(unittest.TestCase):
    """The SVG and the page."""

    def test_stored(self):
        for name in ("first-move", "cell"):
            trace = EXAMPLES / name / f"{name}.trace"
            self.assertEqual(plot(trace)[1], trace.with_suffix(".svg").read_bytes(), name)

    def test_svg(self):
        for options in ((), ("--dark", "--cycle-us", "1000", "--scale", "X=0.001mm", "--title",
                             "A<&b")):
            status, text, _ = plot(EXAMPLES / "cell" / "cell.trace", *options)
            self.assertEqual(status, 0)
            words = "".join(ElementTree.fromstring(text).itertext())
            for wanted in ("GroupMoving", "ErrorStop 101", "GEAR Error 101", "SECOND Done",
                           "Axis FEEDER"):
                self.assertIn(wanted, words)
            self.assertEqual("mm/s²" in words, bool(options))

    def test_page(self):
        status, text, _ = plot("--html", "--title", "</script>", EXAMPLES / "cell" / "cell.trace")
        text = text.decode()
        self.assertEqual(status, 0)
        self.assertEqual(text.count("</script>"), 1)
        self.assertNotRegex(text, r"https?://|src=|href=")
        data = json.loads(re.search(r"^const data = (.*);$", text, re.MULTILINE)[1])
        self.assertEqual([section["title"] for section in data["sections"]],
                         ["Group PORTAL: X, Y", "Axis X", "Axis Y", "Axis BELT", "Axis FEEDER"])
        self.assertEqual(data["sections"][3]["lines"]["velocity"],
                         [[2, 4, 6, 6, 6, 6, 6, 4, 3, 3, 3, 3, 3, 3, 2, 0, 0]])
        self.assertEqual(data["sections"][4]["breaks"], [[10, 15, 3], [15, 16, 1]])
        self.assertEqual(data["sections"][4]["lines"]["velocity"][0][9:],
                         [1, None, None, None, None, None, None, 0])

    def test_what_is_asked_for(self):
        cell = EXAMPLES / "cell" / "cell.trace"
        for words, wanted in ((("--following",), ["following error", "following"]),
                              (("--jerk",), ["jerk", "[units/cycle³]"]),
                              (("--bits",), ["statusword", "operation enabled", "fault reset"]),
                              (("--together", "BELT,FEEDER"), ["BELT and FEEDER"]),
                              (("--overlay", EXAMPLES / "gear" / "gear.trace"), ["gear"])):
            status, text, _ = plot(cell, *words)
            self.assertEqual(status, 0, words)
            told = "".join(ElementTree.fromstring(text).itertext())
            for each in wanted:
                self.assertIn(each, told)
        for words in (("--together", "BELT"), ("--together", "BELT,Q")):
            self.assertEqual(plot(cell, *words)[0], 2, words)
        self.assertEqual(plot(cell, "--overlay", "no_such_file")[0], 4)

    def test_two_units_in_one_panel(self):
        _, text, _ = plot(EXAMPLES / "cell" / "cell.trace", "--together", "BELT,FEEDER", "--scale",
                          "BELT=0.001mm", "--scale", "FEEDER=0.1deg")
        self.assertIn(b"FEEDER [deg]", text)

    def test_following_error(self):
        lane = read(row(1, 2, place=0), row(2, 6, place=1), row(3, 9, place=4)).axes["X"].lane
        self.assertEqual([column[reader.FOLLOWING] for column in lane.columns], [0, 1, 2])
        self.assertEqual([column[reader.REPORTED_VELOCITY] for column in lane.columns], [None, 1, 3])

    def test_jerk(self):
        lane = read(row(1, 2), row(2, 6), row(3, 9), row(4, 9, driven=0), row(5, 9)).axes["X"].lane
        self.assertEqual([column[reader.JERK] for column in lane.columns], [2, 0, -3, None, None])

    def test_table_of_setpoints(self):
        rows = [f"{cycle},{place},0,0,0" for cycle, place in ((1, 2), (2, 6), (3, 9))]
        trace = reader.read_trace([reader.TABLE, *rows])
        lane = trace.axes["setpoints"].lane
        self.assertEqual([column[2] for column in lane.columns], [2, 4, 3])
        self.assertEqual([column[reader.JERK] for column in lane.columns], [2, 0, -3])
        text = "\n".join([reader.TABLE, *rows, ""]).encode()
        status, picture, _ = plot("-", "--jerk", text=text)
        told = list(ElementTree.fromstring(picture).itertext())
        self.assertEqual((status, "state" in told, "reported by the drive" in told), (0, False, False))
        self.assertEqual(plot("-", "--jerk", "--html", text=text)[0], 0)
        for bad in ("2,1,0,0,0", "1,x,0,0,0", "1,2,0,0"):
            status, _, told = plot("-", text="\n".join([reader.TABLE, bad, ""]).encode())
            self.assertEqual((status, "record 2" in told), (3, True), told)

    def test_long_trace(self):
        lines = HEAD + [line for cycle in range(1, 20001) for line in row(cycle, cycle % 300)] + END
        text = "\n".join(lines).encode()
        status, picture, _ = plot("-", text=text)
        self.assertEqual(status, 0)
        self.assertLess(len(picture), 150_000)
        self.assertEqual(picture, plot("-", text=text)[1])

    def test_no_peak_is_lost(self):
        lines = HEAD + [line for cycle in range(1, 20001)
                        for line in row(cycle, 400 if cycle == 12345 else 0)] + END
        _, picture, _ = plot("-", text="\n".join(lines).encode())
        path = re.findall(r'<path d="([^"]*)" class="position"', picture.decode())[-1]
        heights = [float(point.split()[1]) for point in re.split("[ML]", path)[1:]]
        self.assertEqual(heights.count(min(heights)), 1)
        self.assertGreater(max(heights) - min(heights), 60)

    def test_no_cycle(self):
        for options in ((), ("--html",)):
            self.assertEqual(plot("-", *options, text="\n".join(HEAD + END).encode())[0], 0)


if __name__ == "__main__":
    unittest.main()
