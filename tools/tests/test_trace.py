"""Tests of the reader of traces."""

import io
import tempfile
import unittest
from unittest import mock

from tool_runner import CELL, EXAMPLES, FIRST_MOVE, HOMED, changed
from motion_tools import trace as motion_trace
from motion_tools.trace import Axis, Block, Call, Drive, Group, GroupRow, Row, Trace, TraceError, lines_of


def trace_of(text):
    """The trace of a text, and its cycles."""
    trace = Trace(io.StringIO(text, newline=""))
    return trace, list(trace.cycles())


def unseen(text):
    """A text with a quoted field, CR LF and a blank line, which is the same trace."""
    return text.replace("axis,A", 'axis,"A"').replace("\n", "\r\n").replace("call", "\r\ncall")


def third(text):
    """A text of version 2 as one of version 3."""
    return (text.replace("trace,2,", "trace,3,").replace("2,6,1,,", "2,6,1,0,0")
            .replace("aborting,", "aborting:shortest,"))


class Lengths(unittest.TestCase):

    def test_a_trace_that_is_too_long_for_the_check_says_so(self):
        for length, told in ((motion_trace.MOST_CHECKED, ""),
                             (motion_trace.MOST_CHECKED + 1, "more than 256 MiB")):
            with tempfile.NamedTemporaryFile(suffix=".trace") as file:
                file.write(FIRST_MOVE.read_bytes())
                file.truncate(length)
                progress = io.StringIO()
                self.assertEqual(next(lines_of(file.name, progress))[:5], "kind,")
                self.assertIn(told, progress.getvalue())
                self.assertEqual(bool(told), bool(progress.getvalue()))


class Reading(unittest.TestCase):

    def test_machine_of_version_1(self):
        trace = Trace(lines_of(str(CELL)))
        machine = trace.machine
        self.assertEqual(machine[:4], (1, "bench", 100, 1000))
        self.assertEqual([axis.name for axis in machine.axes], ["X", "Y", "BELT", "FEEDER"])
        self.assertEqual(machine.axes[2], Axis("BELT", 0, 200, 10, 4, 4, 1, 0, True))
        self.assertEqual(machine.groups, [Group("PORTAL", ("X", "Y"))])
        self.assertEqual(machine.blocks[3], Block("LINE", "main", "MoveLinearAbsolute", "PORTAL"))

    def test_cycles_of_version_1(self):
        trace = Trace(lines_of(str(CELL)))
        cycles = list(trace.cycles())
        self.assertEqual([cycle.number for cycle in cycles], list(range(1, 18)))
        self.assertEqual(cycles[4].calls[-1], Call("LINE", True, (30, 10), 6, 2, 2, 0, "aborting",
                                                   None, "BA", 0))
        self.assertEqual(cycles[10].rows["FEEDER"], Row("FEEDER", 0x1f, 18, 8, "ErrorStop", 101,
                                                        False, 18, 0, 18, None))
        self.assertEqual(cycles[10].groups["PORTAL"], GroupRow("PORTAL", "GroupMoving", 0))
        self.assertEqual([call.block for call in trace.last_calls], ["LINE", "SECOND"])
        self.assertEqual(trace.last_ends, ["main"])
        self.assertEqual(trace.drives[3], Drive("FEEDER", 17, "OperationEnabled", 18))

    def test_version_2(self):
        trace, cycles = trace_of(HOMED)
        self.assertEqual(trace.machine.axes, [Axis("A", -50, 50, 10, 4, 8, 2, 6, True)])
        self.assertEqual(cycles[1].rows["A"].place, 8)
        self.assertEqual([len(cycle.calls) for cycle in cycles], [1, 0, 0, 2, 0])

    def test_version_3(self):
        first, cycles = trace_of(HOMED)
        trace, others = trace_of(third(HOMED))
        self.assertEqual(trace.machine, first.machine._replace(version=3))
        self.assertEqual(others, cycles)
        added = third(HOMED).replace(":shortest", "")
        added = added.replace("main,MoveAbsolute,", "main,MoveAdditive,")
        trace, others = trace_of(added)
        self.assertEqual(trace.machine.blocks[1].kind, "MoveAdditive")
        self.assertEqual(others, cycles)

    def test_cam_tables(self):
        trace, _ = trace_of(changed("task,main", "table,-5:0;0:7,,,,,,,,,,\ntask,main"))
        self.assertEqual(trace.machine.tables, [[(-5, 0), (0, 7)]])

    def test_other_spellings_of_records(self):
        plain, cycles = trace_of(HOMED)
        other, others = trace_of(unseen(HOMED))
        self.assertEqual(plain.machine, other.machine)
        self.assertEqual([cycle[:5] for cycle in cycles], [cycle[:5] for cycle in others])

    def test_byte_order_mark(self):
        with tempfile.NamedTemporaryFile() as file:
            file.write(b"\xef\xbb\xbf" + HOMED.encode())
            file.flush()
            self.assertEqual(len(list(Trace(lines_of(file.name)).cycles())), 5)

    def test_every_example(self):
        for path in EXAMPLES.glob("*/*.trace"):
            trace = Trace(lines_of(str(path)))
            cycles = sum(1 for _ in trace.cycles())
            self.assertEqual({drive.taken for drive in trace.drives}, {cycles}, path)


# What is put in place of what, and the record that is refused for it, with what is reported of it.
FAULTS = [
    (HOMED, "", 0, "the text is empty"),
    ("kind,a,b", "kind,b,a", 1, "in the position of the header"),
    ("trace,2,", "trace,4,", 2, "the version is '4', and not one of 1, 2, 3"),
    ("block,H,main,Home,A", "block,H,main,MoveAdditive,A", 5, "the kind is 'MoveAdditive'"),
    ("aborting,,BA,0", "aborting:shortest,,BA,0", 7, "the mode is 'aborting:shortest'"),
    ("trace,2,bench", "trace,2,hand", 2, "the maker is 'hand'"),
    ("axis,A,-50,50", "axis,A,-50,+50", 3, "the hi is '+50', and not a whole number"),
    ("axis,A,", "axis,2nd,", 3, "the name is '2nd', and not a name"),
    ("task,main,,,,,,,,,,", "task,main,,,,,,,,,x,", 4, "a field that isn't used is filled"),
    ("task,main,,,,,,,,,,", "task,A,,,,,,,,,,", 4, "the name A is used already"),
    ("task,main,,,,,,,,,,\n", "", 4, "block: it names main, which isn't there"),
    ("block,H,main,Home,A", "block,H,main,GroupHalt,A", 5, "it names A, which isn't there"),
    ("block,H,main,Home,A", "block,H,main,Jump,A", 5, "the kind is 'Jump', and not one of Power"),
    ("call,M,1,10", "call,N,1,10", 7, "call: there is no N"),
    ("call,M,1,10", "call,M,1,10;", 7, "the positions is '10;'"),
    ("aborting,,BA,0", "aborting,,AB,0", 7, "the outputs is 'AB'"),
    ("cycle,1,", "cycle,01,", 8, "the number is '01'"),
    ("row,A,0037,3", "row,B,0037,3", 9, "row: it is of B, and not of A"),
    ("row,A,0037,3", "row,A,37,3", 9, "the statusword is '37', and not four hexadecimal digits"),
    ("row,A,0037,3,8,DiscreteMotion,0,1,8,000f,4,6",
     "row,A,0037,3,8,DiscreteMotion,0,1,8,000f,4,", 9, "the place is ''"),
    ("1,8,000f,4,6\n", "1,8,000f,4\n", 9, "it has 11 fields, and not twelve"),
    ("cycle,2,,,,,,,,,,\nrow,A,0037,4,8", "cycle,2,,,,,,,,,,\nraw,A,0037,4,8", 11,
     "'raw' stands in the position of a record row"),
    ("end,main", "end,idle", 21, "end: there is no idle"),
    ("drive,A,5,OperationEnabled", "drive,A,5,Enabled", 22, "the state is 'Enabled'"),
    ("drive,A,5,OperationEnabled,5,,,,,,,\n", "", 21, "the text ends too early"),
    ("drive,A,5,OperationEnabled,5,,,,,,,\n", "drive,A,5,OperationEnabled,5,,,,,,,\n" * 2, 23,
     "in the position of the end, after the drives"),
]


FAULTS_OF_3 = [
    ("2,6,1,0,0", "2,6,1,5,0", "the jmax is '5', and not 0"),
    ("2,6,1,0,0", "2,6,1,0,1", "the modulo is '1', and not 0"),
    ("2,6,1,0,0", "2,6,1,,", "the jmax is ''"),
    ("aborting:shortest", "aborting:positive", "the mode is 'aborting:positive'"),
    ("aborting:shortest", "shortest", "the mode is 'shortest'"),
]


class Refusing(unittest.TestCase):

    def test_faults_name_their_record(self):
        for old, new, record, told in FAULTS:
            with self.subTest(old=old, new=new):
                with self.assertRaises(TraceError) as refusal:
                    trace_of(changed(old, new))
                self.assertEqual(refusal.exception.record, record)
                self.assertIn(told, str(refusal.exception))

    def test_faults_of_version_3(self):
        for old, new, told in FAULTS_OF_3:
            with self.subTest(new=new), self.assertRaises(TraceError) as refusal:
                trace_of(third(HOMED).replace(old, new, 1))
            self.assertIn(told, str(refusal.exception))

    def test_place_in_version_1(self):
        text = FIRST_MOVE.read_text().replace("000f,2,\n", "000f,2,0\n")
        with self.assertRaisesRegex(TraceError, "record 8: row: a field that isn't used"):
            trace_of(text)

    def test_every_text_that_is_cut_short(self):
        records = HOMED.splitlines(keepends=True)
        for count in range(len(records)):
            with self.assertRaisesRegex(TraceError, f"record {count}: the text"):
                trace_of("".join(records[:count]))

    def test_a_bench_is_told_as_such(self):
        with self.assertRaisesRegex(TraceError, "this is a bench"):
            Trace(["motion-bench 1\n", "limit 20 40\n"])

    def test_line_without_end(self):
        with tempfile.NamedTemporaryFile("w") as file:
            file.write("kind" * motion_trace.LONGEST_LINE)
            file.flush()
            with self.assertRaisesRegex(TraceError, "record 1: the line is too long"):
                Trace(lines_of(file.name))

    def test_quote_without_end(self):
        with self.assertRaisesRegex(TraceError, "record 3: field larger than field limit"):
            trace_of(changed("axis,A", 'axis,"A') + HOMED * 1000)


class Progress(unittest.TestCase):

    def test_long_files_tell_how_much_was_read(self):
        told = io.StringIO()
        with tempfile.NamedTemporaryFile("w") as file:
            file.write("x\n" * 10000)
            file.flush()
            with mock.patch.object(motion_trace, "SECONDS_OF_SILENCE", -1):
                self.assertEqual(sum(1 for _ in lines_of(file.name, told)), 10000)
        self.assertEqual(told.getvalue(), f"{file.name}: 0 of 0 MB read\n" * 2)


if __name__ == "__main__":
    unittest.main()
