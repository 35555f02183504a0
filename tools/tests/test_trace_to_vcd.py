"""Tests of the dumps for waveform viewers."""

import io
import os
import re
import shutil
import subprocess
import tempfile
import unittest

from tool_runner import CELL, EXAMPLES, HOMED, changed, run
from motion_tools.gtkwave import view_of
from motion_tools.trace import Trace
from vcd_checker import Dump, Fault

CYCLE = 1_000_000       # nanoseconds, of a cycle of 1,000 microseconds


def dump_of(path, *words, text=""):
    """The dump of a trace that is written with a cycle of 1 ms."""
    status, output, faults = run("trace_to_vcd", path, "--cycle-us", "1000", *words, text=text)
    assert (status, faults) == (0, ""), faults
    return Dump(output)


class Dumping(unittest.TestCase):

    def compare_rows(self, trace, dump):
        """Each row of a trace stands in its dump, at the end of its cycle."""
        for cycle in trace.cycles():
            time = cycle.number * CYCLE
            for name, row in cycle.rows.items():
                wanted = row._asdict()
                del wanted["axis"]
                told = {field: dump.at(time, f"motion.{name}.{field}") for field in wanted}
                self.assertEqual(told, wanted)
            for name, row in cycle.groups.items():
                self.assertEqual((dump.at(time, f"motion.{name}.state"),
                                  dump.at(time, f"motion.{name}.error")), row[1:])

    def test_rows_of_every_example(self):
        for path in EXAMPLES.glob("*/*.trace"):
            with self.subTest(path=path.name), open(path, encoding="ascii") as file:
                self.compare_rows(Trace(file), dump_of(path))

    def test_rows_of_version_2(self):
        self.compare_rows(Trace(io.StringIO(HOMED)), dump_of("-", text=HOMED))

    def test_timescale_and_times(self):
        dump = dump_of("-", text=HOMED)
        self.assertEqual(dump.timescale, "1 ns")
        self.assertEqual((dump.times[0], dump.times[-1]), (0, 6 * CYCLE))
        self.assertEqual(dump.at(0, "motion.A.setpoint"), 6)

    def test_calls_are_events_between_cycles(self):
        dump = dump_of("-", text=HOMED)
        self.assertEqual(dump.events, [
            (500000, "motion.main.M.call"), (3333333, "motion.main.M.call"),
            (3666666, "motion.main.H.call"), (5500000, "motion.main.H.call")])
        self.assertEqual(dump.at(500000, "motion.main.M.execute"), 1)
        self.assertEqual(dump.at(500000, "motion.main.M.done"), 0)
        self.assertEqual(dump.at(3333333, "motion.main.M.done"), 1)
        self.assertEqual(dump.at(3333333, "motion.main.M.execute"), 0)

    def test_errors_of_calls(self):
        dump = dump_of(CELL)
        time = next(time for time, name in dump.events
                    if name == "motion.main.GEAR.call" and dump.at(time, name[:-4] + "error"))
        self.assertEqual(dump.at(time, "motion.main.GEAR.error_id"), 101)

    def test_velocities_and_user_units(self):
        dump = dump_of("-", "--scale", "A=0.001mm", text=HOMED)
        motion = [[dump.at(k * CYCLE, f"motion.A.{name}")
                   for name in ("setpoint", "velocity", "acceleration", "place")]
                  for k in range(1, 6)]
        self.assertEqual(motion, [[.008, 2, 2000, .006], [.01, 2, 0, .008], [.01, 0, -2000, .01],
                                  [.006, None, None, .006], [.006, 0, 0, .006]])

    def test_numbers_below_zero(self):
        text = HOMED.replace("1,10,000f,5,10", "1,10,000f,-5,10")
        self.assertEqual(dump_of("-", text=text).at(3 * CYCLE, "motion.A.target"), -5)

    def test_more_variables_than_characters(self):
        blocks = "".join(f"block,M{i},main,MoveAbsolute,A,,,,,,,\n" for i in range(250))
        dump = dump_of("-", text=changed("block,H", blocks + "block,H"))
        self.assertEqual(len(dump.variables), 12 + 9 * 252)

    @unittest.skipUnless(shutil.which("vcd2fst"), "vcd2fst, of GTKWave, isn't installed")
    def test_gtkwave_reads_it(self):
        _, output, _ = run("trace_to_vcd", CELL, "--cycle-us", "1000")
        with tempfile.TemporaryDirectory() as folder:
            with open(f"{folder}/cell.vcd", "w", encoding="ascii") as file:
                file.write(output)
            subprocess.run(["vcd2fst", f"{folder}/cell.vcd", f"{folder}/cell.fst"], check=True)
            back = subprocess.run(["fst2vcd", f"{folder}/cell.fst"], check=True,
                                  capture_output=True, encoding="ascii").stdout
        self.assertIn("sSynchronizedMotion", back)


class Plain(unittest.TestCase):
    """Dumps for simple readers."""

    def dump(self):
        return run("trace_to_vcd", CELL, "--cycle-us", "1000", "--plain")[1]

    def test_states_are_numbers_and_names_are_whole(self):
        text = self.dump()
        self.assertNotIn(" string ", text)
        self.assertNotIn("nan", text)
        self.assertIn("$timescale 1 us $end", text)
        self.assertIn("$comment FEEDER_state: 0 Disabled, 1 Standstill", text)
        names = re.findall(r"^\$var \S+ \d+ \S+ (\S+)", text, re.MULTILINE)
        self.assertEqual(len(names), len(set(names)))
        for name in ("FEEDER_setpoint", "FEEDER_ErrorStop", "GEAR_execute", "PORTAL_state"):
            self.assertIn(name, names)

    def test_it_is_a_dump_of_the_standard(self):
        Dump(self.dump())

    def test_a_file_has_no_view(self):
        with tempfile.TemporaryDirectory() as folder:
            self.assertEqual(run("trace_to_vcd", CELL, "--cycle-us", "1000", "--plain", "-o",
                                 f"{folder}/c.vcd")[0], 0)
            self.assertEqual(os.listdir(folder), ["c.vcd"])

    @unittest.skipUnless(shutil.which("sigrok-cli"), "there is no sigrok-cli")
    def test_sigrok_reads_it(self):
        with tempfile.TemporaryDirectory() as folder:
            run("trace_to_vcd", CELL, "--cycle-us", "1000", "--plain", "-o", f"{folder}/c.vcd")
            read = subprocess.run(["sigrok-cli", "-I", "vcd", "-i", f"{folder}/c.vcd", "--show"],
                                  capture_output=True, encoding="utf-8", check=True)
        self.assertIn("FEEDER_ErrorStop: logic", read.stdout)
        self.assertIn("GEAR_execute: logic", read.stdout)
        self.assertNotIn("unknown token", read.stdout + read.stderr)


class Viewing(unittest.TestCase):
    """The view of GTKWave beside a dump."""

    def test_a_view_stands_beside_the_dump(self):
        with tempfile.TemporaryDirectory() as folder:
            path = f"{folder}/cell.vcd"
            self.assertEqual(run("trace_to_vcd", CELL, "--cycle-us", "1000", "-o", path),
                             (0, "", ""))
            with open(path, encoding="ascii") as file:
                dump = file.read()
            with open(f"{path}.gtkw", encoding="ascii") as file:
                view = file.read().splitlines()
        self.assertEqual(dump, run("trace_to_vcd", CELL, "--cycle-us", "1000")[1])
        self.assertEqual(view[0], '[dumpfile] "cell.vcd"')
        names = [line for line in view if line.startswith("motion.")]
        self.assertLessEqual(set(names), set(Dump(dump).variables))
        for axis in ("X", "Y", "BELT", "FEEDER"):
            for name in ("setpoint", "velocity"):
                flags = view[view.index(f"motion.{axis}.{name}") - 1]
                self.assertTrue(int(flags[1:], 16) & 0x8000, flags)

    def test_a_place_is_a_line_too(self):
        with tempfile.TemporaryDirectory() as folder:
            run("trace_to_vcd", "-", "--cycle-us", "1000", "-o", f"{folder}/d.vcd", text=HOMED)
            with open(f"{folder}/d.vcd.gtkw", encoding="ascii") as file:
                self.assertIn("motion.A.place\n@20000\n-\n", file.read())

    def test_a_cut_trace_has_both(self):
        with tempfile.TemporaryDirectory() as folder:
            status, _, _ = run("trace_to_vcd", "-", "--cycle-us", "1000", "-o", f"{folder}/d.vcd",
                               text=changed("row,A,0037,4,", "row,A,0037,4.5,"))
            with open(f"{folder}/d.vcd", encoding="ascii") as file:
                self.assertEqual((status, Dump(file.read()).times), (3, [0, 500000, CYCLE]))
            with open(f"{folder}/d.vcd.gtkw", encoding="ascii") as file:
                self.assertIn("motion.A.setpoint", file.read())

    def test_all_of_it_is_in_the_window(self):
        zoom = next(line for line in view_of(Trace(io.StringIO(HOMED)).machine, "d.vcd", 800 << 10)
                    .splitlines() if line.startswith("*"))
        self.assertAlmostEqual(2 ** -float(zoom[1:].split()[0]) / 150, 1 << 10, 0)

    def test_a_folder_that_is_not_there(self):
        status, _, faults = run("trace_to_vcd", CELL, "--cycle-us", "1000", "-o", "no_such/f.vcd")
        self.assertEqual((status, faults),
                         (6, "trace_to_vcd: cannot write: No such file or directory\n"))


class Refusing(unittest.TestCase):

    def test_no_cycle_length(self):
        status, _, faults = run("trace_to_vcd", CELL)
        self.assertEqual(status, 2)
        self.assertIn("--cycle-us", faults)

    def test_cycles_that_do_not_rise(self):
        status, _, faults = run("trace_to_vcd", "-", "--cycle-us", "1000",
                                text=changed("cycle,3,", "cycle,2,"))
        self.assertEqual((status, faults), (3, "trace_to_vcd: refused -: record 12: cycle 2 "
                                               "follows cycle 2\n"))

    def test_beginning_of_a_bad_trace_is_a_dump(self):
        status, output, _ = run("trace_to_vcd", "-", "--cycle-us", "1000",
                                text=changed("row,A,0037,4,", "row,A,0037,4.5,"))
        self.assertEqual(status, 3)
        self.assertEqual(Dump(output).times, [0, 500000, CYCLE])


class Checking(unittest.TestCase):

    def test_the_checker_refuses_what_is_no_dump(self):
        _, output, _ = run("trace_to_vcd", "-", "--cycle-us", "1000", text=HOMED)
        for old, new in (("$timescale 1 ns", "$timescale 2 ns"), ("$upscope $end\n", ""),
                         ("#1000000\n", "#0\n"), ("r8 !", "r8!"), ("$var real", "$var reel"),
                         ("b110111 ", "b10000000000000000 "), ("sStandstill ", "sStand still "),
                         ("real 64 \" ", "real 64 ! "), ("$enddefinitions", "$end")):
            with self.subTest(old=old):
                self.assertIn(old, output)
                with self.assertRaises((Fault, ValueError)):
                    Dump(output.replace(old, new, 1))


if __name__ == "__main__":
    unittest.main()
