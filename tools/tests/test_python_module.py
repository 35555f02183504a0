"""Tests of python/motion.py, over a shared library that is built for them; left out where the library
for C programs isn't built, or there is no gcc."""

import os
import shutil
import subprocess
import sys
import tempfile
import unittest
import unittest.mock
from decimal import Decimal
from fractions import Fraction
from pathlib import Path

from test_mistakes import MOTION

TOP = Path(__file__).resolve().parent.parent.parent
sys.path.insert(0, str(TOP / "python"))

import motion  # noqa: E402

LIBRARY = Path(os.environ.get("LIBRARY", TOP / "crates" / "motion_c" / "out" / "libmotion_c.a"))
EXAMPLES = TOP / "examples"
FIRST_MOVE = EXAMPLES / "first-move" / "first-move.bench"
CONFIG = """\
cycle_us = 8000
cycles = 400
entries = 4000
[[axis]]
name = "X"
lo = 0
hi = 400
vmax = 1000
amax = 5000
increment = "0.001"
start = 25
[[axis]]
name = "Y"
lo = 0
hi = 400
vmax = 1000
amax = 5000
increment = "0.001"
start = 0
[[group]]
name = "XY"
axes = ["X", "Y"]
"""
TASKS = {"main": [("PX", "Power", "X"), ("PY", "Power", "Y"), ("MX", "MoveAbsolute", "X"),
                  ("RX", "Reset", "X"), ("GY", "GearIn", "Y")],
         "other": [("EN", "GroupEnable", "XY"), ("LN", "MoveLinearAbsolute", "XY")]}

SCRATCH = Path()


def setUpModule():
    if not LIBRARY.exists() or not shutil.which("gcc"):
        raise unittest.SkipTest("the library for C programs isn't built, or there is no gcc")
    scratch = tempfile.TemporaryDirectory()
    unittest.addModuleCleanup(scratch.cleanup)
    globals()["SCRATCH"] = Path(scratch.name)
    os.environ["MOTION_LIBRARY"] = str(SCRATCH / "libmotion.so")
    unittest.addModuleCleanup(os.environ.pop, "MOTION_LIBRARY")
    subprocess.run([TOP / "tools" / "python_library", os.environ["MOTION_LIBRARY"]], check=True,
                   stdout=subprocess.DEVNULL, env={**os.environ, "LIBRARY": str(LIBRARY)})


def checked(text):
    """What `motion check` writes of a trace or a segment."""
    file = SCRATCH / "checked.trace"
    file.write_text(text, encoding="ascii")
    return subprocess.run([MOTION, "check", file], capture_output=True, encoding="ascii",
                          check=False).stdout


def powered(machine, drives):
    """Switches both axes on."""
    for _ in range(10):
        is_on = [machine.call(block).reached for block in ("PX", "PY")]
        machine.step(drives)
        if all(is_on):
            return
    raise AssertionError("the axes aren't switched on")


KEYS = {"pos": "position", "vel": "velocity", "acc": "acceleration", "dec": "deceleration",
        "jerk": "jerk", "mode": "mode", "master": "master", "num": "numerator", "den": "denominator",
        "table": "table"}


def drives_of(lines):
    """The drives of a bench, and for each the steps in which it has a fault."""
    drives, faults = {}, {}
    for words in lines:
        if words[0] == "axis":
            is_ready = words[-1] == "ready"
            numbers = words[2:-1] if is_ready else words[2:]
            drives[words[1]] = [int(numbers[-1]) // int(numbers[-2]), 0, is_ready]
        elif words[0] == "drive":
            drives[words[1]][1] = int(words[2])
            faults[words[1]] = set(map(int, words[3:]))
    return ([motion.Drive(*drive) for drive in drives.values()],
            [faults.get(name, set()) for name in drives])


def trace_of(text):
    """The trace of a bench whose events are made by the module."""
    lines = [words for line in text.splitlines() if (words := line.split("#")[0].split())]
    drives, faults = drives_of(lines)
    step = 0
    with motion.Machine.from_bench(text) as machine:
        for words in lines[lines.index(["go"]) + 1:]:
            if words[0] == "call":
                inputs = {KEYS[key]: value for key, value in
                          (word.split("=") for word in words[3:])}
                for key in ("jerk", "numerator", "denominator", "table"):
                    if key in inputs:
                        inputs[key] = int(inputs[key])
                if "position" in inputs:
                    inputs["position"] = inputs["position"].split(";")
                machine.call(words[1], words[2] == "on", **inputs)
            elif words[0] == "end":
                machine.end(words[1])
            else:
                for _ in range(int((words + ["1"])[1])):
                    step += 1
                    for drive, steps in zip(drives, faults):
                        if step in steps:
                            drive.fault()
                    machine.step(drives)
        return machine.trace(drives)


class Benches(unittest.TestCase):
    """Machines of a bench."""

    def test_benches_have_their_traces(self):
        benches = sorted([*EXAMPLES.glob("*/*.bench"), *(TOP / "docs" / "timing").glob("*.bench")])
        self.assertGreater(len(benches), 30)
        for bench in benches:
            with self.subTest(bench.stem):
                found = trace_of(bench.read_text()).splitlines()
                wanted = bench.with_suffix(".trace").read_text().splitlines()
                self.assertEqual(len(found), len(wanted))
                for number, (line, other) in enumerate(zip(found, wanted), 1):
                    self.assertEqual(line, other, f"record {number}")

    def test_the_first_move_has_its_bench_s_trace(self):
        drives = [motion.Drive(0, enabled=True)]
        with motion.Machine.from_bench(FIRST_MOVE.read_text()) as machine:
            move = machine.call("M", position=20, velocity=6, acceleration=2, deceleration=2)
            self.assertTrue(move.busy and move.active and not move.done)
            for _ in range(7):
                machine.step(drives)
            self.assertTrue(machine.call("M").done)
            self.assertEqual(machine.look("X"), motion.AxisRow(20, 0, "Standstill", 0, True))
            machine.end("main")
            trace = machine.trace(drives)
        self.assertEqual(trace, FIRST_MOVE.with_suffix(".trace").read_text())
        lists = motion.columns(trace)["X"]
        self.assertEqual(lists["cycle"], [1, 2, 3, 4, 5, 6, 7])
        self.assertEqual(lists["setpoint"], [2, 6, 12, 16, 19, 20, 20])
        self.assertEqual(lists["actual"], [0, 2, 6, 12, 16, 19, 20])
        self.assertEqual(lists["driven"], [True] * 7)

    def test_faults_name_their_cause(self):
        text = FIRST_MOVE.read_text()
        with self.assertRaises(motion.MotionError) as refused:
            motion.Machine.from_bench(text.replace("0 50 10", "50 0 10"))
        self.assertEqual(refused.exception.name, "REFUSED")
        self.assertRegex(str(refused.exception), r"line or item 3, rule B\d")
        with motion.Machine.from_bench(text) as machine:
            with self.assertRaisesRegex(KeyError, "no block N"):
                machine.call("N")
            with self.assertRaisesRegex(motion.MotionError, "X: MOTION_NO_CYCLE"):
                machine.look("X")
            machine.call("M", False)
            with self.assertRaisesRegex(ValueError, "finer"):
                machine.call("M", position="0.5")
            with self.assertRaises(ValueError):
                machine.cycle([])
            for _ in range(20):
                machine.step([motion.Drive(0, enabled=True)])
            with self.assertRaisesRegex(motion.MotionError, "OVER"):
                machine.step([motion.Drive(0, enabled=True)])
        with self.assertRaisesRegex(motion.MotionError, "CLOSED"):
            machine.call("M")

    def test_closing_twice_is_harmless(self):
        machine = motion.Machine.from_bench(FIRST_MOVE.read_text())
        machine.close()
        machine.close()


class Quantities(unittest.TestCase):
    """Numbers of a configuration's units."""

    def test_they_are_exact_and_rates_are_rounded_toward_zero(self):
        units = motion.Units(motion.UNIT, 8000)
        for given in ("12.5", Decimal("12.5"), Fraction(25, 2)):
            self.assertEqual(units.position(given), 12_500_000_000)
        self.assertEqual(units.velocity("0.000000999"), 7)          # 7.992
        self.assertEqual(units.velocity("-0.000000999"), -7)
        self.assertEqual(units.acceleration("0.000999999"), 63)     # 63.99
        self.assertEqual(motion.Units().velocity(6), 6)
        self.assertEqual(motion.Units().acceleration(-2), -2)
        with self.assertRaises(TypeError):
            units.velocity(0.1)
        self.assertEqual(units.position(motion.near(0.1)), 100_000_000)
        with self.assertRaises(ValueError):
            units.position("0.0000000001")


class Configurations(unittest.TestCase):
    """Machines of a configuration."""

    def setUp(self):
        self.machine = motion.Machine.from_config(CONFIG, TASKS)
        self.addCleanup(self.machine.close)
        self.drives = [motion.Drive(25000), motion.Drive(0, lag=2)]

    def moved(self, block, cycles=200, **inputs):
        """Calls a block until it is Done or has an error, and then with Execute false."""
        for _ in range(cycles):
            out = self.machine.call(block, True, **inputs)
            self.machine.step(self.drives)
            if out.done or out.error:
                self.machine.call(block, False)
                return out
        raise AssertionError(f"{block} isn't done")

    @unittest.skipUnless(MOTION.exists(), "the program isn't built")
    def test_moves_gears_and_groups(self):
        machine = self.machine
        powered(machine, self.drives)
        machine.call("GY", acceleration=4000, deceleration=4000, master="X", denominator=2)
        self.assertTrue(self.moved("MX", position="125.5", velocity=500, acceleration=2000,
                                   deceleration="1999.5").done)
        self.assertEqual(machine.look("X").setpoint, 125_500_000_000)
        self.assertEqual(machine.look("Y").setpoint, 50_250_000_000)
        self.assertEqual(machine.call("EN").error_id, 12)   # Y is in its gear
        machine.call("PY", False)
        for _ in range(3):
            machine.step(self.drives)
        powered(machine, self.drives)
        machine.call("EN", False)
        self.assertTrue(machine.call("EN").done)
        self.assertTrue(self.moved("LN", position=[100, "60.25"], velocity=300, acceleration=2000,
                                   deceleration=2000).done)
        self.assertEqual(machine.look_at_group("XY"), motion.GroupRow("GroupStandby", 0))
        self.assertEqual(machine.look("Y").setpoint, 60_250_000_000)
        for task in TASKS:
            machine.end(task)
        self.assertRegex(checked(machine.trace(self.drives)), r"^legal \d+\n$")

    @unittest.skipUnless(MOTION.exists(), "the program isn't built")
    def test_an_additive_move_wants_version_3(self):
        self.assertEqual(motion.program_of({"main": TASKS["main"][:1]}),
                         "motion-program 1\ntask main\nblock PX Power X")
        tasks = {**TASKS, "more": [("AX", "MoveAdditive", "X"), ("HX", "Halt", "X")]}
        self.assertTrue(motion.program_of(tasks).startswith("motion-program 3\ntask main\n"))
        with self.assertRaisesRegex(motion.MotionError, "line or item 1, rule P2"):
            motion.Machine.from_config(CONFIG, tasks)
        inputs = {"velocity": 500, "acceleration": 2000, "deceleration": 2000}
        self.machine.close()
        self.machine = motion.Machine.from_config("version = 3\n" + CONFIG, tasks)
        self.addCleanup(self.machine.close)
        powered(self.machine, self.drives)
        self.machine.call("MX", position=100, **inputs)
        for _ in range(5):
            self.machine.step(self.drives)
        self.assertTrue(self.moved("AX", position="-12.5", **inputs).done)
        self.assertEqual(self.machine.look("X").setpoint, 87_500_000_000)
        for task in tasks:
            self.machine.end(task)
        trace = self.machine.trace(self.drives)
        self.assertTrue(trace.splitlines()[1].startswith("trace,3,"))
        self.assertRegex(checked(trace), r"^legal \d+\n$")

    @unittest.skipUnless(MOTION.exists(), "the program isn't built")
    def test_a_drive_s_fault_and_segments(self):
        machine, inputs = self.machine, {"velocity": 500, "acceleration": 2000, "deceleration": 2000}
        powered(machine, self.drives)
        machine.call("MX", position=300, **inputs)
        machine.step(self.drives)
        self.drives[0].fault()
        self.assertEqual(self.moved("MX", position=300, **inputs).error_id, 101)
        self.assertEqual(machine.look("X").state, "ErrorStop")
        first = machine.segment(self.drives)
        self.assertTrue(self.moved("RX").done)
        powered(machine, self.drives)
        self.assertTrue(self.moved("MX", position=300, **inputs).done)
        second = machine.segment(self.drives)
        for segment, following in ((first, second), (second, None)):
            verdict = checked(segment).split("\n", 1)
            self.assertRegex(verdict[0], r"^legal \d+$")
            if following is not None:
                self.assertEqual(following.split("\n\n")[0] + "\n", verdict[1])
        with self.assertRaisesRegex(motion.MotionError, "LATER"):
            machine.trace(self.drives)
        lists = motion.columns(second, motion.columns(first))["X"]
        self.assertEqual(lists["cycle"], list(range(1, len(lists["cycle"]) + 1)))
        self.assertEqual(lists["setpoint"][-1], 300_000_000_000)
        self.assertEqual(machine.cycles_left(), 400)
        machine.step(self.drives)
        machine.forget()
        self.assertEqual((machine.room_left(), machine.cycles_left()), (4000, 400))
        with self.assertRaisesRegex(motion.MotionError, "NO_CYCLE"):
            machine.look("X")

    def test_limits_and_the_cycle_are_the_configuration_s(self):
        self.assertEqual(self.machine.units, motion.Units(motion.UNIT, 8000))
        # 1000 units a second are 8 a cycle of 8 ms, and 5000 a second squared 0.32 a cycle squared
        self.assertEqual(self.machine.limits("Y"), motion.Limits(
            0, 400 * motion.UNIT, 8 * motion.UNIT, 320_000_000, 320_000_000, 1_000_000))
        with self.assertRaises(KeyError):
            self.machine.limits("XY")

    def test_a_library_of_another_version_is_rejected(self):
        self.assertEqual(".".join(map(str, motion.VERSION)), (TOP / "VERSION").read_text().strip())
        with unittest.mock.patch.object(motion, "VERSION", (9, 9, 9)):
            with self.assertRaisesRegex(motion.MotionError, "OTHER_VERSION"):
                motion.load()

    @unittest.skipUnless(MOTION.exists(), "the program isn't built")
    def test_the_program_has_the_same_rates(self):
        """The numbers of a call, as `motion run` reads them of a program."""
        config, program = SCRATCH / "line.toml", SCRATCH / "line.prog"
        config.write_text(CONFIG)
        words = {"position": "12.345678901", "velocity": "499.999999999",
                 "acceleration": "1999.123456789", "deceleration": "0.015625"}
        keys = " ".join(f"{key[:3]}={number}" for key, number in words.items())
        program.write_text("motion-program 1\ntask main\n" + "".join(
            f"block {name} {kind} {on}\n" for name, kind, on in TASKS["main"]) + f"call MX on {keys}\n")
        run = subprocess.run([MOTION, "run", config, program], capture_output=True, encoding="ascii",
                             check=True).stdout
        self.machine.call("MX", **words)
        self.machine.step(self.drives)
        lines = [next(line for line in text.splitlines() if line.startswith("call,MX,1,"))
                 for text in (run, self.machine.trace(self.drives))]
        self.assertEqual(lines[0], lines[1])


class Example(unittest.TestCase):
    """python/million_cycles.py."""

    def test_a_run_of_some_thousand_cycles(self):
        done = subprocess.run([sys.executable, TOP / "python" / "million_cycles.py", SCRATCH / "run",
                               "8000"], capture_output=True, encoding="ascii", check=True)
        self.assertIn("X: 8000 cycles, from 0.0 to 300.0 mm, 3 in error\n", done.stdout)
        self.assertIn("moves done, 1 ended by errors\n", done.stdout)
        self.assertIn("<svg", (SCRATCH / "run" / "first.svg").read_text(encoding="utf-8"))


if __name__ == "__main__":
    unittest.main()
