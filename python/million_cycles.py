#!/usr/bin/env python3
"""Runs a machine of two axes for a million cycles, and looks at what it did.

    tools/python_library                        # builds the shared library, once
    python/million_cycles.py FOLDER [CYCLES]

A carriage goes to and fro over 300 mm, and a lift follows it by a gear of one tenth; in cycle 2,000 the
carriage's drive has a fault, and is reset. The trace of the first 6,000 cycles goes to FOLDER, with its
picture by tools/trace_plot. From there on the history is taken segment by segment, into lists; where
pandas is there, the carriage's last segment becomes a frame.
"""

import subprocess
import sys
from pathlib import Path

import motion

TOP = Path(__file__).resolve().parent.parent

CONFIG = """\
# unit: mm
cycle_us = 1000
cycles = 50000
entries = 400000

[[axis]]
name = "X"
lo = 0
hi = 400
vmax = 1000
amax = 5000
increment = "0.001"
start = 0
lag = 1

[[axis]]
name = "Z"
lo = -10
hi = 80
vmax = 400
amax = 4000
increment = "0.001"
start = 0
"""

TASKS = {"carriage": [("PX", "Power", "X"), ("MX", "MoveAbsolute", "X"), ("RX", "Reset", "X")],
         "lift": [("PZ", "Power", "Z"), ("GZ", "GearIn", "Z")]}

FIRST = 6000        # cycles of the picture
FAULT = 2000


class Line:
    """The machine with its drives, and what its tasks call in each cycle."""

    def __init__(self, machine: motion.Machine):
        self.machine = machine
        self.drives = [motion.Drive(0, lag=1), motion.Drive(0)]
        self.target, self.dones, self.errors = 300, 0, 0
        self.is_moving = self.has_failed = False
        made = machine.inputs
        self.on, self.off = made(execute=True), made(execute=False)
        self.gear = made(execute=True, acceleration=4000, deceleration=4000, master="X", numerator=1,
                         denominator=10)
        self.moves = {target: made(execute=True, position=target, velocity=600, acceleration=3000,
                                   deceleration=3000) for target in (0, 300)}

    def cycle(self) -> None:
        """One scan of both tasks, and the cycle."""
        call = self.machine.call_with
        is_powered = call("PX", self.on).reached
        if self.has_failed:
            self.reset()
        elif is_powered or self.is_moving:
            self.move()
        if call("PZ", self.on).reached:
            call("GZ", self.gear)
        self.machine.step(self.drives)

    def reset(self) -> None:
        """Takes the carriage out of ErrorStop."""
        if self.machine.call_with("RX", self.on).done:
            self.machine.call_with("RX", self.off)
            self.has_failed = False

    def move(self) -> None:
        """Goes to the other end after each Done, and to the same one again after an error."""
        move = self.machine.call_with("MX", self.moves[self.target])
        self.is_moving, self.has_failed = move.busy, move.error
        if move.done or move.error:
            self.machine.call_with("MX", self.off)
            self.dones += move.done
            self.errors += move.error
            self.target = 300 - self.target if move.done else self.target


def first_part(line: Line, folder: Path, cycles: int) -> None:
    """The first cycles, with their trace and its picture."""
    for cycle in range(1, cycles + 1):
        line.cycle()
        if cycle == FAULT:
            line.drives[0].fault()
    trace, config = folder / "first.trace", folder / "line.toml"
    trace.write_text(line.machine.trace(line.drives), encoding="ascii")
    config.write_text(CONFIG, encoding="ascii")
    subprocess.run([sys.executable, TOP / "tools" / "trace_plot", trace, "--config", config, "-o",
                    folder / "first.svg"], check=True, stderr=subprocess.DEVNULL)


def main() -> int:
    """Runs the machine, and reports what it did."""
    folder = Path(sys.argv[1])
    cycles = int(sys.argv[2]) if len(sys.argv) > 2 else 1_000_000
    folder.mkdir(parents=True, exist_ok=True)
    table: motion.Columns = {}
    with motion.Machine.from_config(CONFIG, TASKS) as machine:
        line = Line(machine)
        first_part(line, folder, min(FIRST, cycles))
        last = machine.segment(line.drives)
        motion.columns(last, table)
        for _ in range(cycles - min(FIRST, cycles)):
            if not machine.cycles_left():
                last = machine.segment(line.drives)
                motion.columns(last, table)
            line.cycle()
        if machine.cycles_left() < 50_000:
            last = machine.segment(line.drives)
            motion.columns(last, table)
    for axis, lists in table.items():
        print(f"{axis}: {len(lists['setpoint'])} cycles, from {min(lists['setpoint']) / 1e9} to "
              f"{max(lists['setpoint']) / 1e9} mm, {sum(map(bool, lists['error']))} in error")
    print(f"{line.dones} moves done, {line.errors} ended by errors")
    (folder / "last.segment").write_text(last, encoding="ascii")
    try:
        import pandas
        print(pandas.DataFrame(motion.columns(last)["X"]).describe())
    except ImportError:
        pass
    return 0


if __name__ == "__main__":
    sys.exit(main())
