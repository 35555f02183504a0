"""The laws of motion, tried on the traces of examples/ and docs/ by a program of their own: it
looks for a row or a command that breaks one. They are proved of the kernel (README); here it is
seen that what they say is what a reader of a trace would ask."""

import os
import sys
import unittest
from collections import namedtuple
from pathlib import Path

ROOT = Path(__file__).resolve().parent.parent.parent
sys.path.insert(0, str(ROOT / "tools"))

from motion_tools.trace import Call, Trace, lines_of  # noqa: E402

AxisOf = namedtuple("AxisOf", "lo hi vmax amax dmax start ready")
RowOf = namedtuple("RowOf", "setpoint state driven")
MOVES = ("MoveAbsolute", "MoveRelative", "MoveAdditive")
WITHOUT_COMMANDS = ("Standstill", "Disabled", "ErrorStop")
FOLDERS = os.environ.get("TRACES", f"{ROOT}/examples/*:{ROOT}/docs/timing")


def traces():
    """The traces of the folders."""
    for folder in FOLDERS.split(":"):
        folder = Path(folder)
        yield from sorted(folder.parent.glob(f"{folder.name}/*.trace"))


def way_to_rest(step, deceleration):
    """How far an axis goes that brakes from a step."""
    return sum(range(step, 0, -deceleration))


def cycles_bound(call, way, speed):
    """Within how many cycles a move is done, from a step of this speed."""
    way += way_to_rest(speed, call.deceleration)
    return (speed // call.deceleration + 1 - (-call.velocity // call.acceleration)
            - (-way // call.velocity) + call.velocity // call.deceleration + 3)


def is_between(before, place, after):
    """Whether a step touches a place."""
    return min(before, after) <= place <= max(before, after)


class Course:
    """What a command has promised: to rest, at a target if it has one, in so many cycles. An
    additive move counts from the target of the command that it ends, where that has one."""

    def __init__(self, call, kind, setpoint, velocity, goal=None):
        self.call, self.target = call, None
        self.cycles = abs(velocity) // call.deceleration + 1
        if kind in MOVES:
            bases = {"MoveAbsolute": 0, "MoveRelative": setpoint,
                     "MoveAdditive": setpoint if goal is None else goal}
            self.target = call.positions[0] + bases[kind]
            self.cycles = cycles_bound(call, abs(self.target - setpoint), abs(velocity))


class Goal:
    """The target of the active command of an axis, where it has one and it is known which command is
    active: one that waits may have taken over once the axis was at the target of the one before."""

    def __init__(self):
        self.target, self.is_known, self.is_last = None, True, True

    def begin(self, kind, course):
        """A command of a kind is active in its call, and none waits."""
        self.target, self.is_last = course.target if course else None, True
        self.is_known = course is not None or kind != "MoveAdditive"

    def row(self, before, row):
        """The row of a cycle after a setpoint."""
        if row.state in WITHOUT_COMMANDS:
            self.begin("", None)
        elif not self.is_last and (self.target is None
                                   or is_between(before, self.target, row.setpoint)):
            self.is_known = False


BLEND_VELOCITIES = {"blendingLow": min, "blendingPrevious": lambda first, second: first,
                    "blendingNext": lambda first, second: second, "blendingHigh": max}


class Blend:
    """What a move has promised that is blended into one further on: to cross its target by a step
    of at most the blend velocity, or to stand there, in the cycles of its braking, and as many as
    the target is units away, or those of coming back."""

    def __init__(self, course, call, setpoint, velocity):
        self.target, speed = course.target, abs(velocity)
        self.most = BLEND_VELOCITIES[call.mode](course.call.velocity, call.velocity)
        self.cycles = speed // course.call.deceleration + 1 + max(
            abs(self.target - setpoint) + 1, cycles_bound(course.call, speed, speed))

    def is_done(self, before, setpoint):
        """Whether a step crosses the target, or it is 0 there."""
        return is_between(before, self.target, setpoint) and abs(setpoint - before) <= self.most


class Axis:
    """An axis, row by row: which laws its rows and commands break."""

    def __init__(self, definition):
        self.limits = definition
        self.setpoint, self.velocity, self.driven = definition.start, 0, definition.ready
        self.course, self.blend, self.homed = None, None, False
        self.active = None      # the course of the active command, where none waits after it
        self.goal = Goal()
        self.rows, self.promises, self.blends, self.broken = 0, 0, 0, []

    def call(self, call, kind, rises):
        """A call of a block of the axis: a rising edge or a Power ends what was promised, but that
        a move waits after a blended one."""
        if kind == "Power" or rises and "A" in call.outputs:
            self.blend, self.active = None, None
        if rises and call.outputs == "B":
            self.waits(call, kind)
        if kind == "Power" or rises:
            self.course = None
        if kind == "Home" and "A" in call.outputs:
            self.homed = True
        if rises and "A" in call.outputs:
            self.course = self.active = self.course_of(call, kind)
            self.goal.begin(kind, self.course)

    def course_of(self, call, kind):
        """What a command has promised that is active in its call, as far as that is known."""
        if kind not in (*MOVES, "Halt", "Stop"):
            return None
        if kind == "MoveAdditive" and not self.goal.is_known:
            return None
        return Course(call, kind, self.setpoint, self.velocity, self.goal.target)

    def waits(self, call, kind):
        """A command waits after the active one: a blend applies where its target lies further
        on."""
        active, self.active, self.goal.is_last = self.active, None, False
        if active is None or active.target is None or kind not in MOVES:
            return
        first = active.target
        second = call.positions[0] + (0 if kind == "MoveAbsolute" else first)
        way = (second > first) - (second < first)
        is_ahead = way * (first - self.setpoint) >= 0 and way * self.velocity >= 0
        if call.mode in BLEND_VELOCITIES and way != 0 and is_ahead:
            self.blend = Blend(active, call, self.setpoint, self.velocity)

    def row(self, row):
        """The row of a cycle."""
        step = 0 if self.homed else row.setpoint - self.setpoint
        if row.driven and self.driven:
            self.judge(row.setpoint, step)
        elif row.driven and not self.limits.lo <= row.setpoint <= self.limits.hi:
            self.broken.append("begins outside")
        self.velocity = step if row.driven and self.driven else 0
        before, self.setpoint = self.setpoint, row.setpoint
        self.driven, self.homed = row.driven, False
        is_faulted = row.state == "ErrorStop" or not row.driven
        self.promised(is_faulted)
        self.passes(before, is_faulted)
        self.goal.row(before, row)

    def judge(self, setpoint, step):
        """A driven row after another keeps the limits."""
        limits, old, new = self.limits, abs(self.velocity), abs(step)
        slows = step * self.velocity >= 0 and new < old
        most = limits.dmax if slows else limits.amax
        if not limits.lo <= setpoint <= limits.hi:
            self.broken.append("outside")
        if new > limits.vmax or abs(step - self.velocity) > most:
            self.broken.append(f"step {step} after {self.velocity}")
        self.rows += 1

    def promised(self, is_faulted):
        """What was promised is kept when its cycles are over."""
        if self.course is None or is_faulted:
            self.course = None
            return
        self.course.cycles -= 1
        if self.course.cycles == 0:
            at = self.setpoint if self.course.target is None else self.course.target
            if self.velocity != 0 or self.setpoint != at:
                self.broken.append(f"not at {at} but {self.setpoint} by {self.velocity}")
            self.promises += 1
            self.course = None

    def passes(self, before, is_faulted):
        """A blended move is done with its target before its cycles are over."""
        if self.blend is None or is_faulted:
            self.blend = None
            return
        self.blend.cycles -= 1
        is_done = self.blend.is_done(before, self.setpoint)
        if is_done or self.blend.cycles == 0:
            self.blends += 1
            if not is_done:
                self.broken.append(f"is not done with {self.blend.target}")
            self.blend = None


def axes_of(lines):
    """The axes of a trace after its last cycle."""
    trace = Trace(lines)
    axes = {axis.name: Axis(axis) for axis in trace.machine.axes}
    blocks = {block.name: block for block in trace.machine.blocks}
    members = {group.name: group.axes for group in trace.machine.groups}
    execute = dict.fromkeys(blocks, False)
    for cycle in trace.cycles():
        for call in cycle.calls:
            block = blocks[call.block]
            rises = call.execute and not execute[call.block]
            execute[call.block] = call.execute
            for axis in members.get(block.on, [block.on]):
                axes[axis].call(call, block.kind, rises)
        for axis, row in cycle.rows.items():
            axes[axis].row(row)
    return axes


class Laws(unittest.TestCase):
    """Limits in every driven row; moves at their targets, and Halts and Stops at rest, in time;
    blended moves past their targets in time."""

    def test_no_trace_breaks_a_law(self):
        rows = promises = blends = 0
        for name in traces():
            for axis in axes_of(lines_of(str(name))).values():
                self.assertEqual(axis.broken, [], f"{name} {axis.limits.name}")
                rows, promises = rows + axis.rows, promises + axis.promises
                blends += axis.blends
        self.assertGreater(rows, 500)
        self.assertGreater(promises, 5)
        self.assertGreater(blends, 4)

    def test_what_breaks_a_law_is_found(self):
        text = (ROOT / "docs" / "timing" / "halt.trace").read_text()
        last = "cycle,8,,,,,,,,,,\nrow,X,0037,24,8,Standstill,0,1,2"
        for old, new in ((",1,12,000f", ",1,14,000f"), (",1,2,000f", ",1,-1,000f"),
                         (last + "4", last + "5")):
            self.assertIn(old, text)
            axes = axes_of(iter(text.replace(old, new).splitlines(True)))
            self.assertTrue(axes["X"].broken, old)

    def test_what_an_additive_move_counts_from_is_looked_at(self):
        text = (ROOT / "examples" / "print-mark" / "print-mark.trace").read_text()
        for old, broken in (("call,CORRECT,1,120,", "not at 10121 but 10120 by 0"),
                            ("call,CORRECT,1,-80,", "not at 20041 but 20040 by 0")):
            self.assertIn(old, text)
            name, block, execute, distance, _ = old.split(",")
            new = f"{name},{block},{execute},{int(distance) + 1},"
            axis = axes_of(iter(text.replace(old, new).splitlines(True)))["WEB"]
            self.assertEqual(axis.broken[:1], [broken])

    def test_an_additive_move_is_left_out_where_another_command_may_be_active(self):
        call = Call("M", True, (20,), 6, 2, 2, 0, "aborting", None, "BA", 0)
        axis = Axis(AxisOf(-100, 100, 10, 10, 10, 12, True))
        axis.call(call, "MoveAbsolute", True)
        axis.call(call._replace(outputs="B", mode="buffered"), "MoveRelative", True)
        axis.row(RowOf(18, "DiscreteMotion", True))
        self.assertEqual(axis.course_of(call, "MoveAdditive").target, 40)
        axis.row(RowOf(20, "DiscreteMotion", True))
        self.assertIsNone(axis.course_of(call, "MoveAdditive"))

    def test_a_blended_move_that_hangs_is_found(self):
        call = Call("M", True, (20,), 6, 2, 2, 0, "blendingLow", None, "B", 0)
        first = Course(call, "MoveAbsolute", 12, 6)
        blend = Blend(first, call._replace(positions=(40,), velocity=3), 12, 6)
        self.assertEqual((blend.target, blend.most), (20, 3))
        self.assertTrue(blend.is_done(18, 20) and blend.is_done(20, 20))
        self.assertFalse(blend.is_done(12, 19) or blend.is_done(17, 21))
        axis = Axis(AxisOf(-100, 100, 10, 10, 10, 12, True))
        axis.blend = blend
        for _ in range(blend.cycles):
            self.assertEqual(axis.broken, [])
            axis.row(RowOf(19 if axis.setpoint == 18 else 18, "DiscreteMotion", True))
        self.assertEqual(axis.broken[-1], "is not done with 20")


if __name__ == "__main__":
    unittest.main()
