"""States by their events, and results by their ends, tried on the traces of examples/ and docs/ by
a program of their own: it reads them as an outsider would, and looks for a row or a reply that has
no cause in the trace."""

import os
import sys
import unittest
from pathlib import Path

ROOT = Path(__file__).resolve().parent.parent.parent
sys.path.insert(0, str(ROOT / "tools"))

from motion_tools.trace import Trace, lines_of  # noqa: E402

FOLDERS = os.environ.get("TRACES", f"{ROOT}/examples/*:{ROOT}/docs/timing")
TAKES_MOTION = ("Standstill", "DiscreteMotion", "ContinuousMotion", "SynchronizedMotion")

# The rows of the axis diagram (PLCopen Part 1, and Part 4 for the last two): from where, to where.
EVENTS = {
    "Error": (TAKES_MOTION + ("Disabled", "Homing", "Stopping"), "ErrorStop"),
    "PowerOff": (TAKES_MOTION + ("Disabled", "Homing", "Stopping"), "Disabled"),
    "DrivenFirst": (("Disabled",), "Standstill"),
    "ResetDriven": (("ErrorStop",), "Standstill"),
    "ResetNotDriven": (("ErrorStop",), "Disabled"),
    "HomeAdmitted": (("Standstill",), "Homing"),
    "HomeDone": (("Homing",), "Standstill"),
    "DiscreteActive": (TAKES_MOTION, "DiscreteMotion"),
    "VelocityActive": (TAKES_MOTION, "ContinuousMotion"),
    "FollowActive": (TAKES_MOTION, "SynchronizedMotion"),
    "FollowOut": (("SynchronizedMotion",), "ContinuousMotion"),
    "StopAdmitted": (TAKES_MOTION + ("Homing",), "Stopping"),
    "StopReleased": (("Stopping",), "Standstill"),
    "LastDone": (("DiscreteMotion",), "Standstill"),
    "GroupActive": (("Standstill", "SynchronizedMotion"), "SynchronizedMotion"),
    "PathRest": (("SynchronizedMotion",), "Standstill"),
}
BEGINS = {"Home": "HomeAdmitted", "MoveAbsolute": "DiscreteActive",
          "MoveRelative": "DiscreteActive", "MoveAdditive": "DiscreteActive",
          "Halt": "DiscreteActive",
          "MoveVelocity": "VelocityActive", "GearIn": "FollowActive", "CamIn": "FollowActive",
          "Stop": "StopAdmitted"}
OUT = ("GearOut", "CamOut")
PATHS = ("MoveLinearAbsolute", "GroupHalt", "GroupStop")
RESTS = ("MoveAbsolute", "Halt", "Stop", "GroupHalt", "GroupStop")   # Done at rest, or with a target


def traces():
    """The traces of the folders."""
    for folder in FOLDERS.split(":"):
        folder = Path(folder)
        yield from sorted(folder.parent.glob(f"{folder.name}/*.trace"))


class Broken(Exception):
    """A row or a reply that breaks a law."""


class Axis:
    """The state of an axis, led on by its events alone. Which commands wait is known by the ways
    that are left: a trace doesn't tell at once whether one of the same kind has taken over."""

    def __init__(self, definition):
        self.state = "Standstill" if definition.ready else "Disabled"
        self.driven, self.setpoint = definition.ready, definition.start
        self.ways, self.resets, self.holder, self.events = {()}, False, None, set()
        self.error = 0

    def lead(self, event):
        """The diagram leads on by an event, where it may come."""
        if self.state not in EVENTS[event][0]:
            raise Broken(f"{event} in {self.state}")
        self.state = EVENTS[event][1]
        self.events.add(event)

    def call(self, block, call, rises):
        """The one event of a call of a block of the axis, if it has one."""
        if block.kind == "Power" and not call.execute and self.state != "ErrorStop":
            self.begin("PowerOff", None)
        if not rises or "E" in call.outputs:
            return
        if block.kind == "Reset":
            self.resets = "B" in call.outputs
        elif block.kind in OUT:
            self.begin("FollowOut", None)
        elif block.kind in BEGINS and "A" in call.outputs:
            self.begin(BEGINS[block.kind], block.name if block.kind == "Stop" else None)
        elif block.kind in BEGINS:
            self.ways = {way + (BEGINS[block.kind],) for way in self.ways}

    def releases(self, call):
        """A Stop whose Execute falls holds the axis no longer."""
        if call.block == self.holder and not call.execute:
            self.holder = None

    def begin(self, event, holder):
        """A call ends all commands."""
        self.ways, self.holder = {()}, holder
        self.lead(event)

    def steps(self, row, way):
        """What a cycle may bring before the Reset, and which commands then wait."""
        rests = row.setpoint == self.setpoint
        if row.state == "ErrorStop" or self.resets:
            yield ["Error"], ()
        if not row.driven or not self.driven:
            yield (["DrivenFirst"] if row.driven and self.state == "Disabled" else []), way
            return
        yield [], way
        yield ["PathRest"], way
        if way:
            yield [way[0]], way[1:]
        elif rests:
            yield ["LastDone"], way
        if not way:
            yield ["HomeDone"], way
        if rests and self.holder is None and not way:
            yield ["StopReleased"], way

    def row(self, row):
        """The row of a cycle: its state comes by the events of the cycle, in their order."""
        judge_error(row.error, row.state == "ErrorStop", self.error)
        self.error = row.error
        resets = [[]] + [["ResetDriven" if row.driven else "ResetNotDriven"]] * self.resets
        ways = [(events + reset, left) for way in self.ways
                for events, left in self.steps(row, way)
                for reset in resets if leads(self.state, events + reset, row.state)]
        if not ways:
            raise Broken(f"no events lead from {self.state} to {row.state}")
        self.resets = self.resets and row.state == "ErrorStop"
        self.ways = {left for _, left in ways}
        self.events.update(*(events for events, _ in ways[:1]))
        self.state, self.driven, self.setpoint = row.state, row.driven, row.setpoint


def judge_error(error, stopped, before):
    """Whether a number stands exactly in the state of errors, is one of an axis, and stays."""
    if (101 <= error <= 106) != stopped or (error != 0) != stopped:
        raise Broken(f"the error {error} in another state")
    if stopped and before not in (0, error):
        raise Broken(f"the error {error} after {before}")


def leads(state, events, wanted):
    """Whether the diagram leads from a state to another by these events."""
    for event in events:
        if state not in EVENTS[event][0]:
            return False
        state = EVENTS[event][1]
    return state == wanted


def is_reset(block):
    """Whether a block is a Reset, which no other command aborts."""
    return block.kind in ("Reset", "GroupReset")


class Instance:
    """What an instance shows, and the ends that its command may have come to after its edge."""

    def __init__(self, block, members):
        self.block, self.members = block, members
        self.execute, self.result, self.errors, self.aborts = False, None, set(), False
        self.target, self.is_there, self.is_reset, self.replies = None, False, False, 0
        self.outputs, self.hides = "", False

    def rise(self, call):
        """A rising edge: nothing has ended yet."""
        self.result, self.errors, self.aborts = None, set(), False
        self.is_there, self.is_reset, self.hides = False, False, False
        self.target = call.positions[0] if self.block.kind == "MoveAbsolute" else None

    def cycle(self, rows, groups, before, resets):
        """The rows of a cycle after the edge; a pending Reset may be done in that of an error."""
        self.hides |= bool(resets & {self.block.on, *self.members})
        own = groups.get(self.block.on) or rows[self.block.on]
        errors = {own.error} | {rows[name].error for name in self.members}
        self.errors |= errors - {0}
        self.is_reset |= own.error == 0
        stops = errors != {0} or any(not rows[name].driven for name in self.members)
        self.aborts |= stops and not is_reset(self.block)
        places = [(before[name], rows[name].setpoint) for name in self.members]
        if self.target is None:
            self.is_there |= all(old == new for old, new in places) or self.block.kind == "Home"
        else:
            self.is_there |= min(places[0]) <= self.target <= max(places[0])

    def reply(self, call, rises):
        """A reply shows a result only where the command came to that end, and keeps it."""
        shown = "".join(letter for letter in call.outputs if letter in "DCE"), call.error
        if rises:
            self.rise(call)
        if self.result is not None and self.execute and call.execute and not rises \
                and self.block.kind != "Power" and shown != self.result:
            raise Broken(f"{self.block.name} shows {shown} after {self.result}")
        self.result = shown if shown[0] and call.execute else None
        if self.block.kind != "Power":
            self.goes_on(call, rises)
        self.judge(shown, rises)
        self.execute, self.outputs = call.execute, call.outputs

    def goes_on(self, call, rises):
        """A command goes on or tells its end, and a shown result goes with Execute false."""
        results = set(call.outputs) & set("DCE")
        if "B" in self.outputs and not rises and not results and "B" not in call.outputs:
            raise Broken(f"{self.block.name} lost its command")
        if set(self.outputs) & set("DCE") and not call.execute and results:
            raise Broken(f"{self.block.name} shows {call.outputs} with Execute false")
        holds = "D" in call.outputs and self.block.kind in ("Stop", "GroupStop")
        if "A" in call.outputs and "B" not in call.outputs and not holds:
            raise Broken(f"{self.block.name} is active without a command")

    def judge(self, shown, rises):
        """Whether what is shown has its end after the edge, or is the call's own."""
        letters, error = shown
        self.replies += bool(letters)
        is_shown = self.hides or error in self.errors
        if "E" in letters and not rises and error >= 100 and not is_shown:
            raise Broken(f"{self.block.name} shows {error}, which no row has")
        if "C" in letters and not self.aborts:
            raise Broken(f"{self.block.name} is aborted by nothing")
        kind = self.block.kind
        if "D" in letters and not rises and kind in RESTS and not self.is_there:
            raise Broken(f"{self.block.name} is Done before its end")
        if "D" in letters and not rises and is_reset(self.block) and not self.is_reset:
            raise Broken(f"{self.block.name} is Done in the error")


class Reader:
    """A reader of a trace, entry by entry."""

    def __init__(self, lines):
        trace = Trace(lines)
        self.blocks = {block.name: block for block in trace.machine.blocks}
        self.members = {group.name: group.axes for group in trace.machine.groups}
        self.axes = {axis.name: Axis(axis) for axis in trace.machine.axes}
        self.instances = {name: Instance(block, self.members.get(block.on, [block.on]))
                          for name, block in self.blocks.items()}
        self.executes = dict.fromkeys(self.blocks, False)
        self.errors = dict.fromkeys(self.members, 0)
        for cycle in trace.cycles():
            for call in cycle.calls:
                self.call(call)
            self.cycle(cycle)
        for call in trace.last_calls:
            self.call(call)

    def call(self, call):
        """A call leads the state of its own axes alone; who else acts there may be aborted."""
        block = self.blocks[call.block]
        rises = call.execute and not self.executes[call.block]
        self.executes[call.block] = call.execute
        members = self.members.get(block.on)
        if members is None:
            self.axes[block.on].call(block, call, rises)
            self.axes[block.on].releases(call)
        elif block.kind in PATHS:
            for name in members:
                self.goes_on_path(name, rises and "A" in call.outputs)
        is_off = block.kind == "Power" and not call.execute
        if rises and "E" not in call.outputs or is_off:
            for other in self.instances.values():
                if other.block.name != call.block and is_reset(other.block) == is_reset(block) \
                        and set(other.members) & set(members or [block.on]):
                    other.aborts = True
                    other.errors |= {102} if is_off and other.block.on in self.members else set()
        self.instances[call.block].reply(call, rises)

    def goes_on_path(self, name, begins):
        """An axis goes on its group's path, where that begins."""
        if begins and self.axes[name].state == "Standstill":
            self.axes[name].lead("GroupActive")

    def cycle(self, cycle):
        """A cycle leads each axis by its own events."""
        before = {name: axis.setpoint for name, axis in self.axes.items()}
        resets = {instance.block.on for instance in self.instances.values()
                  if is_reset(instance.block) and "B" in instance.outputs}
        for instance in self.instances.values():
            instance.cycle(cycle.rows, cycle.groups, before, resets)
        for name, row in cycle.groups.items():
            judge_error(row.error, row.state == "GroupErrorStop", self.errors[name])
            self.errors[name] = row.error
        for name, row in cycle.rows.items():
            axis = self.axes[name]
            on_path = any(name in members and cycle.groups[group].state == "GroupMoving"
                          for group, members in self.members.items())
            self.goes_on_path(name, on_path and row.state == "SynchronizedMotion")
            axis.row(row)


class States(unittest.TestCase):
    """Each state of a row comes by the events of its entries; each result has its end."""

    def test_no_trace_breaks_a_law(self):
        events, replies = set(), 0
        for name in traces():
            try:
                reader = Reader(lines_of(str(name)))
            except Broken as broken:
                self.fail(f"{name}: {broken}")
            events |= {event for axis in reader.axes.values() for event in axis.events}
            replies += sum(instance.replies for instance in reader.instances.values())
        self.assertEqual(events, set(EVENTS))
        self.assertGreater(replies, 50)

    def planted(self, name, *pairs):
        """A trace with words in the position of others, which a reader has to find."""
        text = (ROOT / name).read_text()
        for old, new in pairs:
            self.assertIn(old, text)
            with self.assertRaises(Broken, msg=f"{old} {new}"):
                Reader(iter(text.replace(old, new, 1).splitlines(True)))

    def test_what_breaks_a_law_is_found(self):
        self.planted("docs/timing/halt.trace", (",DiscreteMotion,0,1,", ",Homing,0,1,"),
                     (",DiscreteMotion,0,1,", ",ErrorStop,0,1,"))
        self.planted("docs/timing/move_absolute.trace",
                     (",aborting,,D,0", ",aborting,,C,0"), (",aborting,,D,0", ",aborting,,E,103"),
                     ("DiscreteMotion,0,1,16", "DiscreteMotion,0,1,15"))
        self.planted("examples/power-fault-reset/power-fault-reset.trace",
                     ("call,RESET,1,,,,,,,,B,0", "call,RESET,1,,,,,,,,D,0"),
                     ("call,RESET,1,,,,,,,,D,0", "call,RESET,1,,,,,,,,C,0"))
        self.planted("docs/timing/group_reset.trace",
                     ("grow,G,GroupErrorStop,101", "grow,G,GroupErrorStop,7"),
                     ("grow,G,GroupErrorStop,101", "grow,G,GroupErrorStop,102"))
        self.planted("docs/timing/halt.trace", (",aborting,,BA,0", ",aborting,,A,0"))
        self.planted("docs/timing/gear_out.trace",
                     ("call,BLOCK,0,,,,,,,,,0", "call,BLOCK,0,,,,,,,,D,0"))
        self.planted("docs/timing/group_reset.trace",
                     ("call,BLOCK,1,,,,,,,,D,0", "call,BLOCK,1,,,,,,,,,0"))
        self.planted("examples/first-move/first-move.trace",
                     ("DiscreteMotion,0,1,12", "Standstill,0,1,12"))


if __name__ == "__main__":
    unittest.main()
