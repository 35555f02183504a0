"""What happened in a run: its commands from their calls to their ends, its errors, and what each
axis did. A trace is read once, as a stream."""

from collections.abc import Sequence
from dataclasses import dataclass, field
from typing import Optional, Protocol

from motion_tools.blocks import ENDLESS, MOVES, RELATIVE, acts_on_group
from motion_tools.trace import Axis, Block, Call, Cycle, Machine, Row, Trace, TraceError
from motion_tools.units import Motions, Step

COMMANDS = (*MOVES, *ENDLESS, "Home", "Stop", "Halt", "GearOut", "CamOut", "GroupStop", "GroupHalt")
RESULTS = {"D": "Done", "C": "CommandAborted", "E": "Error"}
AT_REST = ("Standstill", "Disabled", "ErrorStop", "Stopping", "GroupStandby", "GroupDisabled",
           "GroupErrorStop", "GroupStopping")


@dataclass
class Command:
    """A command that a block gave: where its axes stood, how fast they went, how it ended. Cycles
    are those before the call; a command without a result was still under way, or nobody asked."""

    block: Block
    call: Call
    begun: int
    start: dict[str, int]                               # by axis
    ended: Optional[int] = None
    result: str = ""
    error: int = 0
    end: dict[str, int] = field(default_factory=dict)
    velocity: dict[str, int] = field(default_factory=dict)      # the greatest, by axis
    acceleration: dict[str, int] = field(default_factory=dict)
    short_of: dict[str, int] = field(default_factory=dict)      # where the drive was at its Done
    aborted_by: Optional[Call] = None
    is_active: bool = False
    active_from: int = 0
    reached: bool = False                                       # InGear, InSync or InVelocity
    target: dict[str, int] = field(default_factory=dict)        # of a move, by axis

    def is_live(self) -> bool:
        """Whether nothing has ended it so far."""
        return self.ended is None


@dataclass
class Failure:
    """An error of a call, an axis or a group: after a cycle, or in it."""
    cycle: int
    number: int
    block: Optional[Block]
    call: Optional[Call]
    owner: str                                          # the axis or group
    rows: dict[str, Row]                                # as they were before
    state: str                                          # of the group, where it is one
    before: dict[str, Row] = field(default_factory=dict)
    base: dict[str, int] = field(default_factory=dict)  # what a relative move counts from, by axis


@dataclass
class AxisHistory:
    """What an axis did, in internal units per cycle."""

    axis: Axis
    least: Optional[int] = None
    greatest: Optional[int] = None
    velocity: int = 0
    acceleration: int = 0
    following: int = 0                                  # the greatest error, with its sign
    following_cycle: int = 0
    following_place: int = 0
    jump: int = 0                   # the greatest change of the target's step, in whole increments
    target_step: int = 0                                # of the last row, in increments
    last: Optional[Row] = None
    last_step: Step = (0, 0)

    def add(self, cycle: int, row: Row, step: Step, place: Optional[int]) -> None:
        """Adds a row, with the place that the drive reported at the beginning of its cycle."""
        before = self.last.setpoint if self.last and self.last.driven else None
        velocity, acceleration = step
        if row.driven:
            begin = self.axis.start if self.axis.ready else row.setpoint
            self.least = min(row.setpoint, begin if self.least is None else self.least)
            self.greatest = max(row.setpoint, begin if self.greatest is None else self.greatest)
            self.velocity = max(self.velocity, abs(velocity or 0))
            self.acceleration = max(self.acceleration, abs(acceleration or 0))
            if before is not None and place is not None and velocity is not None:
                if abs(before - place) > abs(self.following):
                    self.following, self.following_cycle = before - place, cycle
                    self.following_place = before
        step_of_target = row.target - self.last.target if self.last and velocity is not None else 0
        if velocity is not None:
            self.jump = max(self.jump, abs(step_of_target - self.target_step) * self.axis.inc)
        self.target_step = step_of_target
        self.last, self.last_step = row, step

    @property
    def reach(self) -> int:
        """How far the axis may go at all."""
        return self.axis.hi - self.axis.lo


@dataclass
class BlockHistory:
    """The calls of a block."""

    block: Block
    calls: int = 0
    edge: Optional[Call] = None                         # the last one with a rising edge
    last: Optional[Call] = None
    last_cycle: int = 0
    command: Optional[Command] = None
    ignored: list[tuple[int, Call, Call, bool]] = field(default_factory=list)
    stale: Optional[int] = None                         # a result that was shown anew after a pause


class Watch(Protocol):
    """What goes along a run by its calls and cycles."""

    def take(self, cycle: int, call: Call) -> None:
        """Takes a call after a cycle."""

    def next_cycle(self) -> None:
        """Takes a cycle."""


class History:
    """A run, as far as its report and its warnings need it."""

    def __init__(self, trace: Trace, watch: Optional[Watch] = None):
        self.machine: Machine = trace.machine
        self.blocks = {block.name: BlockHistory(block) for block in self.machine.blocks}
        self.axes = {axis.name: AxisHistory(axis) for axis in self.machine.axes}
        self.members = {group.name: list(group.axes) for group in self.machine.groups}
        self.homed = {block.on for block in self.machine.blocks if block.kind == "Home"}
        self.motions = Motions(self.machine)
        self.commands: list[Command] = []
        self.failures: list[Failure] = []
        self.ended: list[str] = []
        self.ended_at: dict[str, int] = {}              # by task, after which cycle
        self.cycles = self.entries = 0
        self.rejected = 0
        self.rows: dict[str, Row] = {}
        self.states: dict[str, str] = {}
        self.errors: dict[str, int] = {}
        self.live: dict[str, list[Command]] = {}        # by axis or group
        self.watch = watch
        self.fault: Optional[TraceError] = None         # where the text ceased to be a trace
        try:
            self.read(trace)
        except TraceError as fault:
            self.fault = fault

    def read(self, trace: Trace) -> None:
        """Reads the entries of a trace."""
        for cycle in trace.cycles():
            self.add_calls(cycle.calls, cycle.ends)
            self.add_cycle(cycle)
        self.add_calls(trace.last_calls, trace.last_ends)

    # Calls

    def add_calls(self, calls: list[Call], ends: list[str]) -> None:
        """Adds the calls and the ends between two cycles."""
        self.ended += ends
        self.ended_at.update(dict.fromkeys(ends, self.cycles))
        self.entries += len(calls) + len(ends)
        for call in calls:
            self.add_call(self.blocks[call.block], call)
            if self.watch:
                self.watch.take(self.cycles, call)

    def add_call(self, block: BlockHistory, call: Call) -> None:
        """Adds a call of a block."""
        before = block.last
        rises = call.execute and not (before and before.execute)
        if rises:
            self.rise(block, call)
        elif call.execute and block.block.kind != "Power":
            self.go_on(block, call)
        if call.error and (rises or not before or call.error != before.error):
            self.fail(call.error, block.block, call, block.block.on)
        self.show(block, call)
        block.calls, block.last, block.last_cycle = block.calls + 1, call, self.cycles

    def rise(self, block: BlockHistory, call: Call) -> None:
        """A rising edge: a new command, or a call that is rejected."""
        block.edge = call
        if block.block.kind not in COMMANDS:
            return
        if "E" in call.outputs and call.error < 100:
            self.rejected += 1
            return
        on = block.block.on
        command = Command(block.block, call, self.cycles, self.positions(on))
        command.active_from = self.cycles
        command.target = self.target_of(command)
        live = self.living(on)
        if call.mode in (None, "aborting"):
            for each in live:
                each.aborted_by = each.aborted_by or call
                each.ended, each.end = self.cycles, self.positions(on)
            live = []
        self.live[on] = [*live, command]
        self.commands.append(command)
        block.command = command

    def living(self, on: str) -> list[Command]:
        """The commands of an axis or a group that nothing has ended, the active one first."""
        return [command for command in self.live.get(on, ()) if command.is_live()]

    def target_of(self, command: Command) -> dict[str, int]:
        """Where a move goes to."""
        positions = command.call.positions
        if command.block.kind not in MOVES or positions is None:
            return {}
        if command.block.kind not in RELATIVE:
            return dict(zip(command.start, positions))
        return moved(self.base_of(command.block, command.call), positions)

    def base_of(self, block: Block, call: Call) -> dict[str, int]:
        """What a relative move counts from: where it waits, the target of the command before it; an
        additive one that doesn't wait, that of the active command; else, and where that one has no
        target, the setpoints."""
        live = self.living(block.on)
        if call.mode != "aborting":
            before = live[-1:]
        else:
            before = live[:1] if block.kind == "MoveAdditive" else []
        return {**self.positions(block.on), **(before[0].target if before else {})}

    def go_on(self, block: BlockHistory, call: Call) -> None:
        """A call with Execute true, as before: whether its inputs are others, and ignored. A call
        without any input only asks how far the command is."""
        edge, last = block.edge, block.last
        if edge is None or last is None:
            return
        if inputs(call) not in (inputs(edge), inputs(last)) and any(numbers(call)):
            block.ignored.append((self.cycles, edge, call, is_over(last)))
        elif self.cycles > block.last_cycle + 1 and is_over(last) and block.stale is None:
            block.stale = self.cycles

    def show(self, block: BlockHistory, call: Call) -> None:
        """What a call showed of the block's command."""
        command = block.command
        if command is None:
            return
        command.is_active = "A" in call.outputs
        command.reached = command.reached or "R" in call.outputs
        letter = next((letter for letter in "DCE" if letter in call.outputs), "")
        if not letter or command.result:
            return
        command.result, command.error = RESULTS[letter], call.error
        command.end = command.end or self.positions(block.block.on)
        if command.ended is None:
            command.ended = self.cycles
        asked_at_once = command.ended >= self.cycles - 1
        if letter == "D" and asked_at_once and self.states.get(block.block.on) in AT_REST:
            command.short_of = {name: place for name in self.axes_of(block.block.on)
                                if (place := self.place(name)) is not None}

    def axes_of(self, on: str) -> list[str]:
        """The axes of an axis or a group."""
        return self.members.get(on, [on])

    def positions(self, on: str) -> dict[str, int]:
        """The setpoints of the axes of an axis or a group."""
        return {name: self.rows[name].setpoint if name in self.rows else self.axes[name].axis.start
                for name in self.axes_of(on)}

    def place(self, name: str) -> Optional[int]:
        """Where the drive of an axis was when it reported last."""
        return self.place_in(name, self.rows[name]) if name in self.rows else None

    def place_in(self, name: str, row: Row) -> Optional[int]:
        """The place that a row reports; version 1 has it in increments, without a Home's offset."""
        if row.place is not None:
            return row.place
        return None if name in self.homed else row.actual * self.axes[name].axis.inc

    # Cycles

    def add_cycle(self, cycle: Cycle) -> None:
        """Adds the rows of a cycle."""
        steps = self.motions.steps(cycle)
        before, self.cycles, self.entries = self.rows, cycle.number, self.entries + 1
        if self.watch:
            self.watch.next_cycle()
        self.rows = cycle.rows
        for name, row in cycle.rows.items():
            self.axes[name].add(cycle.number, row, steps[name], self.place_in(name, row))
            self.note(name, row.state, row.error, before)
            self.lead(name, steps[name])
        for name, group in cycle.groups.items():
            self.note(name, group.state, group.error, before)
        for on, commands in self.live.items():
            self.take_over(on, commands)
            self.settle(on, commands)

    def take_over(self, on: str, commands: list[Command]) -> None:
        """Ends the active command where the one that waits next takes over, and lets that begin; so
        with one command without an end after another."""
        live = [command for command in commands if command.is_live()]
        while len(live) > 1 and self.gives_way(on, live):
            first, second, *_ = live
            first.ended, first.end = self.cycles, self.positions(on)
            second.active_from, second.start = self.cycles, self.positions(on)
            del live[0]
            if not first.target:
                self.count_from(second.start, live)
            if first.block.kind not in ENDLESS:
                return

    def gives_way(self, on: str, live: list[Command]) -> bool:
        """Whether the first command has given way to the one that waits next: a move at rest at its
        target, or past it where the next one blends; a Halt at rest; one without an end where the
        axis has gone over to a move."""
        first, second, *_ = live
        if first.block.kind in ENDLESS:
            return (self.states.get(on) == "DiscreteMotion"
                    and any(command.block.kind in MOVES for command in live))
        rests = all(self.axes[name].last_step[0] == 0 for name in self.axes_of(on))
        if not first.target:
            return first.block.kind == "Halt" and rests
        ways = [(self.rows[name].setpoint - target, target >= first.start[name])
                for name, target in first.target.items()]
        if str(second.call.mode).startswith("blending"):
            return all(way >= 0 if goes_up else way <= 0 for way, goes_up in ways)
        return rests and all(way == 0 for way, _ in ways)

    def count_from(self, base: dict[str, int], commands: list[Command]) -> None:
        """Gives relative moves their targets that begin one after another, from a place on."""
        for command in commands:
            if command.block.kind not in RELATIVE:
                return
            base = command.target = moved(base, command.call.positions or ())

    def note(self, name: str, state: str, error: int, before: dict[str, Row]) -> None:
        """The state of an axis or a group, and an error that is new."""
        self.states[name] = state
        if error and error != self.errors.get(name):
            self.failures.append(Failure(self.cycles, error, None, None, name, self.rows, state,
                                         before))
        self.errors[name] = error

    def lead(self, name: str, step: Step) -> None:
        """What the commands that are active have made of an axis."""
        velocity, acceleration = abs(step[0] or 0), abs(step[1] or 0)
        for on, commands in self.live.items():
            if name not in self.axes_of(on):
                continue
            live = [command for command in commands if command.is_live()]
            active = [command for command in live if command.is_active] or live[:1]
            for command in active:
                command.velocity[name] = max(command.velocity.get(name, 0), velocity)
                command.acceleration[name] = max(command.acceleration.get(name, 0), acceleration)

    def settle(self, on: str, commands: list[Command]) -> None:
        """Ends the commands of an axis or a group that is at rest, also where no call asks."""
        if commands and self.states.get(on) in AT_REST and all(
                self.axes[name].last_step[0] in (0, None) for name in self.axes_of(on)):
            for command in commands:
                if command.is_live() and self.cycles > command.begun:
                    command.ended, command.end = self.cycles, self.positions(on)
            self.live[on] = []

    def fail(self, number: int, block: Block, call: Call, on: str) -> None:
        """An error that a call showed."""
        state = self.states.get(on, "GroupDisabled" if acts_on_group(block.kind) else "")
        self.failures.append(Failure(self.cycles, number, block, call, on, self.rows, state,
                                     base=self.base_of(block, call)))


def moved(base: dict[str, int], distances: Sequence[int]) -> dict[str, int]:
    """Positions a distance further on, by axis."""
    return {name: place + distance for (name, place), distance in zip(base.items(), distances)}


def inputs(call: Call) -> tuple[object, ...]:
    """The inputs of a call beside Execute."""
    return (call.positions, call.velocity, call.acceleration, call.deceleration, call.jerk,
            call.mode, call.follow)


def numbers(call: Call) -> list[int]:
    """The numbers of a call, those that are left out as 0."""
    return [*(call.positions or ()), call.velocity or 0, call.acceleration or 0,
            call.deceleration or 0]


def is_over(call: Call) -> bool:
    """Whether a call showed a result."""
    return any(letter in call.outputs for letter in "DCE")
