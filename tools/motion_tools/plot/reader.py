"""What trace_plot takes from a trace: the machine, and its cycles and calls thinned to columns.

A trace is read once, as a stream, by motion_tools.trace, and what is kept of it doesn't grow with
its length: each axis has a limited number of columns, each with the least and greatest values of
its cycles. All numbers are integers in an axis's internal units, per cycle. A text that is no trace
raises TraceError.

A table of setpoints, as the programs of the trajectory generator print it (c/otg_move.c), is taken as a
trace of one axis that has no limits, states and calls.
"""

import itertools
import re
from collections.abc import Iterable, Sequence
from dataclasses import dataclass, field
from typing import Any, Optional, Union

from motion_tools import trace as traces
from motion_tools.plot.levels import Levels, bits_of
from motion_tools.trace import Call, Cycle, Machine, Row, TraceError
from motion_tools.units import Motion, Motions

AXIS_STATES = ("Disabled", "Standstill", "Homing", "DiscreteMotion", "ContinuousMotion",
               "SynchronizedMotion", "Stopping", "ErrorStop")
GROUP_STATES = ("GroupDisabled", "GroupStandby", "GroupHoming", "GroupMoving", "GroupStopping",
                "GroupErrorStop")
RESULTS = (("E", "Error"), ("C", "CommandAborted"), ("D", "Done"))
MARKS = 256
BROKEN, LOOSE, MOVED = 1, 2, 4  # the setpoint begins anew; the axis isn't driven; a Home moved both
FOLLOWING, REPORTED_VELOCITY, JERK = 11, 13, 15     # where a column has the least of these
TABLE = "cycle,position,step,change,jerk"           # the first line of a table of setpoints
TABLE_ROW = re.compile(r"([1-9][0-9]{0,9}),(-?[0-9]{1,19})(?:,-?[0-9]{1,20}){3}")
Values = Sequence[Optional[int]]


@dataclass
class Lane:
    """The cycles of an axis or a group, thinned to at most `limit` columns of `width` cycles each.

    A column is a list: the least and greatest position, velocity, acceleration and reported place
    of its cycles, the states seen as bits, the greatest ErrorID, how the lines go on, as bits of
    BROKEN, LOOSE and MOVED, and the least and greatest following error, reported velocity and jerk.
    A value is None where there is none.
    """

    limit: int
    width: int = 1
    columns: list[list[Any]] = field(default_factory=list)

    def add(self, place: int, values: Values, state: int, error: int, breaks: int = 0,
            more: Values = (None, None, None)) -> None:
        """Adds the cycle at a place counted from 0, with its position, velocity, acceleration and
        reported place, and with the following error, the velocity that is reported and the jerk;
        the places come in order, none left out."""
        while place // self.width >= self.limit:
            self.width, self.columns = self.width * 2, paired(self.columns)
        new = [*(value for value in values for _ in range(2)), state, error, breaks,
               *(value for value in more for _ in range(2))]
        if place // self.width == len(self.columns):
            self.columns.append(new)
        else:
            join(self.columns[-1], new)


def join(column: list[Any], other: list[Any]) -> None:
    """Takes another column into one."""
    for least in (0, 2, 4, 6, FOLLOWING, REPORTED_VELOCITY, JERK):
        if other[least] is None:
            continue
        if column[least] is None or other[least] < column[least]:
            column[least] = other[least]
        if column[least + 1] is None or other[least + 1] > column[least + 1]:
            column[least + 1] = other[least + 1]
    column[8] |= other[8]
    if other[9] > column[9]:
        column[9] = other[9]
    column[10] |= other[10]


def paired(columns: list[list[Any]]) -> list[list[Any]]:
    """Half as many columns, each of two that stand beside each other."""
    for place in range(0, len(columns) - 1, 2):
        join(columns[place], columns[place + 1])
    return columns[::2]


@dataclass
class Marks:
    """Calls and results of the blocks of an axis or a group, at most MARKS: marks of one kind that
    lie near each other are counted as one. Each is kept as the cycles before it, its label, how
    many there were, and what is said of the first."""

    width: int = 1
    marks: dict[tuple[int, str, str], list[Any]] = field(default_factory=dict)

    def add(self, cycles: int, kind: str, label: str, told: str) -> None:
        """Adds a mark after that many cycles."""
        self.put(cycles, kind, [cycles, label, 1, told])
        while len(self.marks) > MARKS:
            kept, self.marks, self.width = self.marks, {}, self.width * 2
            for (_, known_kind, _), mark in kept.items():
                self.put(mark[0], known_kind, mark)

    def put(self, cycles: int, kind: str, mark: list[Any]) -> None:
        """Puts a mark into its place, or counts it there; at first each label has its own."""
        place = (cycles // self.width, kind, mark[1] if self.width == 1 else "")
        if place in self.marks:
            self.marks[place][2] += mark[2]
        else:
            self.marks[place] = mark

    def in_order(self) -> list[tuple[Any, ...]]:
        """The marks as (cycles, kind, label, count, told), in the order of the trace."""
        found = [(mark[0], kind, *mark[1:]) for (_, kind, _), mark in self.marks.items()]
        return sorted(found, key=lambda mark: mark[0])


@dataclass
class Axis:
    """An axis: its limits in internal units per cycle, and its cycles. `origin` is its setpoint
    before the first of them, or in it where no line leads to it."""

    name: str
    lo: int
    hi: int
    vmax: int
    amax: int
    dmax: int
    increment: int
    origin: int
    lane: Lane
    motion: Motion
    marks: Marks = field(default_factory=Marks)
    has_home: bool = False
    has_reported: bool = False
    is_table: bool = False                      # it has no limits, states and calls
    acceleration: int = 0                       # in the cycle before
    place: Optional[int] = None                 # that the drive reported in the row before
    words: Optional["Words"] = None             # the bits of its words, where they are asked for

    def step(self, row: Row) -> tuple[Optional[int], Optional[int], int]:
        """The velocity and acceleration of a row, and how its lines go on."""
        velocity, acceleration = self.motion.step(row)
        breaks = MOVED * self.motion.moved | LOOSE * (not row.driven) | BROKEN * (velocity is None)
        return velocity, acceleration, breaks

    def jerk(self, acceleration: Optional[int]) -> Optional[int]:
        """The change of acceleration in a row; None where there is no acceleration."""
        last, self.acceleration = self.acceleration, acceleration or 0
        return None if acceleration is None else acceleration - last

    def reported_place(self, row: Row) -> int:
        """The place that the drive reported, in internal units. Version 1 has it in increments,
        without the offset of a Home: there it is taken of axes without a Home alone."""
        if self.is_table or (row.place is None and self.has_home):
            return row.setpoint
        self.has_reported = True
        return row.actual * self.increment if row.place is None else row.place

    def drive(self, before: int, place: int, breaks: int) -> tuple[Optional[int], Optional[int]]:
        """The following error, the setpoint before less the place that the drive reports of it, and
        the velocity that it reports; None where the setpoint made no step, or nothing is
        reported."""
        last, self.place = self.place, place if self.has_reported else None
        if breaks or not self.has_reported:
            return None, None
        return before - place, None if last is None else place - last


@dataclass
class Words:
    """The bits of an axis's statusword and controlword over time."""

    status: Levels
    control: Levels

    def show(self, place: int, row: Row) -> None:
        """What a row has."""
        self.status.call(place, row.statusword)
        self.control.call(place, row.controlword)


@dataclass
class Group:
    """A group of axes, and its cycles."""

    name: str
    members: Sequence[str]
    lane: Lane
    marks: Marks = field(default_factory=Marks)


@dataclass
class Block:
    """An instance of a function block, what its last call showed, and its outputs over time."""

    name: str
    kind: str
    on: Union[Axis, Group]
    levels: Levels
    execute: bool = False
    outputs: str = ""


class Trace:
    """A trace, as far as a picture shows it; `first` is the cycle of the first column,
    `cycles` how many there are in the window, and `fault` where the text ceased to be a trace."""

    def __init__(self, machine: Machine, first: int, last: Optional[int], limit: int,
                 words: bool = False):
        self.first, self.last = first, last
        self.cycle = self.cycles = 0
        self.fault: Optional[TraceError] = None
        self.motions = Motions(machine)
        self.axes = {axis.name: axis_of(axis, limit, self.motions.axes[axis.name])
                     for axis in machine.axes}
        self.groups = {group.name: Group(group.name, group.axes, Lane(limit))
                       for group in machine.groups}
        owners: dict[str, Union[Axis, Group]] = {**self.axes, **self.groups}
        self.blocks = {block.name: Block(block.name, block.kind, owners[block.on], Levels(limit))
                       for block in machine.blocks}
        for block in self.blocks.values():
            if isinstance(block.on, Axis) and block.kind == "Home":
                block.on.has_home = True
        for axis in self.axes.values() if words else ():
            axis.words = Words(Levels(limit), Levels(limit))

    def shown(self) -> bool:
        """Whether the cycle that is read lies in the window."""
        return self.first <= self.cycle and (self.last is None or self.cycle <= self.last)

    def add_calls(self, calls: Iterable[Call]) -> None:
        """Adds calls: a mark where Execute rises or a result is new."""
        for call in calls:
            block = self.blocks[call.block]
            rises = call.execute and not block.execute
            before = "" if rises else block.outputs
            new = [name for letter, name in RESULTS
                   if letter in call.outputs and letter not in before]
            block.execute, block.outputs = call.execute, call.outputs
            self.add_levels(block)
            self.motions.call(call)
            if (rises or new) and (self.shown() or self.cycle == self.first - 1):
                self.mark(block, new[0] if new else "Call", call.error, rises)

    def add_levels(self, block: Block) -> None:
        """Adds what a call of a block showed to its levels, as far as it lies in the window."""
        value = bits_of(block.execute, block.outputs)
        block.levels.called |= self.last is None or self.cycle <= self.last
        if self.cycle < self.first - 1:
            block.levels.before = block.levels.value = value
        elif self.last is None or self.cycle < self.last:
            block.levels.call(self.cycle - self.first + 1, value)
        elif self.cycle == self.last:
            block.levels.until(self.cycles)
            block.levels.value = value

    def mark(self, block: Block, kind: str, error: int, rises: bool) -> None:
        """Marks a call of a block, or what came of it."""
        result = "" if kind == "Call" else f" {kind} {error}" if kind == "Error" else f" {kind}"
        called = "called" if rises else "goes on"
        told = f"{block.name} ({block.kind}) {called}{':' if result else ''}{result}"
        block.on.marks.add(self.cycle, kind, block.name + result, told)

    def add_cycle(self, cycle: Cycle) -> None:
        """Adds the calls before a cycle, and the cycle; cycles come in order, none left out."""
        self.add_calls(cycle.calls)
        if cycle.number != self.cycle + 1:
            raise TraceError(cycle.record, f"cycle {cycle.number} follows cycle {self.cycle}")
        self.cycle = cycle.number
        self.cycles += self.shown()
        for name, row in cycle.rows.items():
            self.add_row(self.axes[name], row)
        if self.shown():
            for name, row in cycle.groups.items():
                self.groups[name].lane.add(self.cycle - self.first, (0, 0, 0, 0),
                                           GROUP_BITS[row.state], row.error)

    def end(self, calls: Iterable[Call]) -> None:
        """Adds the calls after the last cycle."""
        if self.last is None or self.last > self.cycle:
            self.last = self.cycle
        self.add_calls(calls)
        for block in self.blocks.values():
            block.levels.until(self.cycles)

    def add_row(self, axis: Axis, row: Row) -> None:
        """Adds the row of an axis."""
        before = axis.motion.setpoint
        velocity, acceleration, breaks = axis.step(row)
        if self.cycle == self.first:
            axis.origin = row.setpoint if breaks else before
        place = axis.reported_place(row)
        more = (*axis.drive(before, place, breaks), axis.jerk(acceleration))
        if self.shown():
            values = (row.setpoint, velocity, acceleration, place)
            axis.lane.add(self.cycle - self.first, values, AXIS_BITS[row.state], row.error, breaks,
                          more)
            if axis.words:
                axis.words.show(self.cycle - self.first, row)


def axis_of(axis: traces.Axis, limit: int, motion: Motion) -> Axis:
    """An axis of a trace's machine, before its first cycle."""
    return Axis(axis.name, axis.lo, axis.hi, axis.vmax, axis.amax, axis.dmax, axis.inc, axis.start,
                Lane(limit), motion)


def read_trace(lines: Iterable[str], first: int = 1, last: Optional[int] = None, limit: int = 2048,
               words: bool = False) -> Trace:
    """The trace of a text's lines, or of a table of setpoints, with the cycles from `first` to
    `last` in at most `limit` columns, with the bits of words where they are asked for. After its
    machine it may be faulty: then it has what was read until there, and the fault."""
    lines = iter(lines)
    top = list(itertools.islice(lines, 1))
    if top and top[0].rstrip("\r\n") == TABLE:
        return read_table(lines, first, last, limit)
    source = traces.Trace(itertools.chain(top, lines))
    trace = Trace(source.machine, first, last, limit, words)
    try:
        for cycle in source.cycles():
            trace.add_cycle(cycle)
    except TraceError as fault:
        trace.fault = fault
    trace.end(source.last_calls)
    return trace


def read_table(lines: Iterable[str], first: int, last: Optional[int], limit: int) -> Trace:
    """The trace of a table's rows, whose axis rests at 0 before them."""
    axis = traces.Axis("setpoints", 0, 0, 0, 0, 0, 1, 0, True)
    trace = Trace(Machine(2, "bench", 0, 0, [axis], [], [], [], []), first, last, limit)
    trace.axes[axis.name].is_table = True
    try:
        for number, line in enumerate(lines, 2):
            found = TABLE_ROW.fullmatch(line.rstrip("\r\n"))
            if not found:
                raise TraceError(number, f"no row as {TABLE}")
            place = int(found[2])
            row = Row(axis.name, 0, place, 8, "DiscreteMotion", 0, True, place, 0, place, place)
            trace.add_cycle(Cycle(int(found[1]), [], [], {axis.name: row}, {}, number))
    except TraceError as fault:
        trace.fault = fault
    trace.end([])
    return trace


AXIS_BITS = {name: 1 << place for place, name in enumerate(AXIS_STATES)}
GROUP_BITS = {name: 1 << place for place, name in enumerate(GROUP_STATES)}
