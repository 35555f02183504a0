"""Reads a trace of `motion`, versions 1 to 3, as a stream in constant memory.

    trace = Trace(lines_of("run.trace"))
    trace.machine                       # the version, axes with their limits, groups, blocks
    for cycle in trace.cycles():        # one Cycle after another
        cycle.number, cycle.calls, cycle.rows["X"].setpoint, cycle.groups["G"].state
    trace.last_calls, trace.drives      # after the last cycle; there once cycles() has ended

All numbers are whole numbers in an axis's internal units, per cycle; counts of a drive are in its
increments. A text that is no trace ends the reading with a TraceError, which names the record.
What is read stands in docs/formats.md, "A trace". Ranges of numbers are not tested but for their
digits, nor whether the history is one that the machine would have made.
"""

import csv
import os
import re
import sys
import time
from collections.abc import Callable, Container, Iterable, Iterator, Sequence
from typing import Any, NamedTuple, Optional, TextIO, Union

LONGEST_LINE = 1 << 18      # characters; a cam table of 4,096 points has less
SECONDS_OF_SILENCE = 2.0    # between two lines of progress
MOST_CHECKED = 1 << 28      # bytes of a trace that `motion check` takes

AXIS_STATES = ("Disabled", "Standstill", "Homing", "Stopping", "DiscreteMotion",
               "ContinuousMotion", "SynchronizedMotion", "ErrorStop")
GROUP_STATES = ("GroupDisabled", "GroupStandby", "GroupMoving", "GroupStopping", "GroupErrorStop")
DRIVE_STATES = ("NotReady", "SwitchOnDisabled", "ReadyToSwitchOn", "SwitchedOn",
                "OperationEnabled", "QuickStopActive", "FaultReactionActive", "Fault")
BUFFER_MODES = ("aborting", "buffered", "blendingLow", "blendingPrevious", "blendingNext",
                "blendingHigh")
BLOCK_KINDS = ("Power", "Reset", "Home", "Stop", "Halt", "MoveAbsolute", "MoveRelative",
               "MoveVelocity", "GearIn", "GearOut", "CamIn", "CamOut", "GroupEnable",
               "GroupDisable", "GroupReset", "GroupStop", "GroupHalt", "MoveLinearAbsolute",
               "MoveCircularAbsolute")
LATER_KINDS = ("MoveAdditive",)     # those that version 3 has besides


class TraceError(Exception):
    """A text is no trace, from this record on (counted from 1; 0 of an empty text)."""

    def __init__(self, record: int, reason: str):
        super().__init__(f"record {record}: {reason}")
        self.record = record


class ReadFault(Exception):
    """A file couldn't be read."""


# What a trace has, with its fields in the order of the record.

class Axis(NamedTuple):
    name: str
    lo: int
    hi: int
    vmax: int
    amax: int
    dmax: int               # in version 1 as amax
    inc: int                # internal units in an increment of the drive
    start: int
    ready: bool
    jmax: int = 0           # the jerk limit; no axis has one
    modulo: bool = False    # no axis is


class Group(NamedTuple):
    name: str
    axes: tuple             # names


class Block(NamedTuple):
    name: str
    task: str
    kind: str
    on: str                 # an axis or a group


class Call(NamedTuple):
    """A call of a block; an input that the block's kind doesn't take is None."""
    block: str
    execute: bool
    positions: Optional[tuple]
    velocity: Optional[int]
    acceleration: Optional[int]
    deceleration: Optional[int]
    jerk: Optional[int]
    mode: Optional[str]     # without the direction that an absolute move has in version 3
    follow: Optional[str]   # MASTER:NUM:DEN or MASTER:TABLE
    outputs: str            # the letters of B A D C E R that are true
    error: int


class Row(NamedTuple):
    """What an axis and its drive give each other in a cycle."""
    axis: str
    statusword: int
    actual: int             # increments
    mode: int
    state: str
    error: int
    driven: bool
    setpoint: int
    controlword: int
    target: int             # increments
    place: Optional[int]    # that the drive reported, in internal units; None in version 1


class GroupRow(NamedTuple):
    group: str
    state: str
    error: int


class Drive(NamedTuple):
    axis: str
    taken: int              # setpoints that the drive took
    state: str
    actual: int             # increments


class Machine(NamedTuple):
    version: int            # of the trace: 1 to 3
    maker: str              # bench or run
    cycles: int             # the most cycles
    entries: int            # the most entries of the history
    axes: list
    groups: list
    tables: list            # of lists of points (x, y)
    tasks: list             # of names
    blocks: list


class Cycle(NamedTuple):
    number: int
    calls: list             # since the cycle before
    ends: list              # tasks that ended since the cycle before
    rows: dict              # by the name of the axis
    groups: dict            # rows of groups, by the name of the group
    record: int             # where it begins


# The columns: how a value is spelled, what it is in words, and how it is read.

class Column(NamedTuple):
    pattern: str
    words: str
    value: Callable


Columns = Sequence[tuple[str, Column]]      # the columns of a record, by name


def one_of(*values: str) -> Column:
    """The column of these words."""
    return Column("|".join(values), "one of " + ", ".join(values), sys.intern)


def optional(column: Column) -> Column:
    """The column whose values may be left out, which gives None."""
    return Column("|" + column.pattern, column.words + ", or nothing",
                  lambda text: column.value(text) if text else None)


def joined(column: Column) -> Column:
    """The column of one value or more, joined by semicolons, which gives a tuple."""
    item = f"(?:{column.pattern})"
    return Column(f"{item}(?:;{item})*", f"{column.words}, one or more joined by ;",
                  lambda text: tuple(map(column.value, text.split(";"))))


DIGITS = "0|-?[1-9][0-9]{0,18}"
NAME = Column("[A-Za-z][A-Za-z0-9_]{0,15}", "a name", sys.intern)
NUMBER = Column(DIGITS, "a whole number", int)
COUNT = Column("0|[1-9][0-9]{0,9}", "a whole number from 0", int)
WORD = Column("[0-9a-f]{4}", "four hexadecimal digits", lambda text: int(text, 16))
TRUTH = Column("[01]", "0 or 1", "1".__eq__)
POINT = Column(f"(?:{DIGITS}):(?:{DIGITS})", "X:Y",
               lambda text: tuple(map(int, text.split(":"))))
FOLLOWED = Column(f"{NAME.pattern}:(?:{DIGITS})(?::(?:{DIGITS}))?", "MASTER:NUM:DEN or "
                  "MASTER:TABLE", str)
NONE = Column("0", "0", int)
FALSE = Column("0", "0", "1".__eq__)
DIRECTED = Column(f"(?:{'|'.join(BUFFER_MODES)})(?::shortest)?", "MODE or MODE:shortest",
                  lambda text: sys.intern(text.partition(":")[0]))
OUTPUTS = Column("B?A?D?C?E?R?", "letters of B A D C E R in this order", sys.intern)

AXIS = [("name", NAME)] + [(name, NUMBER) for name in ("lo", "hi", "vmax", "amax")]
AXIS_END = [("inc", NUMBER), ("start", NUMBER), ("ready", TRUTH)]
ROW = [("axis", NAME), ("statusword", WORD), ("actual position", NUMBER), ("mode", NUMBER),
       ("state", one_of(*AXIS_STATES)), ("ErrorID", COUNT), ("driven", TRUTH),
       ("setpoint", NUMBER), ("controlword", WORD), ("target", NUMBER)]
FORMS = {
    "trace": [("version", one_of("1", "2", "3")), ("maker", one_of("bench", "run")),
              ("cycles", COUNT), ("entries", COUNT)],
    "group": [("name", NAME), ("axes", joined(NAME))],
    "table": [("points", joined(POINT))],
    "task": [("name", NAME)],
    "cycle": [("number", COUNT)],
    "grow": [("group", NAME), ("state", one_of(*GROUP_STATES)), ("ErrorID", COUNT)],
    "end": [("task", NAME)],
    "drive": [("axis", NAME), ("setpoints taken", COUNT), ("state", one_of(*DRIVE_STATES)),
              ("actual position", NUMBER)],
}


def block_of(*kinds: str) -> Columns:
    """The columns of a block in a version that has these kinds."""
    return [("name", NAME), ("task", NAME), ("kind", one_of(*kinds)), ("axis or group", NAME)]


def call_of(mode: Column) -> Columns:
    """The columns of a call in a version that spells the buffer mode so."""
    return [("block", NAME), ("Execute", TRUTH), ("positions", optional(joined(NUMBER))),
            ("velocity", optional(NUMBER)), ("acceleration", optional(NUMBER)),
            ("deceleration", optional(NUMBER)), ("jerk", optional(NUMBER)),
            ("mode", optional(mode)), ("follow", optional(FOLLOWED)),
            ("outputs", OUTPUTS), ("ErrorID", COUNT)]


BRAKING = AXIS + [("dmax", NUMBER)] + AXIS_END
PLACED = ROW + [("place", NUMBER)]
OF_BOTH = {"block": block_of(*BLOCK_KINDS), "call": call_of(one_of(*BUFFER_MODES))}
FORMS_OF_VERSION = {
    1: {"axis": AXIS + AXIS_END, "row": ROW, **OF_BOTH},
    2: {"axis": BRAKING, "row": PLACED, **OF_BOTH},
    3: {"axis": BRAKING + [("jmax", NONE), ("modulo", FALSE)], "row": PLACED,
        "block": block_of(*BLOCK_KINDS, *LATER_KINDS), "call": call_of(DIRECTED)},
}
HEADER = "kind,a,b,c,d,e,f,g,h,i,j,k".split(",")
ITEMS = ("axis", "group", "table", "task", "block")


def shown(text: str) -> str:
    """A field in quotes, of which at most 40 characters are shown."""
    return ascii(text if len(text) <= 40 else text[:40] + "..")


class Form:
    """The form of the records of one kind: reads their values, or says which field has none."""

    def __init__(self, kind: str, columns: Columns):
        self.kind, self.columns = kind, columns
        self.values = [column.value for _, column in columns]
        self.pattern = re.compile(
            ",".join([kind] + [f"({column.pattern})" for _, column in columns])
            + "," * (11 - len(columns)))

    def read(self, number: int, record: list[str]) -> list[Any]:
        """The values of a record of twelve fields."""
        match = self.pattern.fullmatch(",".join(record))
        if match is None:
            raise TraceError(number, f"{self.kind}: {self.fault(record)}")
        return [value(text) for value, text in zip(self.values, match.groups())]

    def fault(self, record: list[str]) -> str:
        """What is wrong with a record that isn't of this form."""
        for (name, column), text in zip(self.columns, record[1:]):
            if not re.fullmatch(column.pattern, text):
                return f"the {name} is {shown(text)}, and not {column.words}"
        return "a field that isn't used is filled"


class Trace:
    """A trace that is read from lines of text: the machine at once, the cycles one by one."""

    def __init__(self, lines: Iterable[str]):
        csv.field_size_limit(LONGEST_LINE)
        self._records = filter(None, csv.reader(lines))     # blank lines are no records
        self._number = 0                                    # of the record that stands next
        self._taken = 0                                     # of the one that was taken last
        self._forms = {kind: Form(kind, columns) for kind, columns in FORMS.items()}
        self._record: list[str] = []                        # empty after the last one
        self.last_calls: list[Call] = []
        self.last_ends: list[str] = []
        self.drives: list[Drive] = []
        self._advance(is_first=True)
        if self._kind() != "kind" or self._record != HEADER:
            raise self._misplaced(f"the header {','.join(HEADER)}")
        self._advance()
        self.machine = self._read_machine()

    # Records

    def _advance(self, is_first: bool = False) -> None:
        """Goes to the next record."""
        try:
            self._record = next(self._records, [])
        except csv.Error as error:
            raise TraceError(self._number + 1, str(error)) from None
        if not self._record:
            return
        self._number += 1
        if is_first and self._record[0].lstrip().startswith("motion-bench"):
            raise TraceError(1, "this is a bench: its trace is what ./motion bench gives for it")
        if len(self._record) != 12:
            raise TraceError(self._number, f"it has {len(self._record)} fields, and not twelve")

    def _kind(self) -> str:
        """The kind of the record that stands next."""
        if not self._record:
            reason = "the text ends too early, after this record"
            raise TraceError(self._number, reason if self._number else "the text is empty")
        return self._record[0]

    def _misplaced(self, wanted: str) -> TraceError:
        """The refusal of the record that stands next, where another was wanted."""
        return TraceError(self._number,
                          f"{shown(self._record[0])} stands in the position of {wanted}")

    def _take(self, kind: str) -> list[Any]:
        """The values of the record that stands next, which has to be of this kind."""
        if self._kind() != kind:
            raise self._misplaced(f"a record {kind}")
        values = self._forms[kind].read(self._number, self._record)
        self._taken = self._number
        self._advance()
        return values

    def _take_of(self, kind: str, name: str) -> list[Any]:
        """The same of a record that has to belong to this axis or group."""
        values = self._take(kind)
        if values[0] != name:
            raise self._refused(f"{kind}: it is of {values[0]}, and not of {name}")
        return values

    def _refused(self, reason: str) -> TraceError:
        """The refusal of the record that was taken last."""
        return TraceError(self._taken, reason)

    # The machine

    def _read_machine(self) -> Machine:
        """The items, in their order; there are an axis, a task and a block at least."""
        version, maker, most_cycles, entries = self._take("trace")
        for kind, columns in FORMS_OF_VERSION[int(version)].items():
            self._forms[kind] = Form(kind, columns)
        machine = Machine(int(version), maker, most_cycles, entries, [], [], [], [], [])
        for kind, items in zip(ITEMS, machine[4:]):
            while self._kind() == kind:
                items.append(self._take_item(kind, machine))
        for kind, items in zip(ITEMS, machine[4:]):
            if kind in ("axis", "task", "block") and not items:
                raise self._misplaced(f"a record {kind}, of which the machine has none")
        return machine

    def _take_item(self, kind: str, machine: Machine) -> Any:
        """The next item of the machine, whose name is new and which names what is there."""
        item = item_of(kind, self._take(kind), machine.version)
        if kind != "table":
            name = item if kind == "task" else item.name
            if name in names_of(machine):
                raise self._refused(f"{kind}: the name {name} is used already")
        for name, known in names_told(kind, item, machine):
            if name not in known:
                raise self._refused(f"{kind}: it names {name}, which isn't there for it")
        return item

    # Entries

    def cycles(self) -> Iterator[Cycle]:
        """Gives each cycle as a Cycle; after the last one the drives' records are read."""
        blocks = {block.name for block in self.machine.blocks}
        calls: list[Call] = []
        ends: list[str] = []
        while True:
            kind = self._kind()
            if kind == "cycle":
                yield self._read_cycle(calls, ends)
                calls, ends = [], []
            elif kind == "call":
                calls.append(Call(*self._take_known("call", blocks)))
            elif kind == "end":
                ends += self._take_known("end", self.machine.tasks)
            elif kind == "drive":
                break
            else:
                raise self._misplaced("a record call, cycle, end or drive")
        self.last_calls, self.last_ends = calls, ends
        self._read_drives()

    def _take_known(self, kind: str, names: Container[str]) -> list[Any]:
        """The values of a record whose block or task is one of these."""
        values = self._take(kind)
        if values[0] not in names:
            raise self._refused(f"{kind}: there is no {values[0]}")
        return values

    def _read_cycle(self, calls: list[Call], ends: list[str]) -> Cycle:
        """A cycle, with a row for each axis and each group, in their order."""
        number, = self._take("cycle")
        record = self._taken
        rows = {axis.name: self._take_row(axis.name) for axis in self.machine.axes}
        groups = {group.name: GroupRow(*self._take_of("grow", group.name))
                  for group in self.machine.groups}
        return Cycle(number, calls, ends, rows, groups, record)

    def _take_row(self, axis: str) -> Row:
        values = self._take_of("row", axis)
        if self.machine.version == 1:
            values.append(None)
        return Row(*values)

    def _read_drives(self) -> None:
        for axis in self.machine.axes:
            self.drives.append(Drive(*self._take_of("drive", axis.name)))
        if self._record:
            raise self._misplaced("the end, after the drives")


def item_of(kind: str, values: list[Any], version: int) -> Any:
    """The item of the machine that a record's values are."""
    if kind == "axis":
        dmax = [values[4]] if version == 1 else []
        return Axis(*values[:5], *dmax, *values[5:])
    if kind == "group":
        return Group(*values)
    if kind == "block":
        return Block(*values)
    return list(values[0]) if kind == "table" else values[0]


def names_of(machine: Machine) -> set[str]:
    """The names that are used so far."""
    return ({item.name for items in (machine.axes, machine.groups, machine.blocks)
             for item in items} | set(machine.tasks))


def names_told(kind: str, item: Any, machine: Machine) -> list[tuple[str, list[str]]]:
    """What an item names, each with the names that are there for it."""
    axes = [axis.name for axis in machine.axes]
    if kind == "group":
        return [(name, axes) for name in item.axes]
    if kind == "block":
        groups = [group.name for group in machine.groups]
        acts_on_group = item.kind.startswith("Group") or item.kind.endswith("arAbsolute")
        return [(item.task, machine.tasks), (item.on, groups if acts_on_group else axes)]
    return []


def lines_of(name: str, progress: Optional[TextIO] = sys.stderr) -> Iterator[str]:
    """The lines of a file, or of the standard input where the name is `-`. Where reading takes
    longer than two seconds, what was read so far is written to `progress` every two seconds; of a
    file that is longer than `motion check` takes that is written at once. Raises ReadFault where
    the file can't be read, TraceError where a line is too long for any record."""
    try:
        source: Union[int, str] = 0 if name == "-" else name
        with open(source, encoding="utf-8-sig", errors="surrogateescape", newline="") as file:
            yield from bounded_lines(file, name, progress)
    except OSError as error:
        raise ReadFault(f"cannot read {name}: {error.strerror}") from None


def bounded_lines(file: TextIO, name: str, progress: Optional[TextIO]) -> Iterator[str]:
    """The lines of an open file, with its progress."""
    total = os.fstat(file.fileno()).st_size
    if total > MOST_CHECKED and progress:
        print(f"{name}: more than 256 MiB, which motion check refuses as too long", file=progress)
    told, read, count = time.monotonic(), 0, 0
    while line := file.readline(LONGEST_LINE):
        count += 1
        read += len(line)
        if len(line) == LONGEST_LINE:
            raise TraceError(count, "the line is too long")
        if progress and count % 4096 == 0 and time.monotonic() - told > SECONDS_OF_SILENCE:
            told = time.monotonic()
            of_total = f" of {total / 1e6:.0f}" if total else ""
            print(f"{name}: {read / 1e6:.0f}{of_total} MB read", file=progress, flush=True)
        yield line
