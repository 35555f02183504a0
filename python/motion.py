"""The motion kernel in Python: machines, blocks, cycles and traces, for test benches and digital twins.

    import motion

    with motion.Machine.from_bench(text) as machine:
        drives = [motion.Drive(0)]
        for _ in range(200):
            power = machine.call("P", True)
            move = machine.call("M", power.reached, position=20, velocity=6, acceleration=2,
                                deceleration=2)
            machine.step(drives)
        print(machine.look("X").setpoint, move.done)
        open("run.trace", "w").write(machine.trace(drives))

It calls the library for C programs (c/motion.h) through ctypes; `tools/python_library` builds the
shared library, and the environment's MOTION_LIBRARY may name another file. docs/c.md has the blocks,
the units and the codes. It wants Python 3.11. Python gives no promise of time: no loop for a real
machine.

Numbers are exact. Of a machine of a bench they are whole internal units and units a cycle. Of a
machine of a configuration they are its units, per second and per second squared, as int, Decimal,
Fraction or a string such as "12.5"; positions have up to nine decimals, rates are rounded toward zero
to whole internal units a cycle, as `motion run` rounds them. A float is rejected: `near` makes an
exact number of one.
"""

import ctypes
import os
from collections.abc import Iterable, Iterator, Mapping, Sequence
from decimal import Decimal
from fractions import Fraction
from pathlib import Path
from typing import Any, NamedTuple, Optional, Union

Quantity = Union[int, str, Decimal, Fraction]

CODES = ("OK", "CLOSED", "OPEN", "NO_MEMORY", "REFUSED", "UNKNOWN", "LENGTH", "RANGE", "FULL", "OVER",
         "NO_CYCLE", "NULL", "OTHER", "LATER", "OTHER_VERSION")
VERSION = (0, 9, 0)     # of this module, and of the library that it takes
MODES = ("aborting", "buffered", "blendingLow", "blendingPrevious", "blendingNext", "blendingHigh")
AXIS_STATES = ("Disabled", "Standstill", "Homing", "Stopping", "DiscreteMotion", "ContinuousMotion",
               "SynchronizedMotion", "ErrorStop")
LATER_KINDS = ("MoveAdditive",)     # kinds that a program has from version 3 on
GROUP_STATES = ("GroupDisabled", "GroupStandby", "GroupMoving", "GroupHoming", "GroupStopping",
                "GroupErrorStop")
UNIT = 10**9            # internal units of one unit of a configuration
SECOND = 10**6          # microseconds
NO_NUMBER = 2**32 - 1


class MotionError(Exception):
    """The library answered a code: `code` is its number, and `name` its name in c/motion.h."""

    def __init__(self, what: str, code: int, why: str = ""):
        self.code, self.name = code, CODES[code]
        super().__init__(f"{what}: MOTION_{self.name}{why}")


class _Motion(ctypes.Structure):
    _fields_ = [("state", ctypes.c_uint32), ("at", ctypes.c_void_p)]


class _Refusal(ctypes.Structure):
    _fields_ = [("line", ctypes.c_uint64), ("letter", ctypes.c_uint8), ("number", ctypes.c_uint8)]


class _Inputs(ctypes.Structure):
    _fields_ = [("positions", ctypes.c_int64 * 6), ("velocity", ctypes.c_int64),
                ("acceleration", ctypes.c_int64), ("deceleration", ctypes.c_int64),
                ("jerk", ctypes.c_int64), ("numerator", ctypes.c_int64),
                ("denominator", ctypes.c_int64), ("mode", ctypes.c_uint32),
                ("table", ctypes.c_uint16), ("master", ctypes.c_uint8),
                ("execute", ctypes.c_uint8)]


class _Outputs(ctypes.Structure):
    _fields_ = [("error_id", ctypes.c_uint16), ("busy", ctypes.c_uint8), ("active", ctypes.c_uint8),
                ("done", ctypes.c_uint8), ("aborted", ctypes.c_uint8), ("error", ctypes.c_uint8),
                ("reached", ctypes.c_uint8)]


class _DriveIn(ctypes.Structure):
    _fields_ = [("actual", ctypes.c_int32), ("statusword", ctypes.c_uint16),
                ("mode_display", ctypes.c_int8)]


class _DriveOut(ctypes.Structure):
    _fields_ = [("target", ctypes.c_int32), ("controlword", ctypes.c_uint16),
                ("mode", ctypes.c_int8)]


class _AxisRow(ctypes.Structure):
    _fields_ = [("setpoint", ctypes.c_int64), ("offset", ctypes.c_int64), ("state", ctypes.c_uint32),
                ("error", ctypes.c_uint16), ("driven", ctypes.c_uint8)]


class _Limits(ctypes.Structure):
    _fields_ = [(name, ctypes.c_int64) for name in
                ("lo", "hi", "velocity", "acceleration", "deceleration", "increment")]


class _GroupRow(ctypes.Structure):
    _fields_ = [("state", ctypes.c_uint32), ("error", ctypes.c_uint16)]


class Outputs(NamedTuple):
    """The outputs of a block."""
    busy: bool
    active: bool
    done: bool
    aborted: bool
    error: bool
    reached: bool       # InVelocity, InGear, InSync, or the Status of a Power
    error_id: int       # docs/errors.md; 0 where `error` is false


class AxisRow(NamedTuple):
    """What the last cycle shows of an axis; positions in internal units."""
    setpoint: int
    offset: int
    state: str
    error: int
    driven: bool


class Limits(NamedTuple):
    """The limits of an axis and the increment of its drive, in internal units and units a cycle."""
    lo: int
    hi: int
    velocity: int
    acceleration: int
    deceleration: int
    increment: int


class GroupRow(NamedTuple):
    """What the last cycle shows of a group."""
    state: str
    error: int


class Answer(NamedTuple):
    """What a drive answers in a cycle (CiA 402); the position in its increments."""
    actual: int
    statusword: int
    mode: int


class Given(NamedTuple):
    """What a drive is given in a cycle; the target in its increments."""
    target: int
    controlword: int
    mode: int


def library_file() -> Path:
    """The file of the shared library, whether it is there or not."""
    built = Path(__file__).resolve().parent.parent / "crates" / "motion_c" / "out" / "libmotion.so"
    return Path(os.environ.get("MOTION_LIBRARY", built))


def load(file: Optional[Path] = None) -> ctypes.CDLL:
    """The library with the types of its calls. Raises OSError where the file isn't a library, and
    MotionError, OTHER_VERSION where it is of another version than this module."""
    library = ctypes.CDLL(str(file or library_file()))
    version = library.motion_version() if hasattr(library, "motion_version") else 0
    if version != VERSION[0] * 1000000 + VERSION[1] * 1000 + VERSION[2]:
        raise MotionError("load", CODES.index("OTHER_VERSION"), f", its number {version}")
    handle, text, size = ctypes.POINTER(_Motion), ctypes.c_char_p, ctypes.c_size_t
    code, small = ctypes.c_uint32, ctypes.c_uint8
    why = ctypes.POINTER(_Refusal)
    answers, given = ctypes.POINTER(_DriveIn), ctypes.POINTER(_DriveOut)
    for name, answer, words in (
            ("motion_open", code, (handle, text, size, why)),
            ("motion_open_config", code, (handle, text, size, text, size, why)),
            ("motion_close", code, (handle,)),
            ("motion_axis", code, (handle, text, size)),
            ("motion_group", code, (handle, text, size)),
            ("motion_task", code, (handle, text, size)),
            ("motion_block", code, (handle, text, size)),
            ("motion_axes", code, (handle,)),
            ("motion_cycles_left", code, (handle,)),
            ("motion_room_left", ctypes.c_uint64, (handle,)),
            ("motion_call", code, (handle, ctypes.c_uint16, ctypes.POINTER(_Inputs),
                                   ctypes.POINTER(_Outputs))),
            ("motion_cycle", code, (handle, answers, size, given, size)),
            ("motion_end", code, (handle, small)),
            ("motion_axis_look", code, (handle, small, ctypes.POINTER(_AxisRow))),
            ("motion_group_look", code, (handle, small, ctypes.POINTER(_GroupRow))),
            ("motion_swap", code, (handle, handle)),
            ("motion_forget", code, (handle,)),
            ("motion_cycle_us", code, (handle,)),
            ("motion_axis_limits", code, (handle, small, ctypes.POINTER(_Limits))),
            ("motion_trace", code, (handle, answers, size)),
            ("motion_segment_text", code, (handle, answers, size)),
            ("motion_trace_text", ctypes.c_uint64, (handle, ctypes.c_uint64, text, size))):
        call = getattr(library, name)
        call.restype, call.argtypes = answer, words
    return library


def near(number: float) -> Decimal:
    """The number with nine decimals that is nearest to a float: exact from here on."""
    return Decimal(number).quantize(Decimal("1e-9"))


def _exact(number: Quantity) -> Fraction:
    if isinstance(number, float):
        raise TypeError(f"{number!r} is a float: give it as a string or a Decimal, or by near()")
    return Fraction(number)


class Units(NamedTuple):
    """How numbers of a machine become the kernel's: internal units of a unit, and the cycle."""
    unit: int = 1
    cycle_us: int = SECOND

    def position(self, number: Quantity) -> int:
        """Internal units. Raises ValueError where the number is finer than these."""
        value = _exact(number) * self.unit
        if value.denominator != 1:
            raise ValueError(f"{number} is finer than an internal unit")
        return int(value)

    def velocity(self, number: Quantity) -> int:
        """Internal units a cycle, rounded toward zero."""
        return int(_exact(number) * self.unit * self.cycle_us / SECOND)

    def acceleration(self, number: Quantity) -> int:
        """Internal units a cycle squared, rounded toward zero."""
        return int(_exact(number) * self.unit * self.cycle_us**2 / SECOND**2)


class Drive:
    """A CiA 402 drive as `motion bench` simulates one: it follows its controlword, and each target is
    its position in the next answer, or `lag` answers later. It knows no quick stop."""

    WORDS = {"disabled": 0x40, "ready": 0x31, "on": 0x33, "enabled": 0x37, "reaction": 0x1f,
             "fault": 0x08}

    def __init__(self, start: int, lag: int = 0, enabled: bool = False):
        self.state = "enabled" if enabled else "disabled"
        self.actual, self.mode, self.lag = start, 8 if enabled else 0, lag
        self._last = 0x0f if enabled else 0x00
        self._targets: list[int] = []
        self._is_failing = False

    def answer(self) -> Answer:
        """What it answers now."""
        return Answer(self.actual, self.WORDS[self.state], self.mode)

    def fault(self) -> None:
        """Its next step has a fault: it stands, and a Reset clears the fault."""
        self._is_failing = True

    def step(self, given: Given) -> None:
        """A cycle with what it is given."""
        before, self.state = self.state, self._next(given.controlword)
        if before == self.state == "enabled" and given.mode == 8:
            self._targets.append(given.target)
            if len(self._targets) > self.lag:
                self.actual = self._targets.pop(0)
        else:
            self._targets.clear()
        self._last, self.mode, self._is_failing = given.controlword, given.mode, False

    def _next(self, word: int) -> str:
        """The state after a step with a controlword."""
        if self.state in ("reaction", "fault"):
            is_reset = self.state == "fault" and word & 0x80 and not self._last & 0x80
            return "disabled" if is_reset else "fault"
        if self._is_failing:
            return "reaction"
        if not word & 0x02:
            return "disabled"
        if word & 0x07 == 0x06:
            return "ready"
        steps = {("ready", 0x07): "on", ("ready", 0x0f): "on", ("on", 0x0f): "enabled",
                 ("enabled", 0x07): "on"}
        return steps.get((self.state, word & 0x0f), self.state)


def program_of(tasks: Mapping[str, Iterable[tuple[str, str, str]]]) -> str:
    """The program of tasks with their blocks: of version 1, and of version 3 where a block has a kind
    that version 1 doesn't have."""
    version, lines = 1, list[str]()
    for task, blocks in tasks.items():
        lines.append(f"task {task}")
        for name, kind, on in blocks:
            lines.append(f"block {name} {kind} {on}")
            version = 3 if kind in LATER_KINDS else version
    return "\n".join([f"motion-program {version}", *lines])


class Machine:
    """An open machine. Close it, or use it in a `with`."""

    def __init__(self, library: ctypes.CDLL, units: Units, texts: Sequence[bytes]):
        self._library, self._texts = library, texts
        self._handle, self._spare = _Motion(0, None), _Motion(0, None)
        self._outputs = _Outputs()
        self._numbers: dict[str, int] = {}
        self._open(self._handle)
        self._axes = library.motion_axes(self._handle)
        self.units = Units(units.unit, library.motion_cycle_us(self._handle) or SECOND)
        self._answers = (_DriveIn * self._axes)()
        self._given = (_DriveOut * self._axes)()

    @classmethod
    def from_bench(cls, text: str, library: Optional[ctypes.CDLL] = None) -> "Machine":
        """A machine by a bench, of which the lines before `go` are taken. Raises MotionError."""
        lines = []
        for line in text.splitlines():
            if line.split("#")[0].split() == ["go"]:
                break
            lines.append(line)
        return cls(library or load(), Units(), ["\n".join(lines).encode()])

    @classmethod
    def from_config(cls, config: str, tasks: Mapping[str, Iterable[tuple[str, str, str]]],
                    library: Optional[ctypes.CDLL] = None) -> "Machine":
        """A machine by a configuration, and for each task its blocks, as (name, kind, axis or group).
        A MoveAdditive wants a configuration of version 3. Raises MotionError."""
        return cls(library or load(), Units(UNIT), [config.encode(), program_of(tasks).encode()])

    def _open(self, handle: _Motion) -> None:
        why = _Refusal()
        call = self._library.motion_open if len(self._texts) == 1 else self._library.motion_open_config
        words = [word for text in self._texts for word in (text, len(text))]
        code = call(handle, *words, ctypes.byref(why))
        if code:
            raise MotionError("open", code, f", line or item {why.line}, rule "
                              f"{chr(why.letter)}{why.number}" if CODES[code] == "REFUSED" else "")

    def close(self) -> None:
        """Gives the machine's memory back; a closed machine may be closed again."""
        for handle in (self._handle, self._spare):
            self._library.motion_close(handle)

    def __enter__(self) -> "Machine":
        return self

    def __exit__(self, *_: object) -> None:
        self.close()

    def _number(self, what: str, name: str) -> int:
        key = f"{what} {name}"
        if key not in self._numbers:
            text = name.encode()
            number = getattr(self._library, f"motion_{what}")(self._handle, text, len(text))
            if number == NO_NUMBER:
                raise KeyError(f"the machine has no {key}")
            self._numbers[key] = number
        return self._numbers[key]

    def _check(self, what: str, code: int) -> None:
        if code:
            raise MotionError(what, code)

    def inputs(self, *, execute: bool, position: Union[Quantity, Sequence[Quantity]] = (),
               velocity: Quantity = 0, acceleration: Quantity = 0, deceleration: Quantity = 0,
               jerk: int = 0, mode: str = "aborting", master: Optional[str] = None,
               numerator: int = 1, denominator: int = 1, table: int = 0) -> _Inputs:
        """The inputs of a call, in the kernel's units; made once, they serve for many calls."""
        units = self.units
        if isinstance(position, str) or not isinstance(position, Sequence):
            position = (position,)
        return _Inputs((ctypes.c_int64 * 6)(*map(units.position, position)), units.velocity(velocity),
                       units.acceleration(acceleration), units.acceleration(deceleration), jerk,
                       numerator, denominator, MODES.index(mode), table,
                       0 if master is None else self._number("axis", master), bool(execute))

    def call(self, block: str, execute: bool = True, /, **inputs: Any) -> Outputs:
        """Calls a block by its name, with the inputs of `inputs`. Raises MotionError, KeyError."""
        return self.call_with(block, self.inputs(execute=execute, **inputs))

    def call_with(self, block: str, inputs: _Inputs) -> Outputs:
        """The same with inputs that were made before."""
        out = self._outputs
        self._check(block, self._library.motion_call(self._handle, self._number("block", block),
                                                     inputs, out))
        return Outputs(bool(out.busy), bool(out.active), bool(out.done), bool(out.aborted),
                       bool(out.error), bool(out.reached), out.error_id)

    def _take(self, answers: Iterable[Answer]) -> None:
        for to, answer in zip(self._answers, answers, strict=True):
            to.actual, to.statusword, to.mode_display = answer

    def cycle(self, answers: Iterable[Answer]) -> list[Given]:
        """Makes a cycle: what each drive answers, and what each is given, in the order of the axes.
        Raises MotionError, OVER and FULL where the history has no room: see `segment`."""
        self._take(answers)
        self._check("cycle", self._library.motion_cycle(self._handle, self._answers, self._axes,
                                                        self._given, self._axes))
        return [Given(given.target, given.controlword, given.mode) for given in self._given]

    def step(self, drives: Sequence[Drive]) -> None:
        """A cycle with simulated drives."""
        for drive, given in zip(drives, self.cycle(drive.answer() for drive in drives)):
            drive.step(given)

    def end(self, task: str) -> None:
        """Ends a task."""
        self._check("end", self._library.motion_end(self._handle, self._number("task", task)))

    def look(self, axis: str) -> AxisRow:
        """What the last cycle shows of an axis."""
        row = _AxisRow()
        self._check(axis, self._library.motion_axis_look(self._handle, self._number("axis", axis), row))
        return AxisRow(row.setpoint, row.offset, AXIS_STATES[row.state], row.error, bool(row.driven))

    def limits(self, axis: str) -> Limits:
        """The limits of an axis and the increment of its drive, as the machine's text has them."""
        limits = _Limits()
        self._check(axis, self._library.motion_axis_limits(self._handle, self._number("axis", axis),
                                                           limits))
        return Limits(*(getattr(limits, name) for name in Limits._fields))

    def look_at_group(self, group: str) -> GroupRow:
        """What the last cycle shows of a group."""
        row = _GroupRow()
        self._check(group, self._library.motion_group_look(self._handle, self._number("group", group),
                                                           row))
        return GroupRow(GROUP_STATES[row.state], row.error)

    def cycles_left(self) -> int:
        """How many cycles more the history takes, before a `segment` or `forget`."""
        return int(self._library.motion_cycles_left(self._handle))

    def room_left(self) -> int:
        """How many entries more it takes: calls, cycles and ends."""
        return int(self._library.motion_room_left(self._handle))

    def trace(self, drives: Sequence[Drive]) -> str:
        """The trace from opening on, which `motion check` takes. The drives have made their last
        step. Raises MotionError, LATER where a segment was given out or forgotten."""
        return self._text(self._library.motion_trace, self._handle, drives)

    def segment(self, drives: Sequence[Drive]) -> str:
        """Gives the history out as a segment of a trace, and goes on with an empty one."""
        if not self._spare.at:
            self._open(self._spare)
        self._check("swap", self._library.motion_swap(self._handle, self._spare))
        return self._text(self._library.motion_segment_text, self._spare, drives)

    def forget(self) -> None:
        """Goes on with an empty history, and gives nothing out."""
        self._check("forget", self._library.motion_forget(self._handle))

    def _text(self, make: Any, handle: _Motion, drives: Sequence[Drive]) -> str:
        self._take(drive.answer() for drive in drives)
        self._check("trace", make(handle, self._answers, self._axes))
        room, parts, at = ctypes.create_string_buffer(1 << 20), [], 0
        while count := self._library.motion_trace_text(handle, at, room, len(room)):
            parts.append(room.raw[:count])
            at += count
        return b"".join(parts).decode("ascii")


def rows(text: str) -> Iterator[tuple[int, list[str]]]:
    """The records `row` of a trace or a segment, each with the number of its cycle, counted from the
    machine's opening."""
    before = cycle = 0
    for line in text.splitlines():
        if line.startswith("cycle,"):
            cycle = before + int(line[6:line.index(",", 6)])
        elif line.startswith("segment,"):
            before = int(line.rpartition(",")[2])
        elif line.startswith("row,"):
            yield cycle, line.split(",")


Columns = dict[str, dict[str, list[Any]]]   # of each axis, its lists by their names


def columns(text: str, before: Optional[Columns] = None) -> Columns:
    """The rows of a trace or a segment as lists, for each axis those of cycle, setpoint, actual,
    target, state, error and driven; with `before`, at the end of those lists. Numbers are internal units,
    and increments of the drive for actual and target. `pandas.DataFrame(columns(text)["X"])` makes a
    frame of an axis, where pandas is there."""
    found = {} if before is None else before
    for cycle, record in rows(text):
        lists = found.get(record[1])
        if lists is None:
            lists = found[record[1]] = {name: [] for name in ("cycle", "setpoint", "actual", "target",
                                                              "state", "error", "driven")}
        lists["cycle"].append(cycle)
        lists["setpoint"].append(int(record[8]))
        lists["actual"].append(int(record[3]))
        lists["target"].append(int(record[10]))
        lists["state"].append(record[5])
        lists["error"].append(int(record[6]))
        lists["driven"].append(record[7] == "1")
    return found
