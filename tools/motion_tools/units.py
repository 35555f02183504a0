"""Velocities, accelerations and user units of the axes of a trace.

A trace has whole numbers in an axis's internal units, per cycle. A velocity is the difference of
two setpoints that follow each other, an acceleration the difference of two velocities; where the
setpoint makes no step there is neither. User units come only where the caller says how long a
cycle is and how much an internal unit is.
"""

import re
from collections.abc import Iterable, Mapping
from decimal import Decimal
from typing import NamedTuple, Optional

from motion_tools.trace import Axis, Call, Cycle, Machine, Row

SCALE = re.compile(r"(?:([A-Za-z][A-Za-z0-9_]{0,15})=)?"
                   r"([0-9]+(?:\.[0-9]*)?(?:[eE][-+]?[0-9]+)?|\.[0-9]+)"
                   r"([^\d\s.<>&=;,\"'][^\s<>&=;,\"']{0,7})")
QUANTITIES = ("position", "velocity", "acceleration")
Factors = tuple[float, float, float]
Step = tuple[Optional[int], Optional[int]]      # a velocity and an acceleration


class Motion:
    """The velocity and acceleration of an axis, cycle by cycle, in internal units per cycle.

    Before the first cycle the axis rests at its start. Where it isn't driven, or wasn't in the row
    before, its setpoint follows what the drive reports, and a Home moves the coordinate: neither
    is a step, and the next one begins at rest.
    """

    def __init__(self, axis: Axis):
        self.setpoint, self.velocity = axis.start, 0
        self.driven = axis.ready
        self.homed = False              # a Home became active, or was it in the row before
        self.moved = False              # it moved the coordinate in the last row

    def step(self, row: Row) -> Step:
        """The velocity and acceleration in the next row of the axis; None where there is no
        step."""
        self.moved = self.homed and row.setpoint != self.setpoint
        goes_on = self.driven and row.driven and not self.moved
        velocity = row.setpoint - self.setpoint if goes_on else None
        acceleration = None if velocity is None else velocity - self.velocity
        self.setpoint, self.velocity = row.setpoint, velocity or 0
        self.driven, self.homed = row.driven, row.state == "Homing"
        return velocity, acceleration


class Motions:
    """The motions of all axes of a machine."""

    def __init__(self, machine: Machine):
        self.axes = {axis.name: Motion(axis) for axis in machine.axes}
        self.homes = {block.name: self.axes[block.on] for block in machine.blocks
                      if block.kind == "Home"}

    def call(self, call: Call) -> None:
        """A call between two cycles."""
        if call.block in self.homes and call.execute and "A" in call.outputs:
            self.homes[call.block].homed = True

    def steps(self, cycle: Cycle) -> dict[str, Step]:
        """The velocity and acceleration of each axis in the next cycle, by name."""
        for call in cycle.calls:
            self.call(call)
        return {name: self.axes[name].step(row) for name, row in cycle.rows.items()}


class Scale(NamedTuple):
    """How much an internal unit of an axis is, as 0.001 mm."""
    factor: float
    unit: str


class Units:
    """What numbers of each axis are shown in: `scales` by name, that of "" being for the others;
    `cycle_us` is the length of a cycle in microseconds, 0 or None where it isn't known."""

    def __init__(self, scales: Optional[Mapping[str, Scale]] = None,
                 cycle_us: Optional[int] = None):
        self.scales, self.cycle_us = dict(scales or {}), cycle_us or 0

    def of(self, axis: str) -> Optional[Scale]:
        """The scale of an axis; None where it stays in internal units."""
        return self.scales.get(axis, self.scales.get(""))

    def factors(self, axis: str) -> Optional[Factors]:
        """What a position, velocity and acceleration are multiplied with; None in internal
        units."""
        scale = self.of(axis)
        if scale is None:
            return None
        rate = 1e6 / self.cycle_us if self.cycle_us else 1.0
        return scale.factor, scale.factor * rate, scale.factor * rate * rate

    def names(self, axis: str) -> tuple[str, str, str]:
        """The units of a position, velocity and acceleration in words; "" for internal units."""
        scale = self.of(axis)
        if scale is None:
            return "", "", ""
        time = "s" if self.cycle_us else "cycle"
        return scale.unit, f"{scale.unit}/{time}", f"{scale.unit}/{time}^2"

    def of_axis(self, axis: str) -> dict[str, tuple[float, str]]:
        """For the panels of an axis: by quantity the factor and the unit. An axis without a scale
        is shown in internal units per cycle, whatever the cycle's length."""
        scale = self.of(axis)
        factor, unit = scale or (1.0, "units")
        seconds, per = (self.cycle_us / 1e6, "s") if scale and self.cycle_us else (1.0, "cycle")
        return {"position": (factor, unit), "velocity": (factor / seconds, f"{unit}/{per}"),
                "acceleration": (factor / seconds / seconds, f"{unit}/{per}²"),
                "jerk": (factor / seconds / seconds / seconds, f"{unit}/{per}³")}

    def of_time(self, cycles: float) -> tuple[float, str]:
        """The factor of cycles and the name of the time axis of a picture of this many."""
        if not self.cycle_us:
            return 1.0, "cycle"
        if cycles * self.cycle_us < 10e6:
            return self.cycle_us / 1e3, "time [ms]"
        return self.cycle_us / 1e6, "time [s]"

    def text(self, axis: str, number: Optional[float], quantity: str = "position",
             digits: int = 6) -> str:
        """A number of an axis with its unit, as `12.5 mm/s`, in at most so many digits."""
        if number is None:
            return "none"
        factor, unit = self.of_axis(axis)[quantity]
        return f"{number if self.of(axis) is None else plain(number * factor, digits)} {unit}"

    def time_text(self, cycles: float) -> str:
        """A time with its unit, as `1.25 s`; in cycles where a cycle's length isn't known."""
        if not self.cycle_us:
            return f"{cycles:g} cycle" + ("" if cycles == 1 else "s")
        seconds = cycles * self.cycle_us / 1e6
        return f"{seconds * 1e3:.6g} ms" if seconds < 1 else f"{seconds:.6g} s"


def scale_of(text: str) -> tuple[str, Scale]:
    """The axis, or "" for all, and the scale of a text as X=0.001mm. Raises ValueError."""
    match = SCALE.fullmatch(text)
    if match is None or float(match[2]) == 0:
        raise ValueError(f"{text!a} isn't AXIS=NUMBERunit or NUMBERunit, as X=0.001mm")
    return match[1] or "", Scale(float(match[2]), match[3])


def scaled(numbers: Iterable[Optional[float]], factors: Iterable[float]) -> list[Optional[str]]:
    """Numbers, of which some may be None, times these factors, as they are written."""
    return [None if number is None else decimal(number * factor)
            for number, factor in zip(numbers, factors)]


def plain(value: float, digits: int) -> str:
    """A number in at most so many digits, without an exponent, as a configuration has it."""
    return format(Decimal(f"{value:.{digits}g}"), "f")


def decimal(value: float) -> str:
    """A number in at most 15 digits, in which a value of a configuration's range is exact."""
    return f"{value:.15g}"
