"""Writes a trace of `motion` as a table, a line for each cycle, that a spreadsheet opens."""

import argparse
from collections.abc import Sequence
from typing import Optional, TextIO

from motion_tools import command
from motion_tools.trace import Axis, Cycle, Row, Trace
from motion_tools.units import Motions, Step, Units, decimal, scaled

OTHER_COLUMNS = ("state", "error", "driven", "statusword", "controlword", "target", "actual")


def main() -> int:
    options = parser().parse_args()
    dialect = Dialect(options.decimal_comma)
    return command.run("trace_to_table", options,
                           lambda trace, units, output: write(trace, units, dialect, output))


def parser() -> argparse.ArgumentParser:
    words = command.options_of("trace_to_table", __doc__)
    words.add_argument("--decimal-comma", action="store_true",
                       help="writes decimal commas, and semicolons between the columns")
    return words


class Dialect:
    """How lines are written: with commas between columns and decimal points, or with semicolons
    and decimal commas."""

    def __init__(self, decimal_comma: bool):
        self.separator = ";" if decimal_comma else ","
        self.decimal_comma = decimal_comma

    def line(self, fields: Sequence[str]) -> str:
        """The line of these fields, of which none has a separator or a quote."""
        if self.decimal_comma:
            fields = [field.replace(".", ",") for field in fields]
        return self.separator.join(fields) + "\n"


class AxisColumns:
    """The columns of an axis."""

    def __init__(self, axis: Axis, units: Units, version: int):
        self.name = axis.name
        self.factors = units.factors(axis.name)
        self.units = units.names(axis.name)
        self.with_place = version > 1

    def titles(self) -> list[str]:
        """The titles, with units in brackets where numbers are in user units."""
        position, velocity, acceleration = self.units
        titles = [title("setpoint", position), title("velocity", velocity),
                  title("acceleration", acceleration), *OTHER_COLUMNS]
        if self.with_place:
            titles.append(title("place", position))
        return [f"{self.name} {column}" for column in titles]

    def fields(self, row: Row, step: Step) -> list[str]:
        """The fields of a row of the axis, whose velocity and acceleration are `step`."""
        numbers = [row.setpoint, *step]
        fields = [*self.scaled(numbers), row.state, str(row.error), "1" if row.driven else "0",
                  f"0x{row.statusword:04x}", f"0x{row.controlword:04x}", str(row.target),
                  str(row.actual)]
        if self.with_place:
            fields += self.scaled([row.place])
        return fields

    def scaled(self, numbers: Sequence[Optional[int]]) -> list[str]:
        """A position, velocity and acceleration, or the first of them, in the axis's units; empty
        where there is none."""
        values = numbers if self.factors is None else scaled(numbers, self.factors)
        return ["" if value is None else str(value) for value in values]


def title(column: str, unit: str) -> str:
    """The title of a column: its unit in brackets, where it has one."""
    return f"{column} [{unit}]" if unit else column


def write(trace: Trace, units: Units, dialect: Dialect, output: TextIO) -> None:
    """Writes the titles, and a line for each cycle as it is read."""
    machine = trace.machine
    axes = [AxisColumns(axis, units, machine.version) for axis in machine.axes]
    groups = [group.name for group in machine.groups]
    motions = Motions(machine)
    output.write(dialect.line(titles_of(axes, groups, units)))
    for cycle in trace.cycles():
        fields = fields_of(cycle, motions.steps(cycle), axes, groups)
        time = [decimal(cycle.number * units.cycle_us / 1e6)] if units.cycle_us else []
        output.write(dialect.line([str(cycle.number), *time, *fields]))


def titles_of(axes: Sequence[AxisColumns], groups: Sequence[str], units: Units) -> list[str]:
    titles = ["cycle"] + (["time [s]"] if units.cycle_us else [])
    for axis in axes:
        titles += axis.titles()
    for group in groups:
        titles += [f"{group} state", f"{group} error"]
    return titles


def fields_of(cycle: Cycle, steps: dict[str, Step], axes: Sequence[AxisColumns],
              groups: Sequence[str]) -> list[str]:
    """The fields of a cycle after its number and its time, which is that many cycles' lengths."""
    fields = []
    for axis in axes:
        fields += axis.fields(cycle.rows[axis.name], steps[axis.name])
    for group in groups:
        row = cycle.groups[group]
        fields += [row.state, str(row.error)]
    return fields
