"""Prints the report of `motion scope` as tables of its axes and its blocks."""

import argparse
import re
import sys
from collections.abc import Iterable, Sequence
from typing import NamedTuple, Optional, TextIO

from motion_tools import command
from motion_tools.trace import lines_of
from motion_tools.units import Factors, Units, decimal

NAME = "([A-Za-z][A-Za-z0-9_]{0,15})"
COUNT = "(0|[1-9][0-9]*)"
NUMBER = "(-|0|-?[1-9][0-9]*)"
AXIS = re.compile(f"axis {NAME} driven {COUNT} least {NUMBER} greatest {NUMBER} still {COUNT} "
                  f"travel {COUNT}")
BLOCK = re.compile(f"block {NAME} calls {COUNT} done {COUNT} errors {COUNT}")
AXIS_TITLES = ("axis", "driven", "least", "greatest", "still", "travel")
BLOCK_TITLES = ("block", "calls", "done", "errors")
LEFT = ("axis", "block", "unit")        # the columns of words
EPILOG = """\
driven and still are numbers of cycles; an axis that was never driven has no least and no greatest
setpoint, but a dash

ends with 0; with 2 where an option is faulty, with 3 where the text is no report, with 4 where it
can't be read, with 6 where writing fails"""


class ReportError(Exception):
    """A text is no report."""


class AxisLine(NamedTuple):
    """What a report says of an axis, in its internal units."""
    name: str
    driven: int
    least: Optional[int]
    greatest: Optional[int]
    still: int
    travel: int


def parser() -> argparse.ArgumentParser:
    return command.options_of("scope_table", __doc__, "report", EPILOG)


def main() -> int:
    options = parser().parse_args()
    return command.ended("scope_table", options.report, lambda: write(options, sys.stdout),
                             ReportError)


def write(options: argparse.Namespace, output: TextIO) -> None:
    """Writes the tables of the report that is asked for."""
    axes, blocks = report_of(lines_of(options.report))
    units = command.units_for(options, {axis.name for axis in axes}, "report")
    titles = AXIS_TITLES + (("unit",) if units.scales else ())
    output.write(table([titles, *(axis_fields(axis, units) for axis in axes)]))
    output.write("\n")
    output.write(table([BLOCK_TITLES, *blocks]))


def report_of(lines: Iterable[str]) -> tuple[list[AxisLine], list[tuple[str, ...]]]:
    """The axes of a report, and the fields of its blocks. Raises ReportError."""
    axes: list[AxisLine] = []
    blocks: list[tuple[str, ...]] = []
    for number, line in enumerate(lines, 1):
        line = line.rstrip("\r\n")
        if (match := AXIS.fullmatch(line)) and not blocks:
            axes.append(axis_of(match.groups()))
        elif (match := BLOCK.fullmatch(line)) and axes:
            blocks.append(match.groups())
        else:
            raise ReportError(f"line {number}: it is no line of a report, or in another position")
    if not blocks:
        raise ReportError("it ends before a line of a block")
    return axes, blocks


def axis_of(fields: Sequence[str]) -> AxisLine:
    """An axis by the fields of its line."""
    name, driven, least, greatest, still, travel = fields
    return AxisLine(name, int(driven), setpoint_of(least), setpoint_of(greatest), int(still),
                    int(travel))


def setpoint_of(field: str) -> Optional[int]:
    """A setpoint of a report; None where there is none."""
    return None if field == "-" else int(field)


def axis_fields(axis: AxisLine, units: Units) -> list[str]:
    """The fields of an axis in a table: in its unit, where it has a scale."""
    factors = units.factors(axis.name)
    places = [told(number, factors) for number in (axis.least, axis.greatest, axis.travel)]
    fields = [axis.name, str(axis.driven), *places[:2], str(axis.still), places[2]]
    return fields + ([units.names(axis.name)[0]] if units.scales else [])


def told(number: Optional[int], factors: Optional[Factors]) -> str:
    """A number in internal units or scaled; a dash where there is none."""
    if number is None:
        return "-"
    return str(number) if factors is None else decimal(number * factors[0])


def table(rows: Sequence[Sequence[str]]) -> str:
    """Lines whose columns stand below each other: names and units at the left, numbers at the
    right."""
    widths = [max(map(len, column)) for column in zip(*rows)]
    return "".join(aligned(rows[0], row, widths) for row in rows)


def aligned(titles: Sequence[str], row: Sequence[str], widths: Sequence[int]) -> str:
    """A line, its fields as wide as their columns."""
    fields = [field.ljust(width) if title in LEFT else field.rjust(width)
              for title, field, width in zip(titles, row, widths)]
    return "  ".join(fields).rstrip() + "\n"
