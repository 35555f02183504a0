"""The lines of a panel, and where they break."""

from collections.abc import Callable, Sequence
from typing import Any

from motion_tools.plot.reader import BROKEN, LOOSE, MOVED, REPORTED_VELOCITY, Axis
from motion_tools.plot.sheet import Sheet, thinned
from motion_tools.plot.style import num


ToY = Callable[[float], float]              # where a value stands
Columns = Sequence[Sequence[Any]]           # from and to which cycle, and the column of a lane


def draw_lines(sheet: Sheet, axis: Axis, columns: Columns, name: str, place: int,
               to_y: ToY) -> None:
    """The line of a panel; positions are joined from cycle to cycle, and a velocity or an
    acceleration holds over its cycle. Where a line is broken nothing leads over the gap."""
    whole = all(end - start == 1 for start, end, _ in columns)
    draw_overlay(sheet, axis, place, to_y)
    if name == "position" and axis.has_reported and columns:
        sheet.path(range_line(sheet, columns, 6, to_y, whole), 'class="reported"')
    if name == "velocity" and sheet.following and axis.has_reported:
        path = range_line(sheet, columns, REPORTED_VELOCITY, to_y, whole)
        sheet.path(path, 'class="reported"')
    if not whole:
        sheet.path(range_line(sheet, columns, place, to_y), f'class="{name}"')
    elif name == "position":
        draw_positions(sheet, axis, columns, to_y)
    else:
        sheet.path(step_line(sheet, columns, place, to_y), f'class="{name}"')


def draw_overlay(sheet: Sheet, axis: Axis, place: int, to_y: ToY) -> None:
    """The same line of the second trace, where it has such an axis."""
    other = sheet.overlay.axes.get(axis.name) if sheet.overlay else None
    if other and (columns := thinned(sheet, other.lane)):
        sheet.path(range_line(sheet, columns, place, to_y), 'class="overlay"')


def draw_positions(sheet: Sheet, axis: Axis, columns: Columns, to_y: ToY) -> None:
    """The setpoint of single cycles: joined, and level over a cycle to which no step leads, dotted
    where the axis isn't driven."""
    joined, loose, before = [], [], axis.origin
    begins = True
    for start, end, column in columns:
        y = num(to_y(column[0]))
        if column[10] & BROKEN and (column[10] & LOOSE or not column[10] & MOVED):
            loose.append(f"M{num(sheet.x(start))} {y}H{num(sheet.x(end))}")
        elif column[10] & BROKEN:
            joined.append(f"M{num(sheet.x(start))} {y}H{num(sheet.x(end))}")
        else:
            first = f"M{num(sheet.x(start))} {num(to_y(before))}" if begins else ""
            joined.append(f"{first}L{num(sheet.x(end))} {y}")
        begins, before = column[10] & BROKEN and not column[10] & MOVED, column[0]
    for parts, style in ((joined, "position"), (loose, "loose")):
        if parts:
            sheet.path("".join(parts), f'class="{style}"')


def step_line(sheet: Sheet, columns: Columns, place: int, to_y: ToY) -> str:
    """A line that holds each cycle's value over the cycle, with a gap where there is none."""
    parts, goes_on = [], False
    for start, end, column in columns:
        if column[place] is not None:
            parts.append(f"{'L' if goes_on else 'M'}{num(sheet.x(start))} "
                         f"{num(to_y(column[place]))}H{num(sheet.x(end))}")
        goes_on = column[place] is not None
    return "".join(parts)


def range_line(sheet: Sheet, columns: Columns, place: int, to_y: ToY, whole: bool = False) -> str:
    """A line through the least and the greatest value of each column, the nearer one first. What
    a drive reports it reports at the beginning of a cycle: a single cycle's value stands there.
    Where the line is broken, short level lines stand at the two."""
    parts, last = [], None
    reported = place in (6, REPORTED_VELOCITY)
    breaking = MOVED if reported else BROKEN
    for start, end, column in columns:
        if column[place] is None:
            last = None
            continue
        at = sheet.x(start if whole else (start + end) / 2)
        ends = sorted({to_y(column[place]), to_y(column[place + 1])}, reverse=True)
        if column[10] & breaking and not (whole and reported):
            parts += [f"M{num(at - 0.5)} {num(y)}h1" for y in ends]
            last = None
            continue
        if column[10] & breaking:
            last = None
        if last is not None and abs(ends[-1] - last) < abs(ends[0] - last):
            ends.reverse()
        parts += [f"{'L' if step or last is not None else 'M'}{num(at)} {num(y)}"
                  for step, y in enumerate(ends)]
        last = ends[-1]
    return "".join(parts)
