"""The edges of digital cam switches, as `motion switches` writes them, and their lanes."""

import re
from collections.abc import Iterable

from motion_tools.plot.sheet import Sheet
from motion_tools.trace import TraceError

EDGE = re.compile(r"([A-Za-z][A-Za-z0-9_]{0,15}) ([1-9][0-9]*) (on|off)")
COLOUR, LANE = "#009e73", 18


class EdgeError(Exception):
    """A text is none of edges, from this line on."""


def read_edges(lines: Iterable[str]) -> dict[str, list[int]]:
    """The cycles at which each switch turns, on first: by name, in the order of their first edges.
    Raises EdgeError where a line is no edge of its switch."""
    turns: dict[str, list[int]] = {}
    last = 0
    try:
        for number, line in enumerate(lines, 1):
            found = EDGE.fullmatch(line.rstrip("\r\n"))
            if not found:
                raise EdgeError(f"line {number}: no edge as `NAME CYCLE on`")
            name, cycle, state = found[1], int(found[2]), found[3]
            own = turns.setdefault(name, [])
            if cycle < last or (own and own[-1] == cycle):
                raise EdgeError(f"line {number}: the cycles don't rise")
            if (state == "on") == (len(own) % 2 == 1):
                raise EdgeError(f"line {number}: {name} is {state} already")
            own.append(cycle)
            last = cycle
    except TraceError as fault:
        raise EdgeError(str(fault).replace("record", "line")) from None
    return turns


def spans(turns: list[int], first: int, last: int) -> list[tuple[int, int]]:
    """From and to which cycle a switch is on, both included, within these cycles."""
    ends = [cycle - 1 for cycle in turns[1::2]]
    if len(turns) % 2:
        ends.append(last)
    found = [(max(start, first), min(end, last)) for start, end in zip(turns[::2], ends)]
    return [(start, end) for start, end in found if start <= end]


def draw_edges(sheet: Sheet, switches: dict[str, list[int]]) -> None:
    """A lane for each switch, filled where it is on."""
    first = sheet.trace.first
    sheet.y += 26
    sheet.text(16, sheet.y, "Switches", ' style="font-size:14px;font-weight:bold"')
    sheet.y += 8
    for name, turns in switches.items():
        sheet.box(sheet.x(0), sheet.y, sheet.plot, LANE, f'fill="{sheet.theme["band"]}"')
        for start, end in spans(turns, first, first + sheet.trace.cycles - 1):
            left, right = sheet.x(start - first), sheet.x(end - first + 1)
            sheet.box(left, sheet.y + 3, right - left, LANE - 6, f'fill="{COLOUR}"',
                      f"{name} on, cycles {start} to {end}")
        sheet.box(sheet.x(0), sheet.y, sheet.plot, LANE, 'class="frame"')
        sheet.text(sheet.x(0) - 8, sheet.y + 13, name, ' text-anchor="end"', "muted")
        sheet.y += LANE
