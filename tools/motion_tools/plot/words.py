"""What a picture shows of an axis or a group, in words, for readers of screens."""

from collections.abc import Sequence
from typing import Any, Union

from motion_tools.plot.reader import Axis, Group, Trace
from motion_tools.plot.style import number_text
from motion_tools.units import Units

MOST = 40       # states, and calls, that are listed one by one


def told_of(trace: Trace, units: Units, owner: Union[Axis, Group], states: Sequence[str]) -> str:
    """The cycles, the setpoints, the states and the calls."""
    if not owner.lane.columns:
        return "No cycle."
    last = trace.first + trace.cycles - 1
    parts = [f"Cycles {trace.first} to {last}."]
    if isinstance(owner, Axis):
        parts.append(setpoints(units, owner))
    if isinstance(owner, Axis) and owner.is_table:
        return " ".join(parts)
    parts.append(f"States: {listed(states_told(trace, owner, states))}.")
    calls = [f"after cycle {cycles} {told}" for cycles, _, _, _, told in owner.marks.in_order()]
    parts.append(f"Calls: {listed(calls)}." if calls else "No calls.")
    return " ".join(parts)


def setpoints(units: Units, axis: Axis) -> str:
    """From where to where the setpoint goes, and its greatest velocity."""
    factor, unit = units.of_axis(axis.name)["position"]
    rate, per = units.of_axis(axis.name)["velocity"]
    columns = axis.lane.columns
    least, greatest = min(column[0] for column in columns), max(column[1] for column in columns)
    fastest = max((max(-column[2], column[3]) for column in columns if column[2] is not None),
                  default=0)
    return (f"Setpoint from {number_text(least * factor)} to {number_text(greatest * factor)} "
            f"{unit}, at most {number_text(fastest * rate)} {per}.")


def states_told(trace: Trace, owner: Union[Axis, Group], states: Sequence[str]) -> list[str]:
    """Each state with its first and its last cycle."""
    found: list[list[Any]] = []
    width = owner.lane.width
    for place, column in enumerate(owner.lane.columns):
        words = states[column[8].bit_length() - 1] + (f" error {column[9]}" if column[9] else "")
        start = trace.first + place * width
        end = min(start + width, trace.first + trace.cycles) - 1
        if found and found[-1][0] == words:
            found[-1][2] = end
        else:
            found.append([words, start, end])
    return [f"{words} in cycle {start}" if start == end else f"{words} in cycles {start} to {end}"
            for words, start, end in found]


def listed(items: Sequence[str]) -> str:
    """Items with semicolons, and how many more there are."""
    more = [f"and {len(items) - MOST} more"] if len(items) > MOST else []
    return "; ".join([*items[:MOST], *more])
