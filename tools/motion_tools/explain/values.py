"""Warnings about the values of calls: positions that are left out, moves and rates that are tiny,
numbers that wrapped."""

from collections.abc import Iterator, Sequence

from motion_tools.blocks import ENDLESS, MOVES, RELATIVE
from motion_tools.explain.findings import Finding
from motion_tools.explain.history import Command, moved
from motion_tools.explain.run import Run, warning
from motion_tools.units import decimal

THOUSANDTH = 1000
RATES = (("vel", "velocity", "velocity", "vmax"), ("acc", "acceleration", "acceleration", "amax"),
         ("dec", "deceleration", "acceleration", "dmax"))


def warnings(run: Run) -> Iterator[Finding]:
    """What values were perhaps not meant."""
    yield from left_out(run)
    yield from tiny(run)
    yield from slow(run)
    yield from wrapped(run)


def left_out(run: Run) -> Iterator[Finding]:
    """Moves to absolute positions of which one is left out, so that its axis goes to 0."""
    seen: set[tuple[str, int]] = set()
    for command in run.history.commands:
        if run.tasks is None or command.block.kind not in ("MoveAbsolute", "MoveLinearAbsolute"):
            continue
        line = run.tasks.line_at(command.begun, command.block.name, command.call)
        missing = run.tasks.positions_left_out(command.block.name, line)
        if not missing or (command.block.name, line) in seen:
            continue
        seen.add((command.block.name, line))
        names = list(command.start)
        ways = " and ".join(
            f"{key} is left out, so {' and '.join(names)} go to 0" if key == "pos" and len(names) > 1
            else f"{key} is left out, so {names[int(key[3:] or 1) - 1]} goes to 0" for key in missing)
        found = warning(run, "position-left-out", f"{run.who(command.block.name)}: {ways}",
                        command.begun)
        yield run.at(found, line)


def tiny(run: Run) -> Iterator[Finding]:
    """Moves that are very short."""
    for command in run.history.commands:
        positions = command.call.positions
        if command.block.kind not in MOVES or not positions or command.result.startswith("Error"):
            continue
        if is_correction(command, positions):
            continue
        ways = ways_of(command, positions)
        if any(ways.values()) and all(way * THOUSANDTH < run.history.axes[name].reach
                                      for name, way in ways.items()):
            shown = ", ".join(f"{name} {run.units.text(name, way)}" for name, way in ways.items())
            says = f"{run.who(command.block.name)} moves by {shown} alone"
            found = warning(run, "tiny-move", says, command.begun)
            if run.is_st:
                unit = run.units.of_axis(next(iter(ways)))["position"][1]
                found.cure = (f"pos is in thousandths of the user unit: pos := 200 is 0.2 {unit}, "
                              f"and 200 {unit} are pos := 200000")
            yield run.at_call(found, command.block.name, command.begun, command.call)


def ways_of(command: Command, positions: Sequence[int]) -> dict[str, int]:
    """How far the axes of a move go, of a relative one by its distance."""
    is_relative = command.block.kind in RELATIVE
    return {name: abs(position - (0 if is_relative else command.start[name]))
            for name, position in zip(command.start, positions)}


def is_correction(command: Command, positions: Sequence[int]) -> bool:
    """Whether an additive move has added its distance to a move under way, as small ones do."""
    return (command.block.kind == "MoveAdditive" and command.call.mode == "aborting"
            and command.target != moved(command.start, positions))


def slow(run: Run) -> Iterator[Finding]:
    """Moves of a configuration whose velocity, acceleration or deceleration is at most a thousandth
    of what the axis may have."""
    seen: set[tuple[str, str]] = set()
    for command in run.history.commands if run.history.machine.maker == "run" else ():
        if command.block.kind not in (*MOVES, *ENDLESS):
            continue
        for key, name, quantity, limit in RATES:
            value = abs(getattr(command.call, name) or 0)
            axis = next(iter(command.start))
            most = getattr(run.history.axes[axis].axis, limit)
            if 0 < value * THOUSANDTH <= most and (command.block.name, key) not in seen:
                seen.add((command.block.name, key))
                yield slow_rate(run, command, key, value, most, quantity, limit)


def slow_rate(run: Run, command: Command, key: str, value: int, most: int, quantity: str,
              limit: str) -> Finding:
    """A rate that is tiny, with what it is in Structured Text."""
    axis, units = next(iter(command.start)), run.units
    found = warning(run, "tiny-rate", f"{run.who(command.block.name)}: {key} is "
                    f"{units.text(axis, value, quantity)}, and {limit} of {axis} is "
                    f"{units.text(axis, most, quantity)}", command.begun)
    if run.is_st and units.of(axis):
        factor, unit = units.of_axis(axis)[quantity]
        given = round(value * factor * THOUSANDTH)
        found.cure = (f"{key} is in thousandths of the user unit: {key} := {given} is "
                      f"{decimal(given / THOUSANDTH)} {unit}, and {given} {unit} are "
                      f"{key} := {given * THOUSANDTH}")
    return run.at_call(found, command.block.name, command.begun, command.call)


def wrapped(run: Run) -> Iterator[Finding]:
    """Results of Structured Text that left the range of a DINT."""
    for task in run.scans.tasks.values() if run.scans else ():
        for line, cycle in sorted(task.wraps.items()):
            found = warning(run, "wrapped-number", f"a result in the task {task.task.name} left the "
                            "range of a DINT, and wrapped round", cycle)
            yield run.at(found, line)
