"""The report of a run: what its moves and its axes did."""

from collections.abc import Iterable

from motion_tools.explain.history import AxisHistory, Command, History
from motion_tools.explain.run import Run

MOST = 20               # errors and moves that are listed one by one


def moves(run: Run) -> list[str]:
    """A line for each command that moves an axis."""
    told = [command for command in run.history.commands
            if command.block.kind not in ("Home", "GearOut", "CamOut")]
    lines = [move_line(run, command) for command in told[:MOST]]
    return lines + ([f"and {len(told) - MOST} more\n"] if len(told) > MOST else [])


def move_line(run: Run, command: Command) -> str:
    """A command: from where to where, how long, how fast, and how it ended."""
    units, block = run.units, command.block
    ways = [f"{name} {units.text(name, begin)} to {units.text(name, command.end[name])}"
            if name in command.end else f"{name} from {units.text(name, begin)}"
            for name, begin in command.start.items()]
    several = len(command.start) > 1
    peaks = [(f"{name} " if several else "")
             + f"{units.text(name, command.velocity.get(name, 0), 'velocity')}, "
             f"{units.text(name, command.acceleration.get(name, 0), 'acceleration')}"
             for name in command.start]
    if command.ended is None:
        time = f"from {units.time_text(command.active_from)} on"
    else:
        time = (f"{units.time_text(command.ended - command.active_from)} "
                f"from {units.time_text(command.active_from)}")
    return (f"  {block.name} ({block.kind}): {', '.join(ways)}; {time}; peak {'; '.join(peaks)}; "
            f"{result_of(command)}\n")


def result_of(command: Command) -> str:
    """How a command ended, in a word or two."""
    if command.result == "Error":
        return f"Error {command.error}"
    if command.result:
        return command.result
    if command.aborted_by and command.aborted_by.block == command.block.name:
        return "aborted by its own next edge"
    if command.aborted_by:
        return f"aborted by {command.aborted_by.block}"
    return "ended" if command.end else "under way at the end"


def axes(run: Run) -> list[str]:
    """A line for each axis."""
    return [axis_line(run, axis) for axis in run.history.axes.values()]


def axis_line(run: Run, axis: AxisHistory) -> str:
    """What an axis did."""
    name, units = axis.axis.name, run.units
    if axis.least is None:
        return f"  {name}: never driven\n"
    error = f"following error at most {units.text(name, abs(axis.following))}"
    if abs(axis.following) < axis.axis.inc:
        error = "following error below an increment"
    else:
        error += (f" at {units.text(name, axis.following_place)}, "
                  f"{run.when(axis.following_cycle, True)}")
    if not axis.velocity and axis.least == axis.greatest:
        return f"  {name}: stood at {units.text(name, axis.least)}; {error}\n"
    return (f"  {name}: {units.text(name, axis.least)} to {units.text(name, axis.greatest)}, peak "
            f"{units.text(name, axis.velocity, 'velocity')}, "
            f"{units.text(name, axis.acceleration, 'acceleration')}; {error}\n")


def summary(run: Run) -> str:
    """The cycles and the entries, and what the machine has."""
    machine = run.history.machine
    time = f" of {run.units.time_text(1)}, {run.units.time_text(run.history.cycles)}" \
        if run.units.cycle_us else ""
    return (f"{run.name}: {run.history.cycles} cycles{time}; {count(len(machine.axes), 'axis')}, "
            f"{count(len(machine.tasks), 'task')}, {count(len(machine.blocks), 'block')}; "
            f"{run.history.entries} of {machine.entries} entries\n"
            + ("in internal units: --config FILE gives those of the machine\n"
               if machine.maker == "run" and not run.units.scales else ""))


def count(number: int, what: str) -> str:
    """A number of things."""
    plural = {"axis": "axes"}.get(what, what + "s")
    return f"{number} {what if number == 1 else plural}"


def report(run: Run) -> str:
    """The report of a run in words, without its findings."""
    parts = [summary(run)]
    told = moves(run)
    parts += ["moves:\n", *told] if told else ["moves: none\n"]
    return "".join([*parts, "axes:\n", *axes(run)])


def nothing_moved(history: History) -> Iterable[str]:
    """That every command was rejected."""
    if history.rejected and not history.commands:
        yield "Every command was rejected: nothing moved.\n"
