"""Warnings: what is legal in a run, and was perhaps not meant."""

from collections.abc import Iterator

from motion_tools.blocks import ENDLESS, MOVES
from motion_tools.explain import hints, machines, values
from motion_tools.explain.findings import Finding
from motion_tools.explain.history import Command
from motion_tools.explain.run import Run, warning
from motion_tools.explain.walk import mode_is_given

FOLLOWERS = ("GearIn", "CamIn")
THOUSANDTH = 1000
TWENTIETH = 20
STARTS, SOON = 20, 10   # more starts than these, each within these cycles after the one before
STILL = 10_000          # an axis that goes slower than vmax by this factor stands, but for rounding


def warnings(run: Run) -> list[Finding]:
    """What is legal, and was perhaps not meant."""
    found = [*edges(run), *ignored(run), *aborted(run), *moving(run), *following(run), *early(run),
             *restarted(run), *geared(run), *uncalled(run), *shared(run), *at_once(run),
             *values.warnings(run), *machines.warnings(run)]
    return sorted(found, key=lambda finding: (finding.cycle is None, finding.cycle or 0))


def edges(run: Run) -> Iterator[Finding]:
    """Calls of a program that are no rising edge, and waits that ended otherwise."""
    for task in run.walk.tasks.values() if run.walk else ():
        seen: set[tuple[str, int]] = set()
        for remark in task.remarks:
            if (remark.kind, remark.line) in seen:
                continue
            seen.add((remark.kind, remark.line))
            if remark.kind == "no-edge":
                says = (f"{run.who(remark.block)} is called on while its Execute is still true: "
                        "there is no rising edge, and no second command")
                found = warning(run, "no-edge", says, remark.cycle)
            else:
                found = Finding("note", "wait-ended", f"the wait ended by {remark.detail}, and the "
                                "task went on", when=run.when(remark.cycle), cycle=remark.cycle)
            yield run.at(found, remark.line)


def ignored(run: Run) -> Iterator[Finding]:
    """Inputs that changed while Execute stayed true; and results that were shown anew."""
    walked = {remark.block for task in (run.walk.tasks.values() if run.walk else ())
              for remark in task.remarks if remark.kind == "no-edge"}
    for name, block in run.history.blocks.items():
        if name in walked:
            continue
        if block.ignored:
            cycle, edge, call, was_over = block.ignored[0]
            more = f", and {len(block.ignored) - 1} times more" if len(block.ignored) > 1 else ""
            change = difference(run, block.block.on, edge, call)
            if was_over:
                found = warning(run, "no-edge", f"{run.who(name)} was called with {change} after "
                                "its command had ended, while Execute stayed true: no rising "
                                f"edge, and no second command{more}", cycle)
            else:
                found = warning(run, "ignored-inputs", f"{run.who(name)} was called with {change} "
                                f"while Execute stayed true: the new inputs were ignored{more}",
                                cycle)
            yield run.at_call(found, name, cycle, call)
        elif block.stale is not None and run.is_st:
            found = warning(run, "no-edge", f"{run.who(name)} was called again with Execute still "
                            "true, and showed the result of its earlier command: no rising edge, "
                            "and no second command", block.stale)
            yield run.at_call(found, name, block.stale)


def difference(run: Run, on: str, edge: object, call: object) -> str:
    """Which inputs of two calls differ, in units."""
    axes, parts = run.history.axes_of(on), []
    for name, quantity in (("positions", "position"), ("velocity", "velocity"),
                           ("acceleration", "acceleration"), ("deceleration", "acceleration")):
        old, new = getattr(edge, name), getattr(call, name)
        if old == new:
            continue
        if name == "positions":
            shown = [", ".join(map(run.units.text, axes, values or ())) for values in (old, new)]
            parts.append(f"pos {shown[1]} in place of {shown[0]}")
        else:
            parts.append(f"{name} {run.units.text(axes[0], new, quantity)} in place of "
                         f"{run.units.text(axes[0], old, quantity)}")
    for name in ("jerk", "mode", "follow"):
        if getattr(edge, name) != getattr(call, name):
            parts.append(f"{name} {getattr(call, name)} in place of {getattr(edge, name)}")
    return " and ".join(parts)


def aborted(run: Run) -> Iterator[Finding]:
    """Moves that another move of the same task aborted by the default mode."""
    for command in run.history.commands:
        by = command.aborted_by
        if by is None or command.block.kind not in MOVES or command.result == "Done":
            continue
        other = run.history.blocks[by.block].block
        if other.kind in ("Halt", "Stop", "GroupHalt", "GroupStop", "Home"):
            continue
        if other.task == command.block.task and not mode_is_given(run.text, other.name):
            cycle = command.ended or command.begun
            who = run.who(command.block.name)
            if other.name == command.block.name:
                found = warning(run, "aborted-by-itself", f"the Execute of {who} fell and rose "
                                "again while its command was under way: the new command aborted "
                                f"that one{where(run, command)}", cycle)
            elif other.kind == "MoveAdditive":
                continue        # it adds its distance to the move that it aborts
            else:
                found = warning(run, "aborted-by-own-task", f"{who} was aborted by "
                                f"{run.who(other.name)} of the same task{where(run, command)}",
                                cycle)
            yield run.at_call(found, other.name, cycle, by)


def where(run: Run, command: Command) -> str:
    """Where the axes of a command stood at its end."""
    if not command.end:
        return ""
    return ", at " + ", ".join(f"{name} {run.units.text(name, place)}"
                               for name, place in command.end.items())


def moving(run: Run) -> Iterator[Finding]:
    """Axes that were in motion when the run ended."""
    if run.history.fault:
        return
    for name, axis in run.history.axes.items():
        velocity = axis.last_step[0]
        if axis.last and velocity and abs(velocity) * STILL > axis.axis.vmax:
            found = warning(run, "ends-in-motion", f"axis {name} is in {axis.last.state} at the "
                            f"end, at {run.units.text(name, axis.last.setpoint)} with "
                            f"{run.units.text(name, velocity, 'velocity')}", run.history.cycles)
            if axis.last.state == "SynchronizedMotion":
                found.cure = hints.ending(follower(run, name))
            yield found


def follower(run: Run, name: str) -> str:
    """The kind of the command by which an axis follows another one."""
    kinds = [command.block.kind for command in run.history.live.get(name, ())
             if command.block.kind in FOLLOWERS and command.is_live()]
    return kinds[-1] if kinds else FOLLOWERS[0]


def following(run: Run) -> Iterator[Finding]:
    """Axes whose drives are far from their setpoints."""
    for name, axis in run.history.axes.items():
        if abs(axis.following) * TWENTIETH > axis.reach:
            yield warning(run, "following-error", f"axis {name}: the following error is up to "
                          f"{run.units.text(name, abs(axis.following))}, more than a twentieth of "
                          f"its range, at {run.units.text(name, axis.following_place)}",
                          axis.following_cycle)


def early(run: Run) -> Iterator[Finding]:
    """Moves that were Done while the drive was far from the target."""
    seen: set[str] = set()
    for command in run.history.commands:
        for name, place in command.short_of.items():
            axis, end = run.history.axes[name], command.end.get(name, place)
            error = abs(end - place)
            if command.block.kind not in MOVES or name in seen:
                continue
            if error * THOUSANDTH > axis.reach and error > 2 * axis.axis.inc:
                seen.add(name)
                yield warning(run, "done-before-drive", f"{run.who(command.block.name)} was Done "
                              f"at {run.units.text(name, end)} while the drive reported "
                              f"{run.units.text(name, place)}", command.ended)


def restarted(run: Run) -> Iterator[Finding]:
    """Blocks that start again and again, a few cycles after the start before."""
    starts: dict[str, list[Command]] = {}
    for command in run.history.commands:
        starts.setdefault(command.block.name, []).append(command)
    for name, commands in starts.items():
        soon = [later for earlier, later in zip(commands, commands[1:])
                if later.begun - earlier.begun <= SOON]
        if len(soon) > STARTS:
            found = warning(run, "started-again", f"{run.who(name)} was started {len(commands)} "
                            f"times, {len(soon)} of them at most {SOON} cycles after the start "
                            "before", soon[0].begun)
            yield run.at_call(found, name, soon[0].begun, soon[0].call)


def geared(run: Run) -> Iterator[Finding]:
    """Gears that ended before their masters moved."""
    for command in run.history.commands:
        by, follow = command.aborted_by, command.call.follow
        if command.block.kind != "GearIn" or not command.reached or by is None or not follow:
            continue
        master, numerator, *_ = follow.split(":")
        other = run.history.blocks[by.block].block
        if other.kind != "GearOut" or numerator == "0" or any(command.velocity.values()):
            continue
        cycle = command.ended or command.begun
        found = warning(run, "geared-at-rest", f"{run.who(command.block.name)} was InGear while "
                        f"its master {master} was at rest, and {run.who(other.name)} ended the "
                        f"gear before {master} moved", cycle)
        yield run.at_call(found, other.name, cycle, by)


def uncalled(run: Run) -> Iterator[Finding]:
    """Blocks that no call names."""
    for name, block in run.history.blocks.items():
        if not block.calls:
            found = warning(run, "never-called", f"{run.who(name)} of the task {block.block.task} "
                            "was never called")
            yield run.at(found, run.tasks.declared(name) if run.tasks else 0)


def shared(run: Run) -> Iterator[Finding]:
    """Axes that two tasks move, where the later move doesn't wait for the earlier one."""
    if run.history.machine.maker != "run":
        return
    last: dict[str, Command] = {}
    seen: set[str] = set()
    for command in run.history.commands:
        if command.block.kind not in (*MOVES, *ENDLESS, "Home"):
            continue
        for name in command.start:
            before = last.get(name)
            last[name] = command
            if before is None or before.block.task == command.block.task or name in seen:
                continue
            if command.call.mode not in (None, "aborting"):
                continue
            seen.add(name)
            by = before.aborted_by
            ends = ", which it aborted" if by and by.block == command.block.name else ""
            found = warning(run, "two-tasks", f"two tasks move {name}: {run.who(command.block.name)} "
                            f"of the task {command.block.task} after {run.who(before.block.name)} of "
                            f"the task {before.block.task}{ends}", command.begun)
            yield run.at_call(found, command.block.name, command.begun, command.call)


def at_once(run: Run) -> Iterator[Finding]:
    """Tasks of a configuration that ended before the first cycle, though they ask for motion."""
    history = run.history
    failed = {failure.block.task for failure in history.failures if failure.block}
    asked = {command.block.task for command in history.commands}
    for task, cycle in history.ended_at.items():
        if history.machine.maker != "run" or cycle or task in failed:
            continue
        if history.cycles and task not in asked:
            continue
        says = (f"the task {task} ended in its first scan, before any cycle" if run.is_st else
                f"the task {task} came to its end before any cycle")
        found = warning(run, "ended-at-once", says, 0)
        if not run.is_st:
            found.cure = "let the task wait, as wait M done, before its lines end"
        yield run.at(found, run.scans.declared_variable(task, "finished") if run.scans else 0)
