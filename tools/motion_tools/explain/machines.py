"""Warnings about the machine itself: a unit that no tool takes, increments that are coarse beside
the acceleration."""

import re
from collections.abc import Iterator
from pathlib import Path

from motion_tools.config import UNIT, units_in
from motion_tools.explain.findings import Finding
from motion_tools.explain.run import Run, warning
from motion_tools.trace import Axis
from motion_tools.units import plain

COARSE = 4              # increments a cycle squared, below which a warning comes
ADVISED = 20            # increments a cycle squared that the cure leads to
NEARLY = re.compile(r"#\s*(?:the\s+)?(?:user\s+)?units?\b\s*[:=]?\s*(?:is\s+|are\s+)?"
                    r"(?P<word>[^\s.,;#]+)", re.IGNORECASE)


def warnings(run: Run) -> Iterator[Finding]:
    """What of the machine was perhaps not meant."""
    yield from unit_comments(run)
    yield from coarse(run)


def unit_comments(run: Run) -> Iterator[Finding]:
    """Comments of a configuration that look as though they named a unit, and name none."""
    if not run.config:
        return
    text = Path(run.config).read_text(encoding="utf-8-sig", errors="replace")
    if "units" not in units_in(text):
        return
    for number, line in enumerate(text.splitlines(), 1):
        if (found := NEARLY.search(line)) and not UNIT.search(line):
            made = warning(run, "unit-comment", f"the comment {found[0]} names no unit, so numbers "
                           "are in units")
            made.file, made.line, made.column = run.config, number, found.start() + 1
            made.length, made.text = len(found[0]), line
            yield made


def coarse(run: Run) -> Iterator[Finding]:
    """Axes of a configuration whose acceleration is a few increments of their drive in a cycle."""
    for name, history in run.history.axes.items():
        axis, units = history.axis, run.units
        if run.history.machine.maker != "run" or axis.amax >= COARSE * axis.inc:
            continue
        if not history.velocity:
            continue
        says = (f"amax of {name} is {plain(axis.amax / axis.inc, 3)} increments of "
                f"{units.text(name, axis.inc)} a cycle squared: the drive gets the setpoint rounded "
                f"down to increments, so its target's velocity changed by up to "
                f"{units.text(name, history.jump, 'acceleration')} where amax is "
                f"{units.text(name, axis.amax, 'acceleration')}")
        found = warning(run, "coarse-increment", says)
        finer = finer_increment(axis)
        if finer * COARSE > axis.amax:
            found.cure += ("; here one by which lo and hi are numbers of 32 bits is too coarse "
                           "too, so take a longer cycle_us, or lo and hi nearer to 0")
        elif units.of(name):
            found.cure += f", as {units.text(name, finer)}"
        yield found


def finer_increment(axis: Axis) -> int:
    """An increment that is fine beside amax, of 1, 2 or 5 and zeros; not so fine that lo and hi are
    no numbers of 32 bits."""
    least = max(abs(axis.lo), abs(axis.hi)) // (2**31 - 1) + 1
    steps = [digit * 10**power for power in range(19) for digit in (1, 2, 5)]
    return max([step for step in steps if step <= axis.amax // ADVISED and step >= least],
               default=min(step for step in steps if step >= least))
