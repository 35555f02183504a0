"""A run with what is known of it, and the errors in it."""

from dataclasses import dataclass
from typing import Optional, Union

from motion_tools.blocks import acts_on_group
from motion_tools.explain import hints
from motion_tools.explain.findings import Finding
from motion_tools.explain.history import Failure, History
from motion_tools.explain.reasons import reason_of, state_cure
from motion_tools.explain.scans import Scans
from motion_tools.explain.walk import Walk
from motion_tools.trace import Call
from motion_tools.units import Units

WHOLE = (1, 2, 3, 4, 6, 7, 8, 9, 10, 14)      # ErrorIDs whose reason in numbers says all


@dataclass
class Run:
    """A run with what is known of it: its history, its units, and the text of its tasks."""

    history: History
    units: Units
    file: str = ""                      # of the tasks or the bench
    text: str = ""
    walk: Optional[Walk] = None         # of a program
    scans: Optional[Scans] = None       # of tasks in Structured Text
    name: str = "the trace"
    config: str = ""                    # of the configuration, where one is given

    def when(self, cycle: int, inside: bool = False) -> str:
        """A time, and the cycle."""
        at = "in" if inside else "after"
        if not self.units.cycle_us:
            return f"{at} cycle {cycle}"
        return f"{self.units.time_text(cycle)} ({at} cycle {cycle})"

    def who(self, block: str) -> str:
        """A block with its kind and what it acts on."""
        told = self.history.blocks[block].block
        return f"{told.name} ({told.kind} on {told.on})"

    @property
    def is_st(self) -> bool:
        """Whether its tasks are in Structured Text."""
        return self.scans is not None

    @property
    def tasks(self) -> Union[Walk, Scans, None]:
        """What knows the lines of the tasks."""
        return self.walk or self.scans

    def at(self, finding: Finding, line: int) -> Finding:
        """A finding with its line of the tasks, where that is known."""
        if line:
            finding.file, finding.line = self.file, line
            finding.text = self.text.split("\n")[line - 1].strip()
        return finding

    def at_call(self, finding: Finding, block: str, cycle: int,
                call: Optional[Call] = None) -> Finding:
        """A finding with the line of a call after a cycle, of the block's last one there where the
        call isn't given."""
        if self.tasks is None:
            return finding
        return self.at(finding, self.tasks.line_at(cycle, block, call))


def warning(run: Run, name: str, says: str, cycle: Optional[int] = None) -> Finding:
    """A warning by its name."""
    return Finding("warning", name, says, hints.warning(name)[1],
                   when="" if cycle is None else run.when(cycle), cycle=cycle)


def failures(run: Run) -> list[Finding]:
    """The errors of calls, axes and groups, in their order; that a command ended by an error of its
    axis is part of that error."""
    owners = {(failure.owner, failure.number) for failure in run.history.failures
              if failure.block is None}
    return [failure_of(run, failure) for failure in run.history.failures
            if failure.block is None or (failure.owner, failure.number) not in owners]


def failure_of(run: Run, failure: Failure) -> Finding:
    """An error with its reason and its cure."""
    of_group = acts_on_group(failure.block.kind) if failure.block else \
        failure.owner in run.history.members
    reason, cure = hints.error(failure.number, of_group)
    if failure.number == 16:
        cure = state_cure(failure) or cure
    exact = reason_of(run.history, failure, run.units)
    if failure.block:
        who = run.who(failure.block.name)
    else:
        who = f"{'group' if failure.owner in run.history.members else 'axis'} {failure.owner}"
    if exact:
        reason = exact if failure.number in WHOLE else f"{reason}: {exact}"
    found = Finding("error", str(failure.number), f"{who}: {reason}", cure,
                    when=run.when(failure.cycle, failure.block is None), cycle=failure.cycle)
    return run.at_call(found, failure.block.name, failure.cycle, failure.call) \
        if failure.block else found
