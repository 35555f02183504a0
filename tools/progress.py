"""How long the proving of some crates takes, and how far it is.

A build is reckoned as `rt ci` goes: each crate once those that it stands on are done, those with the
longest chain behind them first, as many side by side as there are processors, and each on one (a second
one gains next to nothing beside other work). So what is proved at the end alone, and the compiling of the
program, count in full. The processor minutes of the crates were
measured once; how fast this machine is, beside its other work, shows as the build goes on.
"""

from typing import NamedTuple

# Processor minutes of a crate's proof: rattle-kit-13f, four processors (Intel Xeon, 2.5 GHz) beside other work,
# 1 December 2026, in a run from nothing; those of the upper crates by a run of the day before on a faster machine,
# times 1.4. That of motion_main is nearly all its compiling, by two compilers.
MINUTES = {
    "trace_text": 8.4, "segment_text": 5.6, "command_words": 5.0, "motion_kernel": 4.9,
    "motion_plant": 4.9, "axis_core": 4.1, "motion_main": 4.1, "st_check": 3.7, "motion_c": 3.6,
    "segment_check": 3.4, "bench_text": 3.2, "machine_config": 2.9, "kernel_invariants": 2.8,
    "motion_history": 2.8, "st_exec": 2.7, "hot_standby": 2.5, "machine_words": 2.5,
    "trace_check": 2.4, "outside": 2.2, "group_core": 2.1, "kernel_turn": 2.0, "plc_program": 1.7,
    "trapezoid_plan": 1.6, "blend_plan": 1.5, "trace_columns": 1.5, "plc_types": 1.4, "st_job": 1.3,
    "st_rounds": 1.3, "command_pool": 1.2, "setpoint_ring": 1.2, "st_grammar": 1.0, "task_run": 1.0,
    "line_text": 0.8, "st_tokens": 0.8, "drive_jobs": 0.7, "kin_core": 0.7, "cia402_machine": 0.6,
    "fb_outputs": 0.6, "fixed_units": 0.6, "motion_laws": 0.6, "cam_table": 0.5, "drive_sim": 0.5,
    "follow_plan": 0.5, "linear_path": 0.5, "ramp_root": 0.5, "st_tree": 0.5, "buffer_modes": 0.4,
    "axis_state": 0.3, "command_changes": 0.3, "command_core": 0.3, "motion_numbers": 0.3,
    "state_events": 0.2}
MINUTES_A_CRATE, MINUTES_A_LINE = 0.3, 0.0003      # of the others
KEPT = 0.02
# How much of the whole, and how many minutes at least, have to be done before the machine's own speed
# counts more than the measured one.
SHARE, LEAST = 0.05, 0.5


def minutes_of(crate: str, lines: int) -> float:
    """The processor minutes of a crate's proof."""
    return MINUTES.get(crate, MINUTES_A_CRATE + MINUTES_A_LINE * lines)


class Turn(NamedTuple):
    """A crate's end in the reckoned course."""
    end: float
    crate: str


def course(below: dict[str, list[str]], work: dict[str, float], processors: int) -> list[Turn]:
    """When each crate is done, in minutes, by the processor minutes of each."""
    behind = dict(work)
    for crate in reversed(list(below)):         # each stands after those that it stands on
        for low in below[crate]:
            behind[low] = max(behind[low], work[low] + behind[crate])
    waiting = sorted(below, key=lambda crate: -behind[crate])
    left: dict[str, float] = {}         # when those that are being proved end
    turns: list[Turn] = []
    now, done = 0.0, set[str]()
    while waiting or left:
        for crate in [it for it in waiting if done.issuperset(below[it])][:max(processors - len(left), 0)]:
            waiting.remove(crate)
            left[crate] = now + work[crate]
        now = min(left.values())
        for crate in [it for it in left if left[it] == now]:
            del left[crate]
            done.add(crate)
            turns.append(Turn(now, crate))
    return turns


class Progress:
    """How far a build is. `tail` is how many minutes follow the last crate."""

    def __init__(self, below: dict[str, list[str]], lines: dict[str, int], processors: int,
                 tail: float = 0.0) -> None:
        self.below, self.processors, self.tail = below, processors, tail
        self.work = {crate: minutes_of(crate, lines[crate]) for crate in below}
        self.done: set[str] = set()
        self.counted, self.since, self.estimate, self.pace = -1, 0.0, 0.0, 1.0
        self.reckon()

    def reckon(self) -> None:
        self.turns = course(self.below, self.work, self.processors)
        self.whole = self.turns[-1].end if self.turns else 0.0

    def add(self, crate: str, is_kept: bool = False) -> bool:
        """Notes that a crate is done; false where it is none of these, or was noted before."""
        if crate not in self.below or crate in self.done:
            return False
        self.done.add(crate)
        if is_kept:
            self.work[crate] = KEPT
            self.reckon()
        return True

    def reached(self) -> float:
        """The moment of the reckoned course at which as much work is done as now."""
        if len(self.done) == len(self.below):
            return self.whole
        left = sum(self.work[crate] for crate in self.done)
        before = 0.0
        for turn in self.turns:
            if left <= self.work[turn.crate]:
                return before + (turn.end - before) * left / self.work[turn.crate]
            left -= self.work[turn.crate]
            before = turn.end
        return self.whole

    def left(self, spent: float) -> float:
        """How many minutes the rest takes, where so many were spent. It is reckoned at the end of a crate; while
        the next is awaited it falls, to a fifth at most."""
        if len(self.done) != self.counted:
            reached, whole = self.reached(), self.whole + self.tail
            prior = max(SHARE * whole, LEAST)
            self.pace = (spent + prior) / (reached + prior)
            self.estimate = (whole - reached) * self.pace
            self.counted, self.since = len(self.done), spent
        return max(self.estimate - (spent - self.since), self.estimate / 5)
