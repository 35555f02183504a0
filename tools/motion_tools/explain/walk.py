"""Where the tasks of a program stand: goes along its lines by the calls of a trace."""

import re
from dataclasses import dataclass, field
from typing import Optional

from motion_tools.blocks import LETTERS
from motion_tools.trace import Call


@dataclass
class Instruction:
    """A line of a task: call, wait, repeat or again."""
    line: int
    verb: str
    words: list[str]
    text: str


@dataclass
class Remark:
    """Something of a call at a line: a call without a rising edge, or a wait that ended
    otherwise."""
    kind: str
    cycle: int
    line: int
    text: str
    block: str
    detail: str = ""


# By a cycle and a block the calls after that cycle, as their hashes, each with the line to name: its
# own, or that of the last call on where it is off or asks anew.
Made = dict[tuple[int, str], tuple[tuple[int, int], ...]]


def keep_line(made: Made, cycle: int, call: Call, line: int) -> None:
    """Keeps the line of a call after a cycle."""
    made[cycle, call.block] = (*made.get((cycle, call.block), ()), (hash(call), line))


def line_in(made: Made, cycle: int, block: str, call: Optional[Call]) -> int:
    """The line of a call of a block after a cycle, the first one of several that are alike; of the
    last one where none is given; 0 where it isn't known."""
    found = [line for each, line in made.get((cycle, block), ())
             if call is None or each == hash(call)]
    return found[-1 if call is None else 0] if found else 0


@dataclass
class Standing:
    """A task, and where it is in its lines."""

    name: str
    instructions: list[Instruction] = field(default_factory=list)
    blocks: dict[str, tuple[int, str]] = field(default_factory=dict)    # line and kind
    place: int = 0
    rounds: int = 0                 # of the repeat that is open, how many are left
    begin: int = 0                  # where its lines begin
    execute: dict[str, bool] = field(default_factory=dict)
    called: dict[str, Instruction] = field(default_factory=dict)    # by block, the last one
    edges: dict[str, int] = field(default_factory=dict)     # by block, the line of its last call on
    made: Made = field(default_factory=dict)
    remarks: list[Remark] = field(default_factory=list)

    def here(self) -> Optional[Instruction]:
        """The call or the wait at which the task stands; None where it has come to its end."""
        while self.place < len(self.instructions):
            line = self.instructions[self.place]
            if line.verb == "repeat":
                self.rounds, self.begin = int(line.words[1]), self.place + 1
            elif line.verb == "again":
                self.rounds -= 1
                if self.rounds > 0:
                    self.place = self.begin
                    continue
            else:
                return line
            self.place += 1
        return None

    def take(self, cycle: int, call: Call) -> None:
        """Goes on by a call of one of the task's blocks."""
        line = self.here()
        if line is None or line.words[1] != call.block:
            return
        if line.verb == "call":
            self.make(cycle, line, call)
            self.place += 1
            return
        if "E" in call.outputs:
            self.keep(cycle, call)
        letter = LETTERS[line.words[2]]
        if letter in call.outputs:
            self.place += 1
        elif "C" in call.outputs or "E" in call.outputs:
            ended = f"error {call.error}" if "E" in call.outputs else "CommandAborted"
            remark = Remark("wait-ended", cycle, line.line, line.text, call.block, ended)
            self.remarks.append(remark)
            self.place += 1

    def make(self, cycle: int, line: Instruction, call: Call) -> None:
        """A call of a line: on again without an off before is no rising edge."""
        kind = self.blocks.get(call.block, (0, ""))[1]
        if call.execute and self.execute.get(call.block) and kind != "Power":
            self.remarks.append(Remark("no-edge", cycle, line.line, line.text, call.block))
        self.execute[call.block] = call.execute
        self.called[call.block] = line
        if call.execute or call.block not in self.edges:
            self.edges[call.block] = line.line
        self.keep(cycle, call)

    def keep(self, cycle: int, call: Call) -> None:
        """Keeps the line of a call."""
        keep_line(self.made, cycle, call, self.edges.get(call.block, 0))


class Walk:
    """The tasks of a program, and where they stand."""

    def __init__(self, text: str):
        self.tasks: dict[str, Standing] = {}
        self.owner: dict[str, Standing] = {}
        task: Optional[Standing] = None
        for number, raw in enumerate(text.splitlines(), 1):
            words = raw.split("#")[0].split()
            if words[:1] == ["task"] and len(words) == 2:
                task = self.tasks.setdefault(words[1], Standing(words[1]))
            elif task and words[:1] == ["block"] and len(words) == 4:
                task.blocks[words[1]] = (number, words[2])
                self.owner[words[1]] = task
            elif task and words and words[0] in ("call", "wait", "repeat", "again"):
                task.instructions.append(Instruction(number, words[0], words, raw.strip()))

    def take(self, cycle: int, call: Call) -> None:
        """Goes on by a call."""
        if call.block in self.owner:
            self.owner[call.block].take(cycle, call)

    def next_cycle(self) -> None:
        """A cycle: tasks go on by calls alone."""

    def line_of(self, block: str) -> int:
        """The line whose call of a block was made last; 0 where there is none."""
        found = self.owner[block].called.get(block) if block in self.owner else None
        return found.line if found else 0

    def line_at(self, cycle: int, block: str, call: Optional[Call] = None) -> int:
        """The line whose call of a block was made after a cycle."""
        return line_in(self.owner[block].made, cycle, block, call) if block in self.owner else 0

    def positions_left_out(self, block: str, line: int) -> tuple[str, ...]:
        """Whether the call of a block in a line leaves its positions out."""
        task = self.owner.get(block)
        made = [each for each in task.instructions if each.line == line] if task else []
        is_call = made and made[0].verb == "call" and made[0].words[2:3] == ["on"]
        return ("pos",) if is_call and not any(word.startswith("pos=")
                                               for word in made[0].words) else ()

    def declared(self, block: str) -> int:
        """The line in which a block is declared."""
        return self.owner[block].blocks[block][0] if block in self.owner else 0


def mode_is_given(text: str, block: str) -> bool:
    """Whether a program, a bench or a text in Structured Text gives a block the mode aborting in
    words."""
    return bool(re.search(rf"\bcall\s+{block}\s+on\b[^#\n]*\bmode=aborting\b", text)
                or re.search(rf"\b{block}\s*\([^;]*\bmode\s*:=\s*aborting\b", text))
