"""Where tasks in Structured Text stand: scans them with the replies of a trace, so that each call
has its line, and variables and states have their values at the end."""

from collections.abc import Callable, Iterator
from dataclasses import dataclass, field
from typing import Optional

from motion_tools.blocks import LETTERS
from motion_tools.explain.st import tasks_of
from motion_tools.explain.st_tree import (Assign, CallOf, Case, Flag, If, Join, Number, Sign,
                                          Statements, Task, Tree, Truth, Variable)
from motion_tools.explain.walk import Made, keep_line, line_in
from motion_tools.trace import Call

MOST_STATEMENTS = 3_000_000         # that are scanned; a longer run has no lines
MOST_CALLS = 200_000                # whose lines are kept
OPERATORS: dict[str, Callable[[int, int], int]] = {
    "OR": lambda one, other: one | other, "AND": lambda one, other: one & other,
    "=": lambda one, other: one == other, "<>": lambda one, other: one != other,
    "<": lambda one, other: one < other, "<=": lambda one, other: one <= other,
    ">": lambda one, other: one > other, ">=": lambda one, other: one >= other,
    "+": lambda one, other: one + other, "-": lambda one, other: one - other,
    "*": lambda one, other: one * other}


class Lost(Exception):
    """The trace isn't one of these tasks, or is too long."""


@dataclass
class Scanned:
    """A task as it is scanned: its variables, the last replies of its blocks, and the call that it
    waits for; None after a scan."""

    task: Task
    variables: dict[str, int] = field(default_factory=dict)
    replies: dict[str, str] = field(default_factory=dict)
    waits_for: Optional[CallOf] = None
    reply: Optional[Call] = None
    states: list[int] = field(default_factory=list)     # of each CASE that was scanned: its branch
    calls: dict[str, int] = field(default_factory=dict)             # lines of the last calls
    edges: dict[str, int] = field(default_factory=dict)             # and of the last ones on
    made: Made = field(default_factory=dict)
    wraps: dict[int, int] = field(default_factory=dict)     # lines whose numbers did, and when
    cycle: int = 0
    line: int = 0
    count: int = 0
    is_lost: bool = False
    steps: Iterator[None] = iter(())

    def begin(self) -> None:
        """Begins with the first scan."""
        self.variables = {name: self.task.initial.get(name, 0) for name in self.task.variables}
        self.steps = self.scans()
        self.go_on()

    def go_on(self) -> None:
        """Goes on to the next call, or to the end of the scan."""
        try:
            self.waits_for = None
            next(self.steps)
        except (Lost, KeyError, RecursionError, StopIteration):
            self.is_lost = True

    def scans(self) -> Iterator[None]:
        """The scans, one after another: stops at each call, and after each scan."""
        while True:
            self.states = []
            yield from self.run(self.task.statements)
            self.waits_for = None
            yield

    def run(self, statements: Statements) -> Iterator[None]:
        """Runs statements."""
        for statement in statements:
            self.count += 1
            if self.count > MOST_STATEMENTS:
                raise Lost
            self.line = statement.line
            if isinstance(statement, Assign):
                self.variables[statement.name] = wrapped(self.value(statement.value))
            elif isinstance(statement, CallOf):
                for each in statement.sums:
                    self.value(each)
                self.waits_for = statement
                yield
            elif isinstance(statement, If):
                condition = self.value(statement.condition)
                yield from self.run(statement.then if condition else statement.other)
            else:
                yield from self.run(self.branch(statement))

    def branch(self, statement: Case) -> Statements:
        """The first branch with the value, else the ELSE part."""
        value = wrapped(self.value(statement.value))
        for number, line, statements in statement.branches:
            if number == value:
                self.states.append(line)
                return statements
        self.states.append(statement.line)
        return statement.other

    def value(self, tree: Tree) -> int:
        """The value of an expression; a truth as 0 or 1."""
        if isinstance(tree, (Number, Truth)):
            return int(tree.value)
        if isinstance(tree, Variable):
            return self.variables[tree.name]
        if isinstance(tree, Flag):
            return int(LETTERS[tree.name] in self.replies.get(tree.block, ""))
        if isinstance(tree, Sign):
            operand = self.value(tree.operand)
            return self.number(-operand) if tree.sign == "-" else int(not operand)
        assert isinstance(tree, Join)
        return self.number(int(OPERATORS[tree.sign](self.value(tree.one),
                                                    self.value(tree.other))))

    def number(self, value: int) -> int:
        """A result as a DINT has it; where it wraps its line is kept."""
        found = wrapped(value)
        if found != value:
            self.wraps.setdefault(self.line, self.cycle)
        return found

    def take(self, cycle: int, call: Call) -> None:
        """Takes the reply to the call that the scan waits for."""
        self.cycle = cycle
        if self.is_lost:
            return
        if self.waits_for is None or self.waits_for.block != call.block:
            self.is_lost = True
            return
        self.replies[call.block] = call.outputs
        self.calls[call.block] = self.waits_for.line
        if call.execute or call.block not in self.edges:
            self.edges[call.block] = self.waits_for.line
        if len(self.made) < MOST_CALLS:
            keep_line(self.made, cycle, call, self.edges[call.block])
        self.go_on()

    def next_scan(self) -> None:
        """Begins the next scan, after a cycle."""
        self.cycle += 1
        if not self.is_lost and self.waits_for is None:
            self.go_on()


def calls_in(statements: Statements) -> Iterator[CallOf]:
    """The calls among statements, also those in branches."""
    for each in statements:
        if isinstance(each, CallOf):
            yield each
        elif isinstance(each, If):
            yield from calls_in([*each.then, *each.other])
        elif isinstance(each, Case):
            yield from calls_in([one for _, _, branch in each.branches for one in branch])
            yield from calls_in(each.other)


def wrapped(value: int) -> int:
    """A number as a DINT has it."""
    return (value + 2**31) % 2**32 - 2**31


class Scans:
    """The tasks of a text, and where they stand."""

    def __init__(self, text: str, axes: list[str], groups: dict[str, list[str]]):
        self.lines = text.split("\n")
        self.tasks = {task.name: Scanned(task) for task in tasks_of(text, axes, groups)}
        self.owner = {block: task for task in self.tasks.values() for block in task.task.blocks}
        for task in self.tasks.values():
            task.begin()

    def take(self, cycle: int, call: Call) -> None:
        """Goes on by a call."""
        if call.block in self.owner:
            self.owner[call.block].take(cycle, call)

    def next_cycle(self) -> None:
        """Goes on after a cycle."""
        for task in self.tasks.values():
            task.next_scan()

    def line_of(self, block: str) -> int:
        """The line of the last call of a block; 0 where it isn't known."""
        return self.owner[block].calls.get(block, 0) if block in self.owner else 0

    def line_at(self, cycle: int, block: str, call: Optional[Call] = None) -> int:
        """The line of the call of a block after a cycle."""
        return line_in(self.owner[block].made, cycle, block, call) if block in self.owner else 0

    def declared(self, block: str) -> int:
        """The line in which a block is declared."""
        return self.owner[block].task.lines.get(block, 0) if block in self.owner else 0

    def positions_left_out(self, block: str, line: int) -> tuple[str, ...]:
        """The keys of positions that the calls of a block in a line leave out."""
        task = self.owner.get(block)
        found = [each.missing for each in calls_in(task.task.statements)
                 if (each.block, each.line) == (block, line)] if task else []
        return found[0] if found else ()

    def declared_variable(self, name: str, variable: str) -> int:
        """The line in which a task declares a variable; 0 where it isn't known."""
        return self.tasks[name].task.lines.get(variable, 0) if name in self.tasks else 0

    def shown(self, name: str) -> str:
        """The variables of a task, as they stand at the end."""
        task = self.tasks.get(name)
        if task is None or task.is_lost:
            return ""
        kinds = task.task.variables
        values = [f"{variable} = {str(bool(value)).upper() if kinds[variable] == 'BOOL' else value}"
                  for variable, value in task.variables.items()]
        return ", ".join(values[:12])

    def state_line(self, name: str) -> int:
        """The line of the branch that the first CASE of the last scan took."""
        task = self.tasks.get(name)
        if task is None or task.is_lost or not task.states:
            return 0
        return task.states[0]
