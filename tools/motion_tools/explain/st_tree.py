"""The trees of tasks in Structured Text: expressions, statements and tasks."""

from dataclasses import dataclass, field
from typing import NamedTuple, Optional, Union

class Number(NamedTuple):
    value: int


class Truth(NamedTuple):
    value: bool


class Variable(NamedTuple):
    name: str


class Flag(NamedTuple):
    """What a block showed."""
    block: str
    name: str


class Sign(NamedTuple):
    """An operator before its operand: - or NOT."""
    sign: str
    operand: "Tree"


class Join(NamedTuple):
    """An operator between its operands."""
    sign: str
    one: "Tree"
    other: "Tree"


class Assign(NamedTuple):
    line: int
    name: str
    value: "Tree"


class CallOf(NamedTuple):
    line: int
    block: str
    execute: "Tree"
    missing: tuple[str, ...] = ()       # the keys of positions that are left out
    sums: "tuple[Tree, ...]" = ()       # its inputs that are computed


class If(NamedTuple):
    line: int
    condition: "Tree"
    then: "Statements"
    other: "Statements"


class Case(NamedTuple):
    line: int
    value: "Tree"
    branches: "list[tuple[int, int, Statements]]"      # of each the number, its line, what it does
    other: "Statements"


Tree = Union[Number, Truth, Variable, Flag, Sign, Join]
Statements = list[Union[Assign, CallOf, If, Case]]
Typed = tuple[Optional[str], Tree]              # an expression with its type, where it has one


@dataclass
class Task:
    """A task: its variables by type and by first value, its blocks by kind and object, the lines of
    all of these, and its statements."""
    name: str
    variables: dict[str, str] = field(default_factory=dict)
    initial: dict[str, int] = field(default_factory=dict)
    blocks: dict[str, tuple[str, str]] = field(default_factory=dict)
    lines: dict[str, int] = field(default_factory=dict)
    statements: Statements = field(default_factory=list)
