"""The words of a line, and what is wrong with one of them: for benches, programs and switch
files."""

import re
from collections.abc import Iterable
from dataclasses import dataclass, field
from typing import Optional

from motion_tools.explain.faults import Fault

NAME = re.compile(r"[A-Za-z][A-Za-z0-9_]{0,15}")
NUMBER = re.compile(r"-?[0-9]{1,19}")
POINT = re.compile(r"-?[0-9]{1,19}:-?[0-9]{1,19}")
QUANTITY = re.compile(r"-?[0-9]+(?:\.[0-9]{1,9})?")
WORD = re.compile(r"[^ \t\r]+")
FORMS = {
    "bench": {
        "limit": "limit CYCLES ENTRIES",
        "axis": "axis NAME LO HI VMAX AMAX INC START [ready]",
        "drive": "drive AXIS LAG [FAULT ..]", "group": "group NAME AXIS AXIS ..",
        "table": "table X:Y X:Y ..", "task": "task NAME", "block": "block NAME TASK KIND AXIS",
        "go": "go", "call": "call BLOCK on [KEY=VALUE ..], or call BLOCK off",
        "cycle": "cycle [N]", "end": "end TASK"},
    "program": {
        "task": "task NAME", "block": "block NAME KIND AXIS",
        "call": "call BLOCK on [KEY=VALUE ..], or call BLOCK off", "wait": "wait BLOCK FLAG",
        "repeat": "repeat N", "again": "again"},
    "switches": {"switch": "switch NAME AXIS ON OFF HYST"},
}
VERSIONS = {"bench": ("motion-bench 1", "motion-bench 2", "motion-bench 3"),
            "program": ("motion-program 1", "motion-program 3"),
            "switches": ("motion-switches 1",)}
RULE_OF = {                     # what is wrong with a word, by the rules of each text
    "bench": {"byte": "B1", "version": "B2", "first": "B3", "count": "B4", "name": "B5",
              "known": "B6", "value": "B7", "range": "B8", "many": "B9", "end": "B10"},
    "program": {"byte": "P1", "version": "P2", "first": "P3", "count": "P4", "name": "P5",
                "known": "P6", "value": "P7", "range": "P8", "many": "P9", "end": "P10"},
    "switches": {"byte": "K1", "version": "K2", "first": "K3", "count": "K3", "name": "K4",
                 "known": "K4", "value": "K5", "range": "K6", "many": "K7", "end": "K7"},
}
EVENTS = ("call", "cycle", "end")


@dataclass
class Word:
    text: str
    column: int


@dataclass
class Context:
    """What the lines above have defined."""

    kind: str                                               # bench, program or switches
    axes: list[str] = field(default_factory=list)
    groups: dict[str, list[str]] = field(default_factory=dict)
    tasks: list[str] = field(default_factory=list)
    blocks: dict[str, tuple[str, str, str]] = field(default_factory=dict)   # task, kind, object
    switches: list[str] = field(default_factory=list)
    tables: int = 0
    version: str = ""
    third: bool = True                                      # whether the configuration is of version 3
    gone: bool = False                                      # `go` stands above
    once: set[str] = field(default_factory=set)             # lines that may come once, and came
    repeats: bool = False
    acts: bool = False                                      # the task has an instruction
    called: set[str] = field(default_factory=set)

    def names(self) -> dict[str, str]:
        """What each name is."""
        return {**{name: "an axis" for name in self.axes},
                **{name: "a group" for name in self.groups},
                **{name: "a task" for name in self.tasks},
                **{name: "a block" for name in self.blocks}}

    def members(self, on: str) -> int:
        """How many axes an object has."""
        return len(self.groups.get(on, ("",)))


class Finder:
    """Finds what is wrong with the words of one line."""

    def __init__(self, context: Context, line: int, text: str):
        self.context, self.line, self.text = context, line, text
        bare = text.split("#")[0]
        self.words = [Word(found[0], found.start()) for found in WORD.finditer(bare)]
        self.faults: list[Fault] = []

    def add(self, what: str, word: Optional[Word], says: str) -> None:
        """Something is wrong with a word, or with the line as a whole."""
        column, length = (word.column, len(word.text)) if word else (-1, 1)
        self.faults.append(Fault(RULE_OF[self.context.kind][what], self.line, column, length, says,
                                 word.text if word else ""))

    def bytes(self) -> None:
        """A line has printable ASCII alone."""
        for column, letter in enumerate(self.text.rstrip("\n")):
            if letter not in "\t\r" and not " " <= letter <= "~":
                self.add("byte", Word(letter, column), f"{letter!a} isn't from space to ~")
                return

    def count(self, least: int, most: int, form: str) -> bool:
        """Whether there are enough words, and not too many."""
        given = len(self.words)
        if least <= given <= most:
            return True
        if given < least:
            says = f"the line has {given} words and needs {least}: {form}"
            self.add("count", self.words[-1], says)
        else:
            self.add("count", self.words[most], f"this word is one too many: {form}")
        return False

    def new_name(self, word: Word, what: str) -> None:
        """A word defines a name."""
        if not NAME.fullmatch(word.text):
            self.add("name", word, f"{word.text} is no name of a {what}: a letter, then up to 15 "
                     "letters, digits or _")
        elif word.text in self.context.names():
            self.add("known", word, f"{word.text} is the name of "
                     f"{self.context.names()[word.text]} already")

    def one_of(self, word: Word, known: Iterable[str], what: str) -> bool:
        """A word names something that is there."""
        there = list(known)
        if word.text in there:
            return True
        listed = ", ".join(there[:12]) or "none"
        self.add("known", word, f"there is no {what} {word.text} here; there is {listed}")
        return False

    def number(self, word: Word, what: str, low: int = -10**18,
               high: int = 10**18) -> Optional[int]:
        """A word is a whole number in a range."""
        if not is_number(word.text):
            self.add("value", word, f"{what} is {word.text}, and not a whole number")
            return None
        if not low <= int(word.text) <= high:
            self.add("range", word,
                     f"{what} is {word.text}, and has to be from {low:,} to {high:,}")
        return int(word.text)


def is_number(text: str) -> bool:
    """Whether a text is a whole number of at most 10^18 in size."""
    return bool(NUMBER.fullmatch(text)) and abs(int(text)) <= 10**18


def words_of(text: str) -> list[str]:
    """The words of a line without its comment."""
    return text.split("#")[0].split()
