"""What Execute and the outputs of a block were over time: thinned, as a trace is read."""

from array import array
from collections.abc import Mapping
from dataclasses import dataclass, field
from typing import Protocol

from motion_tools.blocks import reached_name

BITS = 0xffff
LETTERS = "BADCER"
OUTPUTS = ("Busy", "Active", "Done", "CommandAborted", "Error")
STATUSWORD = {0: "ready to switch on", 1: "switched on", 2: "operation enabled", 3: "fault",
              4: "voltage enabled", 5: "quick stop", 6: "switch on disabled", 7: "warning",
              9: "remote", 10: "target reached", 11: "internal limit", 12: "follows target",
              13: "following error"}
CONTROLWORD = {0: "switch on", 1: "enable voltage", 2: "quick stop", 3: "enable operation",
               7: "fault reset", 8: "halt"}
CHANGED = 16    # how far the bits that changed within a column stand left of those at its end


class OfKind(Protocol):
    """A block, as far as its kind goes."""

    kind: str


@dataclass
class Levels:
    """Execute and the outputs of a block, as bits in the order of `signals`, in at most `limit`
    columns of `width` cycles each. A column has what stood at its end, and what stood otherwise in
    it before; `before` is what stood before the first, and `value` what the last call showed."""

    limit: int
    width: int = 1
    before: int = 0
    value: int = 0
    called: bool = False
    columns: array = field(default_factory=lambda: array("L"))

    def until(self, place: int) -> None:
        """Goes on with what the last call showed, until the cycle at a place counted from 0."""
        while (place - 1) // self.width >= self.limit:
            self.width, self.columns = self.width * 2, paired(self.columns)
        count = -(-place // self.width)
        self.columns.extend([self.value] * (count - len(self.columns)))

    def show(self, place: int, value: int) -> None:
        """What a call before the cycle at a place showed; the places don't fall."""
        self.until(place)
        index = place // self.width
        if index < len(self.columns):
            changed = self.columns[index] >> CHANGED | self.value ^ value
            self.columns[index] = value | changed << CHANGED
        self.value = value

    def call(self, place: int, value: int) -> None:
        """Shows a call, and begins its cycle's column with it."""
        self.show(place, value)
        self.until(place + 1)


def paired(columns: "array[int]") -> "array[int]":
    """Half as many columns, each of two that stand beside each other."""
    joined = array("L")
    for place in range(0, len(columns) - 1, 2):
        one, other = columns[place], columns[place + 1]
        joined.append(other & BITS | ((one | other) >> CHANGED | (one ^ other) & BITS) << CHANGED)
    joined.extend(columns[2 * len(joined):])
    return joined


def bits_of(execute: bool, outputs: str) -> int:
    """Execute and the outputs of a call, as bits."""
    return execute | sum(2 << place for place, letter in enumerate(LETTERS) if letter in outputs)


def signals(block: OfKind) -> tuple[str, ...]:
    """The names of the bits, for a block."""
    execute = "Enable" if block.kind == "Power" else "Execute"
    return (execute, *OUTPUTS, reached_name(block.kind))


def bit_names(words: Mapping[int, str]) -> list[str]:
    """The names of the 16 bits of a word, by its table."""
    return [words.get(place, f"bit {place}") for place in range(16)]


def runs(levels: Levels, cycles: int) -> list[list[int]]:
    """Columns beside each other with the same values, as from and to which cycle, what stood there
    and what stood otherwise too."""
    found: list[list[int]] = []
    for place, column in enumerate(levels.columns):
        start, end = place * levels.width, min((place + 1) * levels.width, cycles)
        if found and found[-1][2] == column & BITS and not column >> CHANGED:
            found[-1][1] = end
        else:
            found.append([start, end, column & BITS, column >> CHANGED])
    return found


def seen(levels: Levels, count: int) -> list[int]:
    """Which of these signals were ever true."""
    bits = levels.value
    for column in levels.columns:
        bits |= column | column >> CHANGED
    return [place for place in range(count) if bits >> place & 1]
