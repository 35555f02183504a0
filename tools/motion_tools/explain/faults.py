"""A fault of a text: where it stands, which rule it breaks, and how it is shown."""

from collections.abc import Sequence
from dataclasses import dataclass
from typing import Optional


@dataclass(frozen=True)
class Fault:
    """What breaks a rule: the line counted from 1, the column counted from 0, how many characters
    are marked, what is wrong there in words, and the word that stands there. A column of -1 marks
    nothing."""

    rule: str
    line: int
    column: int = -1
    length: int = 1
    says: str = ""
    word: str = ""


def chosen(faults: Sequence[Fault], line: int, rule: str) -> Optional[Fault]:
    """The fault that the program reported: the first one of a line by a rule."""
    return next((fault for fault in faults if (fault.line, fault.rule) == (line, rule)), None)


def marked(text: str, column: int, length: int) -> str:
    """A line of a text, and below it a mark under some of its characters; of a long line the part
    around the mark."""
    text = text.rstrip("\r\n").expandtabs(1)
    if column < 0:
        return f"    {cut(text)}\n"
    start = max(0, column - 60) if len(text) > 100 else 0
    shown = text[start:start + 100]
    before, after = ".." * (start > 0), ".." * (start + 100 < len(text))
    mark = " " * (len(before) + column - start) + "^" + "~" * (min(length, 100) - 1)
    return f"    {before}{shown}{after}\n    {mark}\n"


def cut(text: str) -> str:
    """A line, of which at most 100 characters are shown."""
    return text if len(text) <= 100 else text[:100] + ".."
