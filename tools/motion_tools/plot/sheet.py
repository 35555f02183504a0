"""The sheet that a picture is drawn on, from above, and what its drawers share."""

from collections.abc import Callable, Sequence
from dataclasses import dataclass, field
from typing import Any, Optional
from xml.sax.saxutils import escape

from motion_tools.plot.reader import Lane, Trace, join
from motion_tools.plot.style import num
from motion_tools.units import Units

LEFT, RIGHT = 112, 150


@dataclass
class Sheet:
    """A picture that is drawn from above; `y` is how far it is, in pixels."""

    trace: Trace
    units: Units
    theme: dict[str, str]
    width: int
    whole: bool
    outputs: bool = False
    following: bool = False                     # the following error and the reported velocity
    jerk: bool = False                          # the change of acceleration
    words: bool = False                         # the bits of statusword and controlword
    overlay: Optional[Trace] = None             # a second trace, and its name
    overlay_name: str = ""
    together: Sequence[Sequence[str]] = ()      # axes that share panels
    y: float = 0
    parts: list[str] = field(default_factory=list)

    @property
    def plot(self) -> int:
        """How wide the panels are, in pixels."""
        return self.width - LEFT - RIGHT

    def x(self, cycles: float) -> float:
        """Where the end of a cycle stands, counted from the first one of the picture."""
        return LEFT + cycles * self.plot / max(self.trace.cycles, 1)

    def put(self, text: str) -> None:
        """Adds an element."""
        self.parts.append(text)

    def text(self, x: float, y: float, words: str, style: str = "", fill: str = "ink") -> None:
        """Adds words."""
        self.put(f'<text x="{num(x)}" y="{num(y)}" class="{fill}"{style}>{escape(words)}</text>')

    def box(self, x: float, y: float, width: float, height: float, style: str,
            told: str = "") -> None:
        """Adds a box, with what is shown where a pointer rests on it."""
        end = f"><title>{escape(told)}</title></rect>" if told else "/>"
        self.put(f'<rect x="{num(x)}" y="{num(y)}" width="{num(width)}" height="{num(height)}" '
                 f'{style}{end}')

    def path(self, steps: str, style: str) -> None:
        """Adds a path."""
        self.put(f'<path d="{steps}" {style}/>')


def thinned(sheet: Sheet, lane: Lane) -> list[list[Any]]:
    """The columns of a lane, one for each pixel: from and to which cycle, and the column."""
    found: list[list[Any]] = []
    last = -1
    for place, column in enumerate(lane.columns):
        start = place * lane.width
        end = min(start + lane.width, sheet.trace.cycles)
        if start >= end:
            break
        pixel = start if sheet.trace.cycles <= sheet.plot else int(sheet.x(start) - LEFT)
        if pixel == last:
            join(found[-1][2], column)
            found[-1][1] = end
        else:
            found.append([start, end, list(column)])
        last = pixel
    return found


def spans(columns: Sequence[Sequence[Any]], key: Callable[[Any], Any]) -> list[list[Any]]:
    """Columns beside each other with one key, as from, to and key."""
    found: list[list[Any]] = []
    for start, end, column in columns:
        if found and found[-1][2] == key(column):
            found[-1][1] = end
        else:
            found.append([start, end, key(column)])
    return found
