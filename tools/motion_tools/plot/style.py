"""Colours, numbers and scales of the pictures of trace_plot.

The colours are those of Okabe and Ito, which colour-blind readers can tell apart; no meaning is
shown by a colour alone: states have their names, marks their shapes, errors their hatching.
"""

import math
from collections.abc import Sequence

STATE_COLOURS = {
    "Disabled": "#b0b4ba", "Standstill": "#d6e9f5", "Homing": "#cc79a7", "Stopping": "#e69f00",
    "DiscreteMotion": "#009e73", "ContinuousMotion": "#0072b2", "SynchronizedMotion": "#56b4e9",
    "ErrorStop": "#d55e00", "GroupDisabled": "#b0b4ba", "GroupStandby": "#d6e9f5",
    "GroupHoming": "#cc79a7", "GroupMoving": "#009e73", "GroupStopping": "#e69f00",
    "GroupErrorStop": "#d55e00"}
TOGETHER = (("#0072b2", ""), ("#d55e00", "7 3"), ("#009e73", "2 2"), ("#cc79a7", "8 3 2 3"))
LIGHT = {"page": "#ffffff", "panel": "#e9ebee", "band": "#f7fbff", "outer": "#f0f3f7",
         "ink": "#1b1f24", "muted": "#525a66", "grid": "#d3d9e0", "limit": "#6b7380",
         "position": "#0072b2", "reported": "#d55e00", "velocity": "#007a5a",
         "acceleration": "#9c3f78", "jerk": "#525a66", "overlay": "#8a6d1f",
         "error": "#d55e00", "Call": "#1b1f24", "Done": "#007a5a",
         "CommandAborted": "#b87700", "Error": "#c44e00"}
DARK = {"page": "#14181d", "panel": "#2a2f37", "band": "#171d25", "outer": "#20262e",
        "ink": "#e8eaed", "muted": "#aab2bd", "grid": "#343b45", "limit": "#8b95a3",
        "position": "#56b4e9", "reported": "#e69f00", "velocity": "#2fc99a",
        "acceleration": "#e19cc4", "jerk": "#aab2bd", "overlay": "#c9b26a",
        "error": "#ff7a33", "Call": "#e8eaed", "Done": "#2fc99a",
        "CommandAborted": "#f0b93a", "Error": "#ff7a33"}


def num(value: float) -> str:
    """A coordinate to a tenth of a pixel."""
    text = f"{value:.1f}"
    return text[:-2] if text.endswith(".0") else text


def number_text(value: float) -> str:
    """A number as it is shown, with a power of ten where it has more than seven places."""
    text = f"{value:.10g}" if value else "0"
    if len(text.lstrip("-")) <= 7:
        return text
    digits, power = f"{value:.4e}".split("e")
    short = f"{digits.rstrip('0').rstrip('.')}e{int(power)}"
    return short if len(short) < len(text) else text


def ticks(low: float, high: float, count: float) -> list[float]:
    """Round numbers from low to high, about this many."""
    step = 10.0 ** math.floor(math.log10((high - low) / count))
    step *= next(times for times in (1, 2, 5, 10) if (high - low) / (step * times) <= count)
    first = math.ceil(low / step - 1e-9)
    return [place * step for place in range(first, math.floor(high / step + 1e-9) + 1)]


def view(least: float, greatest: float, limits: Sequence[float],
         whole: bool = False) -> tuple[float, float]:
    """From where to where a panel shows: the values, and each limit that leaves them a quarter
    of the height, or all limits; where nothing moves, all limits too."""
    low, high, moved = least, greatest, greatest - least
    for limit in sorted(limits, key=lambda limit: max(least - limit, limit - greatest)):
        wide = max(high, limit) - min(low, limit)
        if whole or not moved or wide <= 4 * moved:
            low, high = min(low, limit), max(high, limit)
    margin = max((high - low) * 0.07, 1e-12)
    return low - margin, high + margin
