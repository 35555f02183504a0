"""Draws the timing of blocks from a trace of `motion`: Execute and the outputs, call by call.

    tools/trace_timing run.trace MX --config machine.toml --from 100ms --to 140ms

Each column is a call of the block, high where the input or output is true. Outputs that are never
true are left out. With a range only the calls after these cycles are drawn, and a line says which.
"""

import argparse
import sys
from collections.abc import Iterator, Sequence
from typing import Optional

from motion_tools import command
from motion_tools.blocks import reached_name
from motion_tools.trace import Call, Trace, lines_of
from motion_tools.units import Units

LOW, HIGH = "▁", "▇"
OUTPUTS = (("B", "Busy"), ("A", "Active"), ("D", "Done"), ("C", "CommandAborted"), ("E", "Error"))
Numbered = tuple[int, Call]             # a call, and how many cycles were before it


def parser() -> argparse.ArgumentParser:
    words = command.parser_of("trace_timing", __doc__)
    words.add_argument("trace", help="the file with the trace; - is the standard input")
    words.add_argument("blocks", nargs="*", metavar="block",
                       help="the names of blocks; left out, the first of the trace")
    command.add_range(words, "drawn")
    command.add_units(words)
    return words


def calls_of(trace: Trace, names: Sequence[str]) -> Iterator[Numbered]:
    """The calls of blocks in a trace, which is read to its end or to its fault."""
    before = 0
    for cycle in trace.cycles():
        yield from ((before, call) for call in cycle.calls if call.block in names)
        before = cycle.number
    yield from ((before, call) for call in trace.last_calls if call.block in names)


def line(title: str, values: Sequence[bool]) -> str:
    """A line of the picture."""
    return f"{title:<16}{''.join(HIGH if value else LOW for value in values)}"


def timing(kind: str, calls: Sequence[Call]) -> str:
    """The picture of the calls of a block of a kind."""
    outputs = OUTPUTS + (("R", reached_name(kind)),)
    lines = [line("Enable" if kind == "Power" else "Execute", [call.execute for call in calls])]
    for letter, title in outputs:
        values = [letter in call.outputs for call in calls]
        if any(values):
            lines.append(line(title, values))
    errors = sorted({call.error for call in calls if call.error})
    if errors:
        lines.append(f"{'ErrorID':<16}{', '.join(map(str, errors))}")
    return "".join(text + "\n" for text in lines)


def span(calls: Sequence[Numbered], units: Units) -> str:
    """The cycles after which the calls were made."""
    if not calls:
        return "no call\n"
    first, last = calls[0][0], calls[-1][0]
    times = f", {units.time_text(first)} to {units.time_text(last)}" if units.cycle_us else ""
    return f"{'Calls':<16}{len(calls)}, after cycles {first} to {last}{times}\n"


def write(trace: Trace, options: argparse.Namespace) -> None:
    """Writes the pictures of blocks, also where the trace turns out to be none after their
    calls."""
    kinds = {block.name: block.kind for block in trace.machine.blocks}
    names = options.blocks or [trace.machine.blocks[0].name]
    for name in names:
        if name not in kinds:
            raise LookupError(f"the trace has no block {name}, but {', '.join(kinds)}")
    first, last = command.range_of(options)
    units = command.units_of(options, trace.machine)
    found: dict[str, list[Numbered]] = {name: [] for name in names}
    try:
        for before, call in calls_of(trace, names):
            if first <= max(before, 1) and (last is None or before <= last):
                found[call.block].append((before, call))
    finally:
        sys.stdout.write("\n".join(picture(name, kinds[name], calls, options, units)
                                   for name, calls in found.items()))


def picture(name: str, kind: str, calls: Sequence[Numbered], options: argparse.Namespace,
            units: Units) -> str:
    """The picture of a block, with its name where there are several, and its span in a range."""
    title = f"{name} ({kind})\n" if len(options.blocks) > 1 else ""
    is_part: Optional[object] = options.first or options.last
    drawn = timing(kind, [call for _, call in calls])
    return title + drawn + (span(calls, units) if is_part else "")


def main() -> int:
    options = parser().parse_args()
    return command.ended("trace_timing", options.trace,
                         lambda: write(Trace(lines_of(options.trace)), options))
