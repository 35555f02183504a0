"""Prints the edges of digital cam switches, whose positions stand in the machine's units.

    tools/switches run.trace gun.switches --config machine.toml > gun.edges
    tools/switches run.trace gun.switches --config machine.toml --times

With --config or --scale the switch file has its positions as decimal numbers in the units of the
axes, `switch GUN BELT 120.5 480 3`; without, in internal units. `motion switches` finds the edges,
so the trace is verified too. A switch that never goes on is reported with the way that its axis
took.
"""

import argparse
import subprocess
import sys
import tempfile
from fractions import Fraction
from pathlib import Path
from typing import Optional

from motion_tools import command, programs
from motion_tools.explain import lines
from motion_tools.explain.faults import Fault, chosen
from motion_tools.explain.findings import Finding, words_of
from motion_tools.explain.refusals import MOST, finding_of
from motion_tools.explain.switch_units import small_positions
from motion_tools.explain.texts import kind_by_text
from motion_tools.explain.verdicts import verdict_findings
from motion_tools.plot.edges import EdgeError, read_edges
from motion_tools.trace import Machine, ReadFault, Trace, lines_of
from motion_tools.units import Units

STATUSES = """\
ends with the status of `motion switches`; with 2 where an option is faulty, with 4 where a file
can't be read"""


def parser() -> argparse.ArgumentParser:
    words = command.parser_of("switches", __doc__, STATUSES)
    words.add_argument("trace", help="the file with the trace")
    words.add_argument("file", help="the switch file")
    words.add_argument("--times", action="store_true",
                       help="a table with times and positions in place of edges")
    words.add_argument("--motion", metavar="FILE",
                       help="the program; left out, the proved one where it is built, else the "
                       "unproved one of tools/preview")
    command.add_units(words)
    return words


def main() -> int:
    options = parser().parse_args()
    statuses: list[int] = []
    try:
        status = command.ended("switches", options.trace, lambda: statuses.append(turn(options)))
    except programs.NotBuilt as error:
        return command.fail("switches", str(error), command.NOT_BUILT)
    return status or statuses[0]


def turn(options: argparse.Namespace) -> int:
    """Finds the edges, writes them, and gives the status. Raises LookupError."""
    if kind_by_text(options.trace) == "switches" or kind_by_text(options.file) == "trace":
        raise LookupError("the trace is the first word and the switch file the second: "
                          f"tools/switches {options.file} {options.trace}")
    machine = Trace(lines_of(options.trace)).machine
    units = command.units_of(options, machine)
    text = text_of(options.file)
    made = ran(options, converted(text, units))
    if made.returncode:
        sys.stderr.write(words_of(failure(options, made.stdout, text, machine)))
        return made.returncode
    sys.stdout.write(times(made.stdout, units) if options.times else made.stdout)
    found = idle(options, text, made.stdout, units)
    if not units.scales:
        found = [*small_positions(machine, options.file, text, units), *found]
    sys.stderr.write(words_of(found))
    return command.READ


def text_of(name: str) -> str:
    """The text of a switch file. Raises ReadFault."""
    try:
        return Path(name).read_text(encoding="utf-8", errors="surrogateescape")
    except OSError as error:
        raise ReadFault(f"cannot read {name}: {error.strerror}") from None


def converted(text: str, units: Units) -> str:
    """A switch file in internal units. Words that are no decimal numbers stay, and so do lines that
    are no switch: `motion switches` says what is wrong with them."""
    return "".join(converted_line(line, units) for line in text.splitlines(keepends=True))


def converted_line(line: str, units: Units) -> str:
    words = lines.words_of(line)
    scale = units.of(words[2]) if len(words) == 6 and words[0] == "switch" else None
    if scale is None:
        return line
    return " ".join([*words[:3], *(internal(word, scale.factor) for word in words[3:])]) + "\n"


def internal(word: str, factor: float) -> str:
    """A decimal number in internal units, rounded to a whole one."""
    if not lines.QUANTITY.fullmatch(word):
        return word
    return str(round(Fraction(word) / Fraction(repr(factor))))


def ran(options: argparse.Namespace, text: str) -> "subprocess.CompletedProcess[str]":
    """What `motion switches` makes of a text."""
    with tempfile.NamedTemporaryFile("w", suffix=".switches", encoding="utf-8",
                                     errors="surrogateescape") as file:
        file.write(text)
        file.flush()
        program = options.motion or str(programs.chosen("switches"))
        return subprocess.run([program, "switches", options.trace, file.name], check=False,
                              capture_output=True, encoding="utf-8")


def failure(options: argparse.Namespace, output: str, text: str, machine: Machine) -> list[Finding]:
    """What is wrong with the switch file or the trace."""
    words = output.split()
    if words[:1] != ["refused"] or not words[-1].startswith("K"):
        found, _ = verdict_findings([options.trace], output.splitlines() or [""])
        return found
    place, rule = int(words[-2]), words[-1]
    axes = [axis.name for axis in machine.axes]
    fault = chosen([each for each in lines.faults_at(text, place, lines.Context("switches", axes))
                    if each.says], place, rule) or Fault(rule, place)
    more = lines.faults_below(text, place, lines.Context("switches", axes))
    return [finding_of("switches", options.file, text, each) for each in [fault, *more[:MOST]]]


def times(edges: str, units: Units) -> str:
    """The edges as a table with times."""
    rows = [line.split() for line in edges.splitlines()]
    width = max([len(row[0]) for row in rows] + [len("switch")])
    parts = [f"{'switch':<{width}}  {'cycle':>7}  {'time':>12}  edge\n"]
    for name, cycle, edge in rows:
        parts.append(f"{name:<{width}}  {cycle:>7}  {units.time_text(int(cycle)):>12}  {edge}\n")
    return "".join(parts)


def idle(options: argparse.Namespace, text: str, edges: str, units: Units) -> list[Finding]:
    """Switches without an edge, with the way of their axis."""
    try:
        seen = set(read_edges(edges.splitlines()))
    except EdgeError:
        return []
    found = [(number, line, words) for number, line in enumerate(text.splitlines(), 1)
             if (words := lines.words_of(line))[:1] == ["switch"] and words[1] not in seen]
    ways = ways_of(options.trace, {words[2] for _, _, words in found}) if found else {}
    return [Finding("warning", "never-on", f"the switch {words[1]} never goes on: {words[2]} goes "
                    f"{way_text(words[2], ways.get(words[2]), units)}",
                    cure_of(words[2], units), "", options.file, number, 0, 1, line)
            for number, line, words in found]


def ways_of(trace: str, names: set[str]) -> dict[str, tuple[int, int]]:
    """From where to where axes go in a trace."""
    ways: dict[str, tuple[int, int]] = {}
    for cycle in Trace(lines_of(trace)).cycles():
        for name in names:
            at = cycle.rows[name].setpoint
            low, high = ways.get(name, (at, at))
            ways[name] = (min(low, at), max(high, at))
    return ways


def way_text(axis: str, way: Optional[tuple[int, int]], units: Units) -> str:
    if way is None:
        return "nowhere, as there is no cycle"
    return f"from {units.text(axis, way[0])} to {units.text(axis, way[1])}"


def cure_of(axis: str, units: Units) -> str:
    """What may be meant."""
    if units.of(axis) is None:
        return ("positions are in internal units, billionths of a configuration's unit: give "
                "--config for a file in the machine's units")
    return "give positions between which the axis comes, by HYST inside of them"
