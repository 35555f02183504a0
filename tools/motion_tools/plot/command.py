"""Draws a trace of motion: as an SVG, or with --html as one page with zoom and a cursor.

Each axis has three panels over the cycles: the setpoint's position, its velocity (the step of a
cycle) and its acceleration (the change of step), with the axis's limits as bands, its PLCopen state
as a strip, spans of errors, and the calls of its blocks with their results. Groups have strips of
their own, and so have the digital cam switches whose edges are given. Numbers are those of the
trace, internal units and cycles, unless --config, --cycle-us or --scale give others. The same trace
and options give the same bytes.

A text that is no trace ends the program with status 3 and a line that names the record; what was
read of it until then is drawn, if there was a machine. A file that can't be read ends it with 4, an
output that can't be written with 6, a faulty command line with 2.
"""

import argparse
import sys
from pathlib import Path

from motion_tools import command
from motion_tools.plot import files, html, svg
from motion_tools.plot.edges import EdgeError, read_edges
from motion_tools.plot.reader import Trace, read_trace
from motion_tools.plot.sheet import Sheet
from motion_tools.plot.style import DARK, LIGHT
from motion_tools.trace import lines_of
from motion_tools.units import Units


def parser() -> argparse.ArgumentParser:
    """The words of the command line."""
    words = command.parser_of("trace_plot", __doc__, command.STATUSES)
    words.add_argument("trace", help="a trace of version 1, 2 or 3, or a table of setpoints, as "
                                      "c/otg_move.c prints it; - for the standard input")
    words.add_argument("-o", "--output",
                        help="the file to write: a page where its name ends with .html, a PNG or a "
                             "PDF where it ends so and rsvg-convert, inkscape or chromium is there, "
                             "else an SVG; left out, the standard output")
    words.add_argument("--html", action="store_true",
                        help="a page in place of an SVG, whatever the name of the file")
    words.add_argument("--dark", action="store_true",
                        help="dark colours for the SVG; the page follows the reader's settings")
    words.add_argument("--outputs", action="store_true",
                        help="lanes of Execute and the outputs of each block, as the standard's "
                             "timing figures have them")
    words.add_argument("--edges", metavar="FILE",
                        help="the edges of digital cam switches in this trace, as `motion "
                             "switches` writes them: a lane for each")
    words.add_argument("--following", action="store_true",
                        help="a panel of the following error, and the velocity of the drive")
    words.add_argument("--jerk", action="store_true",
                        help="a panel of the jerk, the change of acceleration")
    words.add_argument("--bits", action="store_true",
                        help="lanes of the bits of statusword and controlword")
    words.add_argument("--together", metavar="X,Y", action="append", default=[],
                        help="two to four axes in one panel; may be given several times")
    words.add_argument("--overlay", metavar="TRACE",
                        help="a second trace, whose lines are drawn dotted below those of its axes "
                             "of the same names")
    words.add_argument("--title", help="the title; left out, the trace's axes and cycles")
    command.add_range(words, "drawn")
    words.add_argument("--width", type=int, default=1100,
                        help="of the SVG, in pixels; 500 to 8000")
    words.add_argument("--columns", type=int, default=8192,
                        help="of the page: how many values a line keeps, 256 to 1000000; of "
                             "more cycles the least and greatest values of 2, 4, 8 .. are kept")
    words.add_argument("--whole-limits", action="store_true",
                        help="all limits in view, also where the motion is small beside them")
    command.add_units(words)
    return words


def check_words(parser: argparse.ArgumentParser, given: argparse.Namespace) -> None:
    """Ends the program where a word is out of its range."""
    if not 500 <= given.width <= 8000:
        parser.error("--width is from 500 to 8000")
    if not 256 <= given.columns <= 1_000_000:
        parser.error("--columns is from 256 to 1000000")
    if given.output is None and sys.stdout.isatty():
        parser.error("the picture wants a file, as -o picture.svg, and not a terminal")
    if given.output and (why := files.refusal(given.output)):
        parser.error(why)
    given.html = given.html or files.is_page(given.output or "")


def trace_of(given: argparse.Namespace, name: str) -> Trace:
    """A trace, with as many columns as the picture can use."""
    limit = given.columns if given.html else 2 * given.width
    return read_trace(lines_of(name), *command.range_of(given), limit, given.bits)


def together_of(given: argparse.Namespace, trace: Trace) -> list[list[str]]:
    """The axes that share panels. Raises LookupError."""
    found = [names.split(",") for names in given.together]
    for names in found:
        for name in names:
            if name not in trace.axes:
                raise LookupError(f"--together {','.join(names)}: the trace has no axis {name}")
        if not 2 <= len(names) <= 4:
            raise LookupError("--together takes two to four axes, as X,Y")
    return found


def title_of(trace: Trace) -> str:
    """The title of a picture that has none: the axes, and which cycles."""
    names = ", ".join(trace.axes) if len(trace.axes) <= 6 else f"{len(trace.axes)} axes"
    kind = "Table" if any(axis.is_table for axis in trace.axes.values()) else "Trace"
    last = trace.first + trace.cycles - 1
    return f"{kind} of {names}: " + (
        f"cycles {trace.first} to {last}" if trace.cycles else "no cycle") + (
        ", cut short" if trace.fault else "")


def picture_of(trace: Trace, units: Units, given: argparse.Namespace) -> str:
    """The text of the picture that is asked for."""
    title = given.title if given.title is not None else title_of(trace)
    switches = None if given.edges is None else read_edges(lines_of(given.edges))
    overlay = trace_of(given, given.overlay) if given.overlay else None
    sheet = Sheet(trace, units, DARK if given.dark else LIGHT, given.width, given.whole_limits,
                  given.outputs, given.following, given.jerk, given.bits, overlay,
                  Path(given.overlay).stem if given.overlay else "", together_of(given, trace))
    return html.page(sheet, title, switches) if given.html else svg.svg(sheet, title, switches)


def turn(given: argparse.Namespace) -> None:
    """Reads the trace and writes its picture; a fault of the trace is raised after that."""
    trace = trace_of(given, given.trace)
    text = picture_of(trace, command.units_for(given, set(trace.axes)), given)
    files.write(text, given.output)
    if trace.fault:
        raise trace.fault


def main() -> int:
    """Reads the trace and writes its picture; the exit status."""
    words = parser()
    given = words.parse_args()
    check_words(words, given)
    try:
        return command.ended("trace_plot", given.trace, lambda: turn(given))
    except EdgeError as fault:
        return command.fail("trace_plot", f"refused {given.edges}: {fault}", command.REFUSED)
