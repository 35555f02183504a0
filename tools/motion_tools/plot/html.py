"""The picture of a trace as one HTML file with zoom and a cursor, loading nothing."""

import json
from collections.abc import Sequence
from html import escape
from pathlib import Path
from typing import Any, Optional

from motion_tools.plot.edges import spans as on_spans
from motion_tools.plot.legend import SHAPES, seen_in, states_seen
from motion_tools.plot.levels import CONTROLWORD, STATUSWORD, bit_names, runs, seen, signals
from motion_tools.plot.panels import JERK_HEIGHT, PANELS, limits_of
from motion_tools.plot.reader import (AXIS_STATES, FOLLOWING, GROUP_STATES, JERK, REPORTED_VELOCITY,
                                      Axis, Block, Lane, Trace, Words)
from motion_tools.plot.sheet import Sheet, spans
from motion_tools.plot.style import DARK, LIGHT, STATE_COLOURS
from motion_tools.plot.words import told_of

Switches = dict[str, list[int]]         # the cycles at which each switch turns
FOLDER = Path(__file__).parent / "page"
SCRIPTS = ("pen", "curves", "section", "lanes", "cursor", "plane", "together", "events", "moving")
LINES = (("position", 0), ("velocity", 2), ("acceleration", 4), ("reported", 6),
         ("following", FOLLOWING), ("reportedVelocity", REPORTED_VELOCITY), ("jerk", JERK))
OF_DRIVE = ("reported", "following", "reportedVelocity")
FOLLOWING_HEIGHT = 60


def page(sheet: Sheet, title: str, switches: Optional[Switches] = None) -> str:
    """The text of the page: the template with its script, its colours, its title and its
    numbers."""
    text = read("page.html")
    script = "\n".join(read(f"{name}.js") for name in SCRIPTS)
    data = json.dumps(page_data(sheet, switches or {}), separators=(",", ":"), ensure_ascii=False)
    for mark, words in (("/*SCRIPTS*/", script), ("/*LIGHT*/", variables(LIGHT)),
                        ("/*DARK*/", variables(DARK)), ("<!--TITLE-->", escape(title)),
                        ("/*DATA*/", data.replace("<", "\\u003c"))):
        text = text.replace(mark, words)
    return text


def read(name: str) -> str:
    """The text of a file of the page."""
    return (FOLDER / name).read_text(encoding="utf-8")


def variables(theme: dict[str, str]) -> str:
    """A theme as CSS variables."""
    return "".join(f"--{name}:{colour};" for name, colour in theme.items())


def page_data(sheet: Sheet, switches: Switches) -> dict[str, object]:
    """What the page's script draws."""
    trace, units = sheet.trace, sheet.units
    factor, name = units.of_time(trace.first + trace.cycles)
    owners: list[tuple[Any, Sequence[str]]] = [(owner, GROUP_STATES)
                                               for owner in trace.groups.values()]
    owners += [(owner, AXIS_STATES) for owner in trace.axes.values()]
    sections = [section(sheet, owner, states) for owner, states in owners]
    return {"first": trace.first, "cycles": trace.cycles, "timeFactor": factor, "timeName": name,
            "whole": sheet.whole, "width": max(owner.lane.width for owner, _ in owners),
            "colours": STATE_COLOURS, "shapes": SHAPES,
            "legend": sorted(seen_in(trace)) + ["jerk"] * sheet.jerk + states_seen(trace),
            "outputs": sheet.outputs, "following": sheet.following, "bits": sheet.words,
            "overlay": sheet.overlay_name, "together": [list(names) for names in sheet.together],
            "edges": [[cycle, name, "off" if place % 2 else "on"]
                      for name, turns in switches.items() for place, cycle in enumerate(turns)],
            "sections": sections + ([switch_section(trace, switches)] if switches else [])}


def switch_section(trace: Trace, switches: Switches) -> dict[str, object]:
    """The digital cam switches: a lane for each."""
    last = trace.first + trace.cycles - 1
    blocks = []
    for name, turns in switches.items():
        runs_of = [[start - trace.first, end - trace.first + 1, 1, 0]
                   for start, end in on_spans(turns, trace.first, last)]
        blocks.append({"name": "", "kind": "", "before": 0, "value": 0,
                       "runs": with_gaps(runs_of, trace.cycles), "signals": [[name, 0]],
                       "shown": "always"})
    return {"title": "Switches", "width": 1, "marks": [], "strip": [], "panels": [],
            "blocks": blocks, "text": "Switches: " + ", ".join(switches) + "."}


def with_gaps(spans_on: list[list[int]], cycles: int) -> list[list[int]]:
    """Spans in which a switch is on, with those between them in which it is off."""
    found, at = [], 0
    for start, end, value, both in spans_on:
        if at < start:
            found.append([at, start, 0, 0])
        found.append([start, end, value, both])
        at = end
    return found + ([[at, cycles, 0, 0]] if at < cycles else [])


def section(sheet: Sheet, owner: Any, states: Sequence[str]) -> dict[str, object]:
    """An axis or a group: its states as spans, its marks, and the panels and lines of an axis."""
    trace, units, lane = sheet.trace, sheet.units, owner.lane
    blocks = [block for block in trace.blocks.values() if block.on is owner and block.levels.called]
    columns = [(place * lane.width, min((place + 1) * lane.width, trace.cycles), column)
               for place, column in enumerate(lane.columns)]
    found = {"width": lane.width, "marks": owner.marks.in_order(),
             "text": told_of(trace, units, owner, states),
             "blocks": [outputs_of(block, trace.cycles) for block in blocks], "strip": [
        [start, end, *key] for start, end, key in spans(columns, lambda column: (
            states[column[8].bit_length() - 1], column[9]))]}
    if not isinstance(owner, Axis):
        return {**found, "title": f"Group {owner.name}: {', '.join(owner.members)}", "panels": []}
    told = units.of_axis(owner.name)
    drawn = [(name, height) for name, _, height in PANELS] + [("jerk", JERK_HEIGHT)] * sheet.jerk
    panels = [{"name": name, "factor": told[name][0], "unit": told[name][1], "height": height,
               "limits": limits_of(owner, name)} for name, height in drawn]
    if owner.has_reported:
        panels.append({"name": "following", "factor": told["position"][0],
                       "unit": told["position"][1], "height": FOLLOWING_HEIGHT, "limits": []})
    if owner.words:
        found["blocks"] += words_of(owner.words, trace.cycles)
    other = sheet.overlay.axes.get(owner.name) if sheet.overlay else None
    return {**found, "title": "Setpoints" if owner.is_table else f"Axis {owner.name}",
            "strip": [] if owner.is_table else found["strip"], "origin": owner.origin,
            "panels": panels, "increment": owner.increment, "breaks": breaks(lane),
            "lines": lines_of(owner, sheet.jerk),
            "other": {"width": other.lane.width, "origin": other.origin,
                      "lines": lines_of(other, sheet.jerk),
                      "breaks": breaks(other.lane)} if other else None}


def lines_of(axis: Axis, with_jerk: bool) -> dict[str, list[list[Optional[int]]]]:
    """The lines of an axis; those of its drive where that reports something."""
    return {name: ends(axis.lane, place) for name, place in LINES
            if (name not in OF_DRIVE or axis.has_reported) and (name != "jerk" or with_jerk)}


def outputs_of(block: Block, cycles: int) -> dict[str, object]:
    """A block and its levels, of the signals that were ever true."""
    names, levels = signals(block), block.levels
    return {"name": block.name, "kind": block.kind, "before": levels.before, "value": levels.value,
            "runs": runs(levels, cycles), "shown": "outputs",
            "signals": [(names[place], place) for place in seen(levels, len(names))]}


def words_of(words: Words, cycles: int) -> list[dict[str, object]]:
    """The bits of a statusword and a controlword that were ever true."""
    return [{"name": name, "kind": "", "before": levels.before, "value": levels.value,
             "runs": runs(levels, cycles), "shown": "bits",
             "signals": [(bit_names(table)[place], place) for place in seen(levels, 16)]}
            for name, levels, table in (("statusword", words.status, STATUSWORD),
                                        ("controlword", words.control, CONTROLWORD))]


def breaks(lane: Lane) -> list[list[int]]:
    """The columns in which lines break, as from, to and how."""
    columns = [(place, place + 1, column) for place, column in enumerate(lane.columns)]
    return [span for span in spans(columns, lambda column: column[10]) if span[2]]


def ends(lane: Lane, place: int) -> list[list[Optional[int]]]:
    """The least and the greatest values of a line, one list where each column is a cycle."""
    return [[column[part] for column in lane.columns]
            for part in ((place,) if lane.width == 1 else (place, place + 1))]
