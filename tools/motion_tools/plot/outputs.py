"""Lanes of Execute and the outputs of blocks, as the standard's timing figures draw them."""

from collections.abc import Iterable, Sequence
from typing import Any

from motion_tools.plot.levels import CONTROLWORD, STATUSWORD, bit_names, runs, seen, signals
from motion_tools.plot.reader import Block, Words
from motion_tools.plot.sheet import Sheet
from motion_tools.plot.style import num

LANE, GAP, STUB = 17, 7, 12
HIGH, LOW = 4, 14               # where the lines stand in a lane, from above
MARKS = {"Done": "Done", "CommandAborted": "CommandAborted", "Error": "Error"}


def draw_outputs(sheet: Sheet, blocks: Iterable[Block]) -> None:
    """The lanes of the blocks that were called."""
    for block in blocks:
        if block.levels.called:
            draw_block(sheet, block)


def draw_block(sheet: Sheet, block: Block) -> None:
    """A lane for each signal of a block that was ever true, its name and kind at the right."""
    sheet.y += GAP
    top, right = sheet.y, sheet.x(sheet.trace.cycles) + STUB + 8
    sheet.text(right, top + 13, block.name, ' style="font-weight:bold"')
    sheet.text(right, top + 13 + LANE, block.kind, "", "muted")
    names, spans = signals(block), runs(block.levels, sheet.trace.cycles)
    for place in seen(block.levels, len(names)):
        told = [(start, end, at >> place & 1, changed >> place & 1)
                for start, end, at, changed in spans]
        ends = [value >> place & 1 for value in (block.levels.before, block.levels.value)]
        draw_lane(sheet, names[place], told, ends)
    sheet.y = max(sheet.y, top + 2 * LANE)


def draw_words(sheet: Sheet, words: Words) -> None:
    """A lane for each bit of an axis's statusword and controlword that was ever true."""
    for title, levels, table in (("statusword", words.status, STATUSWORD),
                                 ("controlword", words.control, CONTROLWORD)):
        sheet.y += GAP
        top, names = sheet.y, bit_names(table)
        right = sheet.x(sheet.trace.cycles) + STUB + 8
        sheet.text(right, top + 13, title, ' style="font-weight:bold"')
        spans = runs(levels, sheet.trace.cycles)
        for place in seen(levels, 16):
            told = [(start, end, at >> place & 1, changed >> place & 1)
                    for start, end, at, changed in spans]
            ends = [value >> place & 1 for value in (levels.before, levels.value)]
            draw_lane(sheet, names[place], told, ends)
        sheet.y = max(sheet.y, top + LANE)


def draw_lane(sheet: Sheet, name: str, spans: Sequence[Sequence[int]], ends: Sequence[int]) -> None:
    """A signal, with what it was before the first cycle and what the last call showed: high where
    it was true, a stroke where it was both within a pixel, and a stub after the last cycle."""
    colour = sheet.theme[MARKS.get(name, "muted")]
    sheet.text(sheet.x(0) - 8, sheet.y + 13, name, ' text-anchor="end"', "muted")
    end = sheet.x(sheet.trace.cycles)
    drawn = [*corners(sheet, spans), (end, end + STUB, ends[1], 0)]
    high = "".join(f"M{num(start)} {num(sheet.y + HIGH)}H{num(stop)}V{num(sheet.y + LOW)}"
                   f"H{num(start)}z" for start, stop, value, _ in drawn if value and stop > start)
    if high:
        sheet.path(high, f'style="fill:{colour};fill-opacity:.22"')
    sheet.path(wave(sheet, drawn, ends[0]), f'style="stroke:{colour};stroke-width:1.4"')
    sheet.y += LANE


def wave(sheet: Sheet, drawn: Sequence[Sequence[Any]], level: int) -> str:
    """The line of a signal that begins at a level."""
    at = [num(sheet.y + LOW), num(sheet.y + HIGH)]
    steps = [f"M{num(sheet.x(0))} {at[level]}"]
    for start, stop, value, both in drawn:
        if both:
            steps.append(f"H{num(start)}V{at[not level]}V{at[level]}")
        if value != level:
            steps.append(f"H{num(start)}V{at[value]}")
        steps.append(f"H{num(stop)}")
        level = value
    return "".join(steps)


def corners(sheet: Sheet, spans: Sequence[Sequence[int]]) -> list[list[Any]]:
    """The spans with one value in pixels, joined."""
    found: list[list[Any]] = []
    for start, end, value, both in spans:
        if found and found[-1][2] == value and not both:
            found[-1][1] = sheet.x(end)
        else:
            found.append([sheet.x(start), sheet.x(end), value, both])
    return found
