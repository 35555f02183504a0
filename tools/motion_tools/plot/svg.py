"""The picture of a trace as SVG: the same trace and options give the same bytes."""

from collections.abc import Sequence
from typing import Optional, Union
from xml.sax.saxutils import escape

from motion_tools.plot.edges import draw_edges
from motion_tools.plot.legend import KINDS, draw_head, draw_shape
from motion_tools.plot.lines import Columns
from motion_tools.plot.outputs import draw_outputs, draw_words
from motion_tools.plot.panels import JERK_HEIGHT, PANELS, draw_panel, draw_time
from motion_tools.plot.reader import AXIS_STATES, FOLLOWING, GROUP_STATES, JERK, Axis, Group
from motion_tools.plot.sheet import LEFT, Sheet, spans, thinned
from motion_tools.plot.style import STATE_COLOURS, num
from motion_tools.plot.together import draw_together, together_style
from motion_tools.plot.words import told_of

ROW, STRIP = 16, 18
LABEL_ROWS, GUIDES = 6, 40
FONT = "font-family:'DejaVu Sans',Verdana,Arial,sans-serif"


def svg(sheet: Sheet, title: str, switches: Optional[dict[str, list[int]]] = None) -> str:
    """The text of the picture that an empty sheet becomes, with the lanes of switches where there
    are some."""
    trace, width = sheet.trace, sheet.width
    draw_head(sheet, title)
    for names in sheet.together:
        draw_together(sheet, names)
    for group in trace.groups.values():
        draw_section(sheet, group, GROUP_STATES, f"Group {group.name}: {', '.join(group.members)}")
    for axis in trace.axes.values():
        draw_section(sheet, axis, AXIS_STATES, "" if axis.is_table else f"Axis {axis.name}")
    if switches is not None:
        draw_edges(sheet, switches)
        draw_time(sheet)
    height = num(sheet.y + 8)
    head = (f'<svg xmlns="http://www.w3.org/2000/svg" width="{width}" height="{height}" '
            f'viewBox="0 0 {width} {height}" role="img">\n<title>{escape(title)}</title>\n'
            f'<desc>{escape(described(sheet))}</desc>\n'
            f'<style>{style_sheet(sheet.theme)}{more_style(sheet)}</style>\n'
            f'<defs>{hatching(sheet.theme)}</defs>\n'
            f'<rect width="{width}" height="{height}" fill="{sheet.theme["page"]}"/>\n')
    return head + "\n".join(sheet.parts) + "\n</svg>\n"


def described(sheet: Sheet) -> str:
    """What the picture shows, in words."""
    owners: list[tuple[str, Union[Axis, Group], Sequence[str]]] = [
        (f"Group {group.name}", group, GROUP_STATES) for group in sheet.trace.groups.values()]
    owners += [(f"Axis {axis.name}", axis, AXIS_STATES) for axis in sheet.trace.axes.values()]
    return " ".join(f"{title}: {told_of(sheet.trace, sheet.units, owner, states)}"
                    for title, owner, states in owners)


def style_sheet(theme: dict[str, str]) -> str:
    """The classes of the elements."""
    lines = "".join(f".{name}{{stroke:{theme[name]};stroke-width:1.6}}"
                    for name in ("position", "velocity", "acceleration", "reported"))
    marks = "".join(f".{kind}{{fill:{theme[kind]}}}.g{kind}{{stroke:{theme[kind]}}}"
                    for kind in KINDS)
    return (f"text{{{FONT};font-size:11px}}.ink{{fill:{theme['ink']}}}"
            f".muted{{fill:{theme['muted']}}}path{{fill:none;stroke-linejoin:round}}"
            f"{lines}.reported{{stroke-width:1.4;stroke-dasharray:4 3}}"
            f".loose{{stroke:{theme['position']};stroke-width:1.6;stroke-dasharray:1.5 3}}"
            f".grid{{stroke:{theme['grid']}}}.zero{{stroke:{theme['limit']};stroke-width:.7}}"
            f".limit{{stroke:{theme['limit']};stroke-dasharray:6 4}}{marks}"
            ".gCall,.gDone,.gCommandAborted,.gError{stroke-dasharray:2 3;opacity:.55}"
            f".frame{{fill:none;stroke:{theme['limit']}}}")


def more_style(sheet: Sheet) -> str:
    """The classes of what is drawn only where it is asked for."""
    overlay = (f".overlay{{stroke:{sheet.theme['overlay']};stroke-width:1.8;stroke-dasharray:2 2}}"
               if sheet.overlay else "")
    following = (f".following{{stroke:{sheet.theme['reported']};stroke-width:1.6}}"
                 if sheet.following else "")
    jerk = f".jerk{{stroke:{sheet.theme['jerk']};stroke-width:1.6}}" if sheet.jerk else ""
    return overlay + following + jerk + (together_style() if sheet.together else "")


def hatching(theme: dict[str, str]) -> str:
    """The pattern of an error span."""
    return ('<pattern id="hatch" width="8" height="8" patternUnits="userSpaceOnUse" '
            'patternTransform="rotate(45)"><rect width="8" height="8" '
            f'fill="{theme["error"]}" fill-opacity=".13"/><rect width="2.5" height="8" '
            f'fill="{theme["error"]}" fill-opacity=".55"/></pattern>')


def draw_section(sheet: Sheet, owner: Union[Axis, Group], states: Sequence[str],
                 title: str) -> None:
    """What is shown of an axis or a group, its time axis at the bottom; of one without a title its
    panels alone."""
    columns, guides = thinned(sheet, owner.lane), []
    if title:
        sheet.y += 26
        sheet.text(16, sheet.y, title, ' style="font-size:14px;font-weight:bold"')
        sheet.y += 8
        guides = draw_marks(sheet, owner)
        draw_strip(sheet, columns, states)
    top = sheet.y
    if sheet.outputs:
        blocks = sheet.trace.blocks.values()
        draw_outputs(sheet, [block for block in blocks if block.on is owner])
    if isinstance(owner, Axis):
        for name, place, height in PANELS:
            draw_panel(sheet, owner, columns, name, place, height)
        if sheet.jerk:
            draw_panel(sheet, owner, columns, "jerk", JERK, JERK_HEIGHT)
        if sheet.following and owner.has_reported:
            draw_panel(sheet, owner, columns, "following", FOLLOWING, 60)
        if owner.words:
            draw_words(sheet, owner.words)
    if len(guides) <= GUIDES and sheet.y > top:
        for x, kind in guides:
            sheet.path(f"M{num(x)} {num(top)}V{num(sheet.y)}", f'class="g{kind}"')
    draw_time(sheet)


def draw_marks(sheet: Sheet, owner: Union[Axis, Group]) -> list[tuple[float, str]]:
    """The calls and their results, with labels where there is room; gives where they stand."""
    placed, marks = [], owner.marks.in_order()
    ends: list[float] = []
    rows = LABEL_ROWS if len(marks) <= GUIDES else 1
    for cycles, kind, label, count, told in marks:
        x = sheet.x(cycles - sheet.trace.first + 1)
        words = label + (f" and {count - 1} more" if count > 1 else "")
        left = x + 16 + 6.9 * len(words) > sheet.width
        wide = 10 + 6.9 * len(words)
        row = place_row(ends, rows, x - wide if left else x - 6, x + 8 if left else x + wide)
        placed.append((x, kind, words if row < rows else "", left, row,
                       f"after cycle {cycles}: {told}" + words[len(label):]))
    for x, kind, words, left, row, told in placed:
        y = sheet.y + ROW * row + ROW / 2
        draw_shape(sheet, kind, x, y, told)
        if words:
            sheet.text(x + (-8 if left else 8), y + 4, words, ' text-anchor="end"' * left)
    sheet.y += ROW * max([row + 1 for _, _, _, _, row, _ in placed], default=0) + 2
    return sorted({(x, kind) for x, kind, *_ in placed})


def place_row(ends: list[float], rows: int, start: float, end: float) -> int:
    """The first row that is free from a place on; labels that find none have the one below."""
    for row in range(rows):
        if row == len(ends):
            ends.append(end)
            return row
        if ends[row] <= start:
            ends[row] = end
            return row
    return rows


def draw_strip(sheet: Sheet, columns: Columns, states: Sequence[str]) -> None:
    """The states over time; of several in one column the last in the order of their names."""
    for start, end, (name, error) in spans(columns, lambda column: (
            states[column[8].bit_length() - 1], column[9])):
        x, wide = sheet.x(start), sheet.x(end) - sheet.x(start)
        words = name + (f" {error}" if error else "")
        told = f"{words}, cycles {start + sheet.trace.first} to {end + sheet.trace.first - 1}"
        sheet.box(x, sheet.y, wide, STRIP, f'fill="{STATE_COLOURS[name]}"', told)
        choices = [words, f"error {error}", str(error)] if error else [words]
        words = next((text for text in choices if wide > 7.2 * len(text) + 4), "")
        if words:
            fill = "#ffffff" if name in ("ContinuousMotion",) else "#101418"
            sheet.put(f'<text x="{num(x + 5)}" y="{num(sheet.y + 13)}" fill="{fill}">'
                      f'{words}</text>')
    sheet.text(LEFT - 8, sheet.y + 13, "state", ' text-anchor="end"', "muted")
    sheet.y += STRIP
