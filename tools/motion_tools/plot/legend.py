"""The head of a picture: its title, and what its lines, marks and colours say."""

from collections.abc import Callable
from typing import Union
from xml.sax.saxutils import escape

from motion_tools.plot.reader import AXIS_STATES, GROUP_STATES, LOOSE, Axis, Group, Trace
from motion_tools.plot.sheet import Sheet
from motion_tools.plot.style import STATE_COLOURS, num

Drawer = Callable[[float, float], None]     # draws a sample of the legend at a position
KINDS = ("Call", "Done", "CommandAborted", "Error")
SHAPES = {"Call": "m-5 -4h10l-5 9z", "Done": "m-4.5 0a4.5 4.5 0 1 0 9 0a4.5 4.5 0 1 0 -9 0z",
          "CommandAborted": "m0 -5.5l5.5 5.5l-5.5 5.5l-5.5 -5.5z",
          "Error": "m-5 -3l2 -2l3 3l3 -3l2 2l-3 3l3 3l-2 2l-3 -3l-3 3l-2 -2l3 -3z"}


def draw_head(sheet: Sheet, title: str) -> None:
    """The title and the legend."""
    sheet.text(16, 28, title, ' style="font-size:17px;font-weight:bold"')
    sheet.y = 52
    x = 16.0
    for draw, words in legend(sheet):
        wide = 34 + 6.9 * len(words)
        if x + wide > sheet.width - 8:
            x, sheet.y = 16, sheet.y + 20
        draw(x, sheet.y)
        sheet.text(x + 26, sheet.y + 4, words)
        x += wide
    sheet.y += 14


def legend(sheet: Sheet) -> list[tuple[Drawer, str]]:
    """What is drawn and its words, one after another."""
    def line(style: str) -> Drawer:
        return lambda x, y: sheet.path(f"M{num(x)} {num(y)}h20", f'class="{style}"')

    def swatch(style: str) -> Drawer:
        return lambda x, y: sheet.box(x, y - 6, 20, 12, style)

    def shape(kind: str) -> Drawer:
        return lambda x, y: draw_shape(sheet, kind, x + 10, y, "")

    frame = f'stroke="{sheet.theme["limit"]}" fill='
    drawn = {"setpoint": line("position"), "not driven": line("loose"),
             "reported by the drive": line("reported"), "velocity": line("velocity"),
             "acceleration": line("acceleration"), "limit": line("limit"),
             "within limits": swatch(f'{frame}"{sheet.theme["band"]}"'),
             "beyond": swatch(f'{frame}"{sheet.theme["panel"]}"'),
             "error": swatch(f'{frame}"url(#hatch)"'), **{kind: shape(kind) for kind in KINDS}}
    if sheet.jerk:
        drawn["jerk"] = line("jerk")
    if sheet.following:
        drawn["following error"] = line("following")
    if sheet.overlay:
        drawn[sheet.overlay_name] = line("overlay")
    seen = seen_in(sheet.trace) | {"jerk", "following error", sheet.overlay_name}
    return [(draw, words) for words, draw in drawn.items() if words in seen] + [
        (swatch(f'{frame}"{STATE_COLOURS[state]}"'), state) for state in states_seen(sheet.trace)]


def seen_in(trace: Trace) -> set[str]:
    """What of the legend is in the picture, beside the states."""
    axes = trace.axes.values()
    owners: list[Union[Axis, Group]] = [*axes, *trace.groups.values()]
    columns = [column for owner in owners for column in owner.lane.columns]
    seen = {"setpoint", "velocity", "acceleration"}
    seen |= {"limit", "within limits", "beyond"} if not all(axis.is_table for axis in axes) else set()
    seen |= {kind for owner in owners for _, kind, *_ in owner.marks.in_order()}
    seen |= {"reported by the drive"} if any(axis.has_reported for axis in axes) else set()
    seen |= {"not driven"} if any(column[10] & LOOSE for column in columns) else set()
    return seen | ({"error"} if any(column[9] for column in columns) else set())


def states_seen(trace: Trace) -> list[str]:
    """The states of the picture, of groups and of axes, in the order of the standard's names."""
    seen = []
    for names, lanes in ((GROUP_STATES, [group.lane for group in trace.groups.values()]),
                         (AXIS_STATES, [axis.lane for axis in trace.axes.values()
                                        if not axis.is_table])):
        bits = 0
        for lane in lanes:
            for column in lane.columns:
                bits |= column[8]
        seen += [name for place, name in enumerate(names) if bits >> place & 1]
    return seen


def draw_shape(sheet: Sheet, kind: str, x: float, y: float, told: str) -> None:
    """The shape of a mark around a place."""
    title = f"<title>{escape(told)}</title>" if told else ""
    sheet.put(f'<path d="M{num(x)} {num(y)}{SHAPES[kind]}" '
              f'style="fill:{sheet.theme[kind]}">{title}</path>')
