"""Several axes in one panel: their positions, and below these their velocities."""

from collections.abc import Callable, Sequence
from xml.sax.saxutils import escape

from motion_tools.plot.lines import range_line
from motion_tools.plot.panels import GAP, draw_names, draw_time, time_ticks
from motion_tools.plot.reader import Axis
from motion_tools.plot.sheet import LEFT, RIGHT, Sheet, thinned
from motion_tools.plot.style import TOGETHER, num, number_text, ticks

HEIGHTS = (("position", 0, 150), ("velocity", 2, 100))


def together_style() -> str:
    """The classes of the lines, which differ in colour and in dashes."""
    return "".join(f".t{place}{{stroke:{colour};stroke-width:1.8;"
                   f"stroke-dasharray:{dashes or 'none'}}}"
                   for place, (colour, dashes) in enumerate(TOGETHER))


def draw_together(sheet: Sheet, names: Sequence[str]) -> None:
    """Panels of the axes of these names."""
    axes = [sheet.trace.axes[name] for name in names]
    sheet.y += 26
    sheet.text(16, sheet.y, " and ".join(names), ' style="font-size:14px;font-weight:bold"')
    x = 16 + 9.0 * len(" and ".join(names)) + 24
    for place, name in enumerate(names):
        sheet.path(f"M{num(x)} {num(sheet.y - 4)}h26", f'class="t{place}"')
        sheet.text(x + 32, sheet.y, name)
        x += 48 + 7.0 * len(name)
    for quantity, place, height in HEIGHTS:
        draw_panel(sheet, axes, quantity, place, height)
    draw_time(sheet)


def draw_panel(sheet: Sheet, axes: Sequence[Axis], quantity: str, place: int, height: int) -> None:
    """A panel: with one scale where the axes have one unit, else the first one's at the left and
    the second one's at the right."""
    sheet.y += GAP
    told = [sheet.units.of_axis(axis.name)[quantity] for axis in axes]
    values = [[value * factor for _, _, column in thinned(sheet, axis.lane)
               for value in column[place:place + 2] if value is not None] or [0.0]
              for axis, (factor, _) in zip(axes, told)]
    is_one = len({unit for _, unit in told}) == 1
    views = [view_of([each for some in values for each in some] if is_one else own)
             for own in values]
    sheet.box(LEFT, sheet.y, sheet.plot, height, f'fill="{sheet.theme["band"]}"')
    draw_scale(sheet, views[0], height, True)
    if not is_one and len(axes) > 1:
        draw_scale(sheet, views[1], height, False)
        sheet.put(f'<text x="{num(sheet.width - RIGHT + 56)}" y="{num(sheet.y + height / 2)}" '
                  f'class="muted">{escape(f"{axes[1].name} [{told[1][1]}]")}</text>')
    draw_names(sheet, quantity, told[0][1], height)
    for number, (axis, (factor, _), view) in enumerate(zip(axes, told, views)):
        path = range_line(sheet, thinned(sheet, axis.lane), place,
                          to_y_of(sheet.y, height, view, factor))
        sheet.path(path, f'class="t{number % len(TOGETHER)}"')
    sheet.box(LEFT, sheet.y, sheet.plot, height, 'class="frame"')
    sheet.y += height


def view_of(values: Sequence[float]) -> tuple[float, float]:
    """From where to where a panel shows."""
    low, high = min(values), max(values)
    margin = (high - low) * 0.07 or max(abs(high) * 0.07, 1e-12)
    return low - margin, high + margin


def to_y_of(top: float, height: int, view: tuple[float, float],
            factor: float) -> Callable[[float], float]:
    """Where a value stands."""
    low, high = view
    return lambda value: top + height * (1 - (value * factor - low) / (high - low))


def draw_scale(sheet: Sheet, view: tuple[float, float], height: int, is_left: bool) -> None:
    """The numbers of a scale, at the left with the grid."""
    to_y = to_y_of(sheet.y, height, view, 1.0)
    for value in ticks(*view, height / 17):
        y = to_y(value)
        if is_left:
            sheet.path(f"M{LEFT} {num(y)}h{sheet.plot}", f'class="{"grid" if value else "zero"}"')
            sheet.text(LEFT - 8, y + 4, number_text(value), ' text-anchor="end"', "muted")
        else:
            sheet.text(sheet.width - RIGHT + 6, y + 4, number_text(value), "", "muted")
    for cycles, _ in time_ticks(sheet) if is_left else ():
        sheet.path(f"M{num(sheet.x(cycles))} {num(sheet.y)}v{height}", 'class="grid"')
