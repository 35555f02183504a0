"""The panels of an axis in a picture: their limits, grids and lines, and the axis of time."""

from collections.abc import Sequence
from xml.sax.saxutils import escape

from motion_tools.plot.lines import Columns, ToY, draw_lines
from motion_tools.plot.reader import REPORTED_VELOCITY, Axis
from motion_tools.plot.sheet import LEFT, RIGHT, Sheet, spans, thinned
from motion_tools.plot.style import num, number_text, ticks, view

Limit = tuple[str, str, int, int]           # the names of a least and a greatest value, and both
GAP = 8
PANELS = (("position", 0, 120), ("velocity", 2, 84), ("acceleration", 4, 84))
JERK_HEIGHT = 84


def draw_panel(sheet: Sheet, axis: Axis, columns: Columns, name: str, place: int,
               height: int) -> None:
    """One panel of an axis: its bands, grid, limits and lines."""
    factor, unit = sheet.units.of_axis(axis.name)["position" if name == "following" else name]
    limits, sheet.y = limits_of(axis, name), sheet.y + GAP
    values = [value for *_, column in columns for value in column[place:place + 2]
              if value is not None]
    values += [axis.origin] if name == "position" else [0]
    values += [axis.increment] if name == "following" else []
    if name == "position" and axis.has_reported:
        values += [value for *_, column in columns for value in column[6:8]]
    if name == "velocity" and sheet.following:
        values += reported_velocities(columns)
    values += overlay_values(sheet, axis, place)
    low, high = view(min(values), max(values),
                     [value for limit in limits for value in limit[2:]], sheet.whole)

    def to_y(value: float) -> float:
        return sheet.y + height * (1 - (min(max(value, low), high) - low) / (high - low))

    draw_bands(sheet, limits, to_y, height)
    draw_grid(sheet, (low * factor, high * factor), lambda value: to_y(value / factor), height)
    draw_limits(sheet, limits, (low, high), to_y, factor, height)
    draw_names(sheet, name, unit, height)
    draw_errors(sheet, columns, height)
    draw_lines(sheet, axis, columns, name, place, to_y)
    sheet.box(LEFT, sheet.y, sheet.plot, height, 'class="frame"')
    sheet.y += height


def reported_velocities(columns: Columns) -> list[int]:
    """The velocities that the drive reported."""
    return [value for *_, column in columns
            for value in column[REPORTED_VELOCITY:REPORTED_VELOCITY + 2] if value is not None]


def overlay_values(sheet: Sheet, axis: Axis, place: int) -> list[int]:
    """The values of the second trace's line."""
    other = sheet.overlay.axes.get(axis.name) if sheet.overlay else None
    return [value for *_, column in (thinned(sheet, other.lane) if other else ())
            for value in column[place:place + 2] if value is not None]


def limits_of(axis: Axis, name: str) -> list[Limit]:
    """The limits of a panel, from within: their names with the least and the greatest value."""
    if axis.is_table or name in ("following", "jerk"):
        return []
    if name == "position":
        return [("lo", "hi", axis.lo, axis.hi)]
    if name == "velocity":
        return [("-vmax", "vmax", -axis.vmax, axis.vmax)]
    if axis.amax == axis.dmax:
        return [("-amax, -dmax", "amax, dmax", -axis.amax, axis.amax)]
    return [("-amax", "amax", -axis.amax, axis.amax), ("-dmax", "dmax", -axis.dmax, axis.dmax)]


def draw_bands(sheet: Sheet, limits: Sequence[Limit], to_y: ToY, height: int) -> None:
    """What lies beyond all limits, and within each, from the widest to the narrowest."""
    fill = sheet.theme["panel" if limits else "band"]
    sheet.box(LEFT, sheet.y, sheet.plot, height, f'fill="{fill}"')
    for place, (_, _, least, greatest) in reversed(list(enumerate(limits))):
        fill = sheet.theme["outer" if place else "band"]
        sheet.box(LEFT, to_y(greatest), sheet.plot, to_y(least) - to_y(greatest), f'fill="{fill}"')


def draw_grid(sheet: Sheet, shown: tuple[float, float], to_y: ToY, height: int) -> None:
    """The grid lines, with the numbers of the caller's units at the left."""
    for value in ticks(*shown, height / 17):
        y = to_y(value)
        sheet.path(f"M{LEFT} {num(y)}h{sheet.plot}", f'class="{"grid" if value else "zero"}"')
        sheet.text(LEFT - 8, y + 4, number_text(value), ' text-anchor="end"', "muted")
    for cycles, _ in time_ticks(sheet):
        sheet.path(f"M{num(sheet.x(cycles))} {num(sheet.y)}v{height}", 'class="grid"')


def draw_limits(sheet: Sheet, limits: Sequence[Limit], shown: tuple[float, float], to_y: ToY,
                factor: float, height: int) -> None:
    """The limits as lines, with their names and numbers at the right; an arrow where a limit lies
    outside of what is shown."""
    told = []
    for least_name, greatest_name, least, greatest in limits:
        for name, value in ((greatest_name, greatest), (least_name, least)):
            inside = shown[0] <= value <= shown[1]
            if inside:
                sheet.path(f"M{LEFT} {num(to_y(value))}h{sheet.plot}", 'class="limit"')
            arrow = "" if inside else " ↑" if value > shown[1] else " ↓"
            told.append((to_y(value), f"{name} {number_text(value * factor)}{arrow}"))
    for y, words in apart(sorted(told), sheet.y + 9, sheet.y + height):
        sheet.text(sheet.width - RIGHT + 6, y, words, "", "muted")


def apart(told: Sequence[tuple[float, str]], top: float, bottom: float) -> list[tuple[float, str]]:
    """Words with the places that they stand for, from above: where each is written, so that none
    touches another and all stay between top and bottom."""
    lines = [max(y + 4, top) for y, _ in told]
    for place in range(1, len(lines)):
        lines[place] = max(lines[place], lines[place - 1] + 12)
    for place in reversed(range(len(lines))):
        below = lines[place + 1] - 12 if place + 1 < len(lines) else bottom
        lines[place] = min(lines[place], below)
    return [(y, words) for y, (_, words) in zip(lines, told)]


def draw_names(sheet: Sheet, name: str, unit: str, height: int) -> None:
    """The name of a panel and its unit, turned."""
    middle = num(sheet.y + height / 2)
    for x, words, fill in ((16, name, "ink"), (31, f"[{unit}]", "muted")):
        sheet.put(f'<text transform="translate({x} {middle}) rotate(-90)" text-anchor="middle" '
                  f'class="{fill}">{escape(words)}</text>')


def errors(sheet: Sheet, columns: Columns) -> list[tuple[float, float, int]]:
    """The spans with an error: from where on, how wide, and its number."""
    return [(sheet.x(start), sheet.x(end) - sheet.x(start), error)
            for start, end, error in spans(columns, lambda column: column[9]) if error]


def draw_errors(sheet: Sheet, columns: Columns, height: int) -> None:
    """The spans with an error, hatched."""
    for x, wide, error in errors(sheet, columns):
        sheet.box(x, sheet.y, max(wide, 1), height, 'fill="url(#hatch)"', f"error {error}")


def time_ticks(sheet: Sheet) -> list[tuple[float, str]]:
    """Where the time axis has its numbers, as cycles after the beginning, and these."""
    factor, _ = sheet.units.of_time(sheet.trace.first + sheet.trace.cycles)
    before = sheet.trace.first - 1
    marks = ticks(before * factor, (before + max(sheet.trace.cycles, 1)) * factor, sheet.plot / 90)
    return [(mark / factor - before, number_text(mark)) for mark in marks
            if factor != 1 or mark == int(mark)]


def draw_time(sheet: Sheet) -> None:
    """The numbers of the time axis, and its name."""
    for cycles, words in time_ticks(sheet):
        sheet.path(f"M{num(sheet.x(cycles))} {num(sheet.y)}v4", 'class="zero"')
        sheet.text(sheet.x(cycles), sheet.y + 16, words, ' text-anchor="middle"', "muted")
    name = sheet.units.of_time(sheet.trace.first + sheet.trace.cycles)[1]
    sheet.text(sheet.width - RIGHT + 30, sheet.y + 16, name, "", "muted")
    sheet.y += 20
