"""Makes the points of a cam table in the machine's units, and checks them against the slave's
limits.

    tools/cam_points --config machine.toml --master X --slave Y --velocity 200 \\
        --law poly5 0:0 100:50 150:50 200:0
    tools/cam_points --config machine.toml --master X --slave Y --velocity 200 --table 1

The points X:Y say where the slave stands, Y, for positions X of the master; between two of them it
goes by the law, and a part with equal Y is a dwell. A table is interpolated linearly, so at each of
its points the slave's velocity jumps: the change of slope times the master's step in a cycle has to
stay within amax, and where the master speeds up or brakes, the slope times its acceleration comes
on top. The tool takes as few points as that bound allows, or the number that --count gives, and
says what they ask of the slave. With --table it checks a table of the configuration instead.
"""

import argparse
import math
import sys
from collections.abc import Callable, Sequence
from typing import NamedTuple, TextIO

from motion_tools import command
from motion_tools.config import AxisConfig, Config, read_config

MOST = 4096                     # points of a table
MARGIN = 0.98                   # of amax and vmax, that the points may use
PI = math.pi
STATUSES = """\
ends with 0 where the slave can follow, with 1 where it can't, with 2 where an option is faulty or
doesn't fit the configuration, with 4 where the configuration can't be read"""

Point = tuple[float, float]


class Law(NamedTuple):
    """How a slave goes from rest to rest: its way from 0 to 1, and in words."""
    way: Callable[[float], float]
    words: str


def modified_sine(u: float) -> float:
    """A sine at both ends, and a slower one between."""
    k = 4 + PI
    if u < 1 / 8:
        return PI * u / k - math.sin(4 * PI * u) / (4 * k)
    if u < 7 / 8:
        return (2 + PI * u) / k - 9 * math.sin(4 * PI * u / 3 + PI / 3) / (4 * k)
    return (4 + PI * u) / k - math.sin(4 * PI * u) / (4 * k)


LAWS = {
    "poly5": Law(lambda u: u**3 * (10 - 15 * u + 6 * u * u), "polynomial of degree 5"),
    "modsine": Law(modified_sine, "modified sine"),
    "cycloid": Law(lambda u: u - math.sin(2 * PI * u) / (2 * PI), "cycloid"),
    "line": Law(lambda u: u, "straight line"),
}


def parser() -> argparse.ArgumentParser:
    words = command.parser_of("cam_points", __doc__, STATUSES)
    words.add_argument("points", nargs="*", metavar="X:Y",
                       help="points that the slave goes through, in the machine's units, X rising")
    words.add_argument("--config", metavar="FILE", required=True,
                       help="the configuration with the axes: cycle, units and limits")
    words.add_argument("--master", metavar="AXIS", required=True, help="the axis that leads")
    words.add_argument("--slave", metavar="AXIS", required=True, help="the axis that follows")
    words.add_argument("--velocity", metavar="V", type=positive, required=True,
                       help="the master's greatest velocity, in its units per second")
    words.add_argument("--acceleration", metavar="A", type=not_negative,
                       help="how much the master speeds up or brakes while it is on the table, in "
                       "its units per second squared; left out, its amax")
    words.add_argument("--law", choices=[*LAWS, "spline"], default="poly5",
                       help="poly5 (polynomial of degree 5), modsine (modified sine), cycloid, "
                       "line, or spline (a cubic through all points, at rest at both ends); left "
                       "out, poly5")
    words.add_argument("--count", metavar="N", type=int,
                       help="how many points the table has; left out, as few as the slave allows")
    words.add_argument("--table", metavar="N", type=int,
                       help="checks the table N of the configuration, and makes none")
    words.add_argument("--bench", action="store_true",
                       help="writes the line of a bench, in internal units")
    return words


def positive(text: str) -> float:
    """A number above 0."""
    try:
        value = float(text)
    except ValueError:
        value = math.nan
    if not 0 < value < math.inf:
        raise argparse.ArgumentTypeError(f"{text!a} is no number above 0")
    return value


def not_negative(text: str) -> float:
    """A number from 0."""
    return 0.0 if text == "0" else positive(text)


def main() -> int:
    options = parser().parse_args()
    fits: list[bool] = []
    status = command.ended("cam_points", options.config, lambda: fits.append(turn(options)))
    return status or int(fits == [False])


def turn(options: argparse.Namespace) -> bool:
    """Makes or checks a table, and says whether the slave can follow."""
    config = read_config(options.config)
    master, slave = config.axis(options.master), config.axis(options.slave)
    acceleration = float(master.amax) if options.acceleration is None else options.acceleration
    rests = options.table is None and options.law != "line"
    bounds = Bounds(config.cycle_us, slave, options.velocity, acceleration, rests)
    if options.table is not None:
        if not 1 <= options.table <= len(config.tables):
            raise LookupError(f"{config.path} has {len(config.tables)} tables, numbered from 1, "
                              f"and no table {options.table}")
        points = [(float(x), float(y)) for x, y in config.tables[options.table - 1]]
    else:
        points = made(options, bounds)
        if bounds.is_inside(points):
            write(options, config, points, sys.stdout)
    sys.stderr.write("".join(report(points, bounds, master, options)))
    return bounds.fits(points)


class Bounds:
    """What a slave may do, and what a table asks of it at a velocity of the master."""

    def __init__(self, cycle_us: int, slave: AxisConfig, velocity: float, acceleration: float,
                 rests: bool):
        self.seconds = cycle_us / 1e6
        self.rests = rests                              # whether it rests at both ends of the table
        self.master_acceleration = acceleration
        self.step = velocity * self.seconds             # of the master in a cycle
        self.slave = slave
        self.vmax, self.amax = float(slave.vmax), float(slave.amax)

    def velocity(self, points: Sequence[Point]) -> float:
        """The slave's greatest velocity."""
        return max(abs(slope) for slope in slopes(points)) * self.step / self.seconds

    def acceleration(self, points: Sequence[Point]) -> tuple[float, float]:
        """The slave's greatest acceleration, and at which position of the master: the change of
        slope of all points within a step, and the slope with the master's acceleration."""
        rates = slopes(points)
        rates = [0.0, *rates, 0.0] if self.rests else [rates[0], *rates, rates[-1]]
        corners = [(x, after - before) for (x, _), before, after in zip(points, rates, rates[1:])]
        best, at, first = 0.0, points[0][0], 0
        for place, (x, _) in enumerate(corners):
            while corners[first][0] <= x - self.step:
                first += 1
            change = 0.0
            for other, turn_of in corners[first:]:
                if other >= x + self.step:
                    break
                change += turn_of * (1 - abs(other - x) / self.step)
            slope = max(abs(rate) for rate in rates[place:place + 2])
            found = abs(change) * self.step / self.seconds**2 + slope * self.master_acceleration
            if found > best:
                best, at = found, x
        return best, at

    def fits(self, points: Sequence[Point]) -> bool:
        """Whether the slave can follow."""
        return (self.velocity(points) <= self.vmax and self.acceleration(points)[0] <= self.amax
                and self.is_inside(points))

    def is_inside(self, points: Sequence[Point]) -> bool:
        """Whether all points lie within the slave's limits."""
        return all(float(self.slave.lo) <= y <= float(self.slave.hi) for _, y in points)

    def is_within(self, points: Sequence[Point], share: float) -> bool:
        """Whether the acceleration stays within a share of amax."""
        return self.acceleration(points)[0] <= self.amax * share


def slopes(points: Sequence[Point]) -> list[float]:
    """The slope from each point to the next."""
    return [(after - before) / (end - begin)
            for (begin, before), (end, after) in zip(points, points[1:])]


# Points

def points_of(texts: Sequence[str]) -> list[Point]:
    """The points that are given. Raises LookupError."""
    found: list[Point] = []
    for text in texts:
        try:
            x, y = map(float, text.split(":"))
        except ValueError:
            raise LookupError(f"{text!a} is no point X:Y, as 100:50") from None
        if found and x <= found[-1][0]:
            raise LookupError(f"X has to rise from point to point, and {x:g} isn't above "
                              f"{found[-1][0]:g}")
        found.append((x, y))
    if len(found) < 2:
        raise LookupError("give two points at least, as 0:0 100:50")
    return found


def made(options: argparse.Namespace, bounds: Bounds) -> list[Point]:
    """The table: of the number that is asked for, or as few points as the slave allows."""
    given = points_of(options.points)
    way = spline(given) if options.law == "spline" else pieces(given, LAWS[options.law].way)

    def table(count: int) -> list[Point]:
        return sampled(given, way, count, options.law != "spline")

    if options.count is not None:
        if not 2 <= options.count <= MOST:
            raise LookupError(f"--count is from 2 to {MOST}")
        return table(options.count)
    share = MARGIN if bounds.is_within(table(MOST), MARGIN) else 1.0
    few, many = len(given), len(given)
    while many < MOST and not bounds.is_within(table(many), share):
        few, many = many, min(MOST, many * 2)
    while many - few > 1:
        middle = (few + many) // 2
        few, many = (few, middle) if bounds.is_within(table(middle), share) else (middle, many)
    return table(many)


def pieces(given: Sequence[Point], law: Callable[[float], float]) -> Callable[[float], float]:
    """The slave's position by the master's: from point to point by a law."""
    def way(x: float) -> float:
        for (begin, low), (end, high) in zip(given, given[1:]):
            if x <= end:
                return low + (high - low) * law(min(1.0, max(0.0, (x - begin) / (end - begin))))
        return given[-1][1]
    return way


def spline(given: Sequence[Point]) -> Callable[[float], float]:
    """A cubic spline through the points, with slope 0 at both ends."""
    xs, ys = [x for x, _ in given], [y for _, y in given]
    count, rises = len(given), slopes(given)
    widths = [end - begin for begin, end in zip(xs, xs[1:])]
    tilt = [0.0] * count                                # the slopes at the points
    if count > 2:
        above, right = [0.0] * count, [0.0] * count
        for place in range(1, count - 1):               # a tridiagonal system, from above
            left, wide = widths[place - 1], widths[place]
            diagonal = 2 * (left + wide) - wide * above[place - 1]
            above[place] = left / diagonal
            right[place] = (3 * (wide * rises[place - 1] + left * rises[place])
                            - wide * right[place - 1]) / diagonal
        for place in range(count - 2, 0, -1):
            tilt[place] = right[place] - above[place] * tilt[place + 1]

    def way(x: float) -> float:
        place = next((place for place in range(count - 1) if x <= xs[place + 1]), count - 2)
        width, u = widths[place], (x - xs[place]) / widths[place]
        return (ys[place] * (1 + 2 * u) * (1 - u)**2 + ys[place + 1] * u * u * (3 - 2 * u)
                + width * (tilt[place] * u * (1 - u)**2 - tilt[place + 1] * u * u * (1 - u)))
    return way


def sampled(given: Sequence[Point], way: Callable[[float], float], count: int,
            has_dwells: bool) -> list[Point]:
    """Points of a way: the given ones, and others evenly between them; a dwell needs none."""
    ends = list(zip(given, given[1:]))
    wide = [0.0 if has_dwells and begin[1] == end[1] else end[0] - begin[0] for begin, end in ends]
    spare = count - len(given)
    shares = [spare * width / (sum(wide) or 1.0) for width in wide]
    numbers = [int(share) for share in shares]
    rest = sorted(range(len(ends)), key=lambda place: numbers[place] - shares[place])
    for place in rest[:max(0, spare - sum(numbers))]:
        numbers[place] += shares[place] > 0
    found = [given[0]]
    for (begin, end), number in zip(ends, numbers):
        width = (end[0] - begin[0]) / (number + 1)
        found += [(x, way(x)) for x in (begin[0] + width * (place + 1) for place in range(number))]
        found.append(end)
    return [(round(x, 9), round(y, 9)) for x, y in found]


# What is written

def write(options: argparse.Namespace, config: Config, points: Sequence[Point],
          output: TextIO) -> None:
    """Writes the table, for a configuration or a bench."""
    law = "cubic spline" if options.law == "spline" else LAWS[options.law].words
    if options.bench:
        output.write("table " + " ".join(f"{round(x * 1e9)}:{round(y * 1e9)}" for x, y in points)
                     + "\n")
        return
    master, slave = config.axis(options.master), config.axis(options.slave)
    output.write(f"[[table]]   # {law}, for {options.master} up to {options.velocity:g} "
                 f"{master.unit}/s and {options.slave} in {slave.unit}\npoints = [\n")
    texts = [f'"{number(x)}:{number(y)}"' for x, y in points]
    for place in range(0, len(texts), 6):
        output.write("  " + ", ".join(texts[place:place + 6]) + ",\n")
    output.write("]\n")


def number(value: float) -> str:
    """A quantity: at most nine digits after the point, without needless zeros."""
    text = f"{value:.9f}".rstrip("0").rstrip(".")
    return "0" if text in ("", "-0") else text


def report(points: Sequence[Point], bounds: Bounds, master: AxisConfig,
           options: argparse.Namespace) -> list[str]:
    """What the points ask of the slave, and what may be changed where that is too much."""
    slave, unit = bounds.slave, bounds.slave.unit
    velocity, (acceleration, at) = bounds.velocity(points), bounds.acceleration(points)
    lines = [f"{len(points)} points; {master.name} at {options.velocity:g} {master.unit}/s goes "
             f"{bounds.step:.6g} {master.unit} a cycle, and speeds up and brakes by at most "
             f"{bounds.master_acceleration:g} {master.unit}/s²\n",
             f"{slave.name}: velocity up to {velocity:.6g} {unit}/s, {velocity / bounds.vmax:.0%} "
             f"of vmax; acceleration up to {acceleration:.6g} {unit}/s², "
             f"{acceleration / bounds.amax:.0%} of amax, at {master.name} {at:.6g} {master.unit}\n"]
    outside = [y for _, y in points if not float(slave.lo) <= y <= float(slave.hi)]
    if outside:
        none = "" if options.table is not None else "; no table was written"
        lines.append(f"error: {slave.name} would go to {outside[0]:g} {unit}, beyond its limits, "
                     f"{float(slave.lo):g} to {float(slave.hi):g} {unit}{none}. Points are in the "
                     "machine's units\n")
    if acceleration > bounds.amax:
        lines.append(too_much(points, bounds, options, master))
    if velocity > bounds.vmax:
        most = options.velocity * bounds.vmax / velocity
        lines.append(f"error: that is more than vmax; the master may go at {most:.4g} "
                     f"{master.unit}/s\n")
    return lines


def too_much(points: Sequence[Point], bounds: Bounds, options: argparse.Namespace,
             master: AxisConfig) -> str:
    """Why the acceleration is too much, and the master's velocity at which it isn't."""
    slower = slowest(points, bounds, options.velocity)
    says = ("error: a CamIn would end with error 104: the change of slope times the master's step, "
            "and the slope times its acceleration, are more than amax")
    if slower > 0:
        says += f"; with these points {master.name} may go at {slower:.4g} {master.unit}/s"
    if bounds.master_acceleration:
        says += ", or speed up more slowly (--acceleration)"
    if options.table is not None or options.count is not None:
        return f"{says}, or take more points (leave --count and --table out)\n"
    return (f"{says}; no number of points suffices for {options.velocity:g} {master.unit}/s: the "
            "curve itself is too steep\n")


def slowest(points: Sequence[Point], bounds: Bounds, velocity: float) -> float:
    """The greatest velocity of the master, about, at which the slave can follow."""
    low, high = 0.0, velocity
    for _ in range(24):
        middle = (low + high) / 2
        tried = Bounds(round(bounds.seconds * 1e6), bounds.slave, middle or 1e-9,
                       bounds.master_acceleration, bounds.rests)
        if tried.acceleration(points)[0] <= bounds.amax:
            low = middle
        else:
            high = middle
    return low

