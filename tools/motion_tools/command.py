"""What the tools have in common: options, units, statuses."""

import argparse
import re
import sys
from collections.abc import Callable, Container
from typing import NamedTuple, Optional, TextIO

from motion_tools.config import Config, ConfigError, read_config
from motion_tools.trace import Machine, ReadFault, Trace, TraceError, lines_of
from motion_tools.units import Scale, Units, scale_of

READ, ILLEGAL, USAGE, REFUSED, UNREADABLE, UNWRITTEN = 0, 1, 2, 3, 4, 6   # as those of `motion`
NOT_BUILT = 70                                                             # as that of ./motion
MOMENT = re.compile(r"([0-9]+(?:\.[0-9]+)?)(ms|s)?")
STATUSES = """\
ends with 0; with 2 where an option is faulty, with 3 where the text is no trace (what was read of
it until then is written), with 4 where it can't be read, with 6 where writing fails"""


def parser_of(prog: str, description: Optional[str],
              epilog: str = STATUSES) -> argparse.ArgumentParser:
    """A parser whose texts are kept as they are written."""
    return argparse.ArgumentParser(prog=prog, description=description, epilog=epilog,
                                   formatter_class=argparse.RawDescriptionHelpFormatter)


def options_of(prog: str, description: Optional[str], text: str = "trace",
               epilog: str = STATUSES) -> argparse.ArgumentParser:
    """A parser of the file and the options that all tools for traces have."""
    parser = parser_of(prog, description, epilog)
    parser.add_argument(text, help=f"the file with the {text}; - is the standard input")
    add_units(parser)
    return parser


def add_units(parser: argparse.ArgumentParser) -> None:
    """Adds the options that say in which units numbers are shown."""
    parser.add_argument("--config", metavar="FILE",
                        help="the configuration of the run: the cycle's length and the units come "
                        "from it. A comment `# unit: mm` at its top, or below an [[axis]], names "
                        "the unit")
    parser.add_argument("--cycle-us", metavar="N", type=cycle_length,
                        help="the length of a cycle in microseconds: times are in seconds, and "
                        "scaled velocities per second")
    parser.add_argument("--scale", metavar="AXIS=NUMBERunit", action="append", default=[],
                        type=scale, help="how much an internal unit of the axis is, as X=0.001mm; "
                        "without AXIS= it is for every axis that has none of its own. Left out, "
                        "and without --config, numbers stay in internal units, per cycle")


def scale(text: str) -> tuple[str, Scale]:
    """The scale of an option, with a message that argparse prints."""
    try:
        return scale_of(text)
    except ValueError as error:
        raise argparse.ArgumentTypeError(str(error)) from None


def cycle_length(text: str) -> int:
    """The microseconds of a cycle, from 1."""
    if not (text.isascii() and text.isdigit() and int(text) > 0):
        raise argparse.ArgumentTypeError(f"{text!a} is no whole number of microseconds from 1")
    return int(text)


class Moment(NamedTuple):
    """A moment of a run: a number of cycles, or of seconds."""
    number: float
    is_time: bool

    def cycle(self, cycle_us: int) -> int:
        """The cycle at that moment. Raises LookupError where a cycle's length isn't known."""
        if not self.is_time:
            return int(self.number)
        if not cycle_us:
            raise LookupError("a time needs the length of a cycle: --config FILE or --cycle-us N")
        return max(1, round(self.number * 1e6 / cycle_us))


def moment(text: str) -> Moment:
    """A cycle, or a time as 120ms or 1.5s."""
    match = MOMENT.fullmatch(text)
    if not match or (not match[2] and "." in match[1]):
        raise argparse.ArgumentTypeError(f"{text!a} is no cycle from 1, and no time as 120ms")
    if not match[2] and int(match[1]) < 1:
        raise argparse.ArgumentTypeError("cycles are counted from 1")
    return Moment(float(match[1]) * (1e-3 if match[2] == "ms" else 1), bool(match[2]))


def add_range(parser: argparse.ArgumentParser, what: str) -> None:
    """Adds the options --from and --to."""
    parser.add_argument("--from", dest="first", type=moment, metavar="CYCLE",
                        help=f"the first cycle that is {what}, or a time as 120ms or 1.5s")
    parser.add_argument("--to", dest="last", type=moment, metavar="CYCLE", help="the last one")


def range_of(options: argparse.Namespace) -> tuple[int, Optional[int]]:
    """The first and the last cycle of --from and --to. Raises LookupError."""
    cycle_us = cycle_us_of(options)
    first = options.first.cycle(cycle_us) if options.first else 1
    last = options.last.cycle(cycle_us) if options.last else None
    if last is not None and last < first:
        raise LookupError("--to lies before --from")
    return first, last


def cycle_us_of(options: argparse.Namespace) -> int:
    """The length of a cycle in microseconds, 0 where it isn't known."""
    if options.cycle_us or not options.config:
        return options.cycle_us or 0
    return read_config(options.config).cycle_us


def units_for(options: argparse.Namespace, names: Container[str], text: str = "trace") -> Units:
    """The units that are asked for, of a text with axes of these names."""
    config = read_config(options.config) if options.config else None
    scales = scales_from(config, names, text) if config else {}
    for name, given in options.scale:
        if name and name not in names:
            raise LookupError(f"--scale {name}: the {text} has no axis {name}")
        scales[name] = given
    return Units(scales, options.cycle_us or (config.cycle_us if config else None))


def scales_from(config: Config, names: Container[str], text: str) -> dict[str, Scale]:
    """The scales of a configuration, whose axes have to be those of the text."""
    for axis in config.axes:
        if axis.name not in names:
            raise LookupError(f"--config {config.path}: the {text} has no axis {axis.name}, so it "
                              "isn't of this machine")
    return config.scales()


def units_of(options: argparse.Namespace, machine: Machine) -> Units:
    """The units that are asked for, of a trace's machine."""
    return units_for(options, {axis.name for axis in machine.axes})


def run(name: str, options: argparse.Namespace,
        write: Callable[[Trace, Units, TextIO], None]) -> int:
    """Calls `write(trace, units, output)` with what the options ask for, and gives the status."""
    def turn() -> None:
        trace = Trace(lines_of(options.trace))
        write(trace, units_of(options, trace.machine), sys.stdout)
    return ended(name, options.trace, turn)


def ended(name: str, source: str, turn: Callable[[], object],
          refusal: type[Exception] = TraceError) -> int:
    """Calls `turn()`, prints its fault if it has one, and gives the status."""
    try:
        turn()
        sys.stdout.flush()
        return READ
    except refusal as error:
        return fail(name, f"refused {source}: {error}", REFUSED)
    except ConfigError as error:
        return fail(name, str(error), USAGE)
    except ReadFault as error:
        return fail(name, str(error), UNREADABLE)
    except LookupError as error:
        return fail(name, error.args[0], USAGE)
    except BrokenPipeError:             # nobody reads on, as after `head`
        sys.stdout = None               # type: ignore[assignment]
        return UNWRITTEN
    except OSError as error:
        sys.stdout = None               # type: ignore[assignment]  # what it holds can't be written
        return fail(name, f"cannot write: {error.strerror}", UNWRITTEN)


def fail(name: str, text: str, status: int) -> int:
    """Prints a fault, after the output so far, and gives its status."""
    print(f"{name}: {text}", file=sys.stderr)
    return status
