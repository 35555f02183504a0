"""The trajectory generator with limited jerk in Python, for test benches and digital twins.

    import otg

    generator = otg.Generator(lo=-10**9, hi=10**9, velocity=500_000, acceleration=2_000,
                              deceleration=2_000, jerk=20)
    generator.move(200_000_000)
    for cycle, position in enumerate(generator.steps(), 1):
        print(cycle, position)

It calls the library of c/otg.h through ctypes; `tools/python_library --generator` builds the shared
library, and the environment's OTG_LIBRARY may name another file. docs/otg.md says what is proved. It
wants Python 3.11. Python gives no promise of time: no loop for a real machine.

All numbers are whole, in internal units and cycles; `per_cycle` makes them of rates per second. A
command's own rates are those of the limits where they are left out.
"""

import ctypes
import os
from collections.abc import Iterator
from decimal import Decimal
from fractions import Fraction
from pathlib import Path
from typing import Optional, Union

Quantity = Union[int, str, Decimal, Fraction]


class GeneratorError(ValueError):
    """A number isn't in its range; nothing has changed."""


class _Otg(ctypes.Structure):
    _fields_ = [*((name, ctypes.c_int64) for name in
                  ("lo", "hi", "vmax", "amax", "dmax", "jmax", "first", "before", "current", "target")),
                *((name, ctypes.c_uint64) for name in ("v", "a", "d", "j")), ("kind", ctypes.c_uint32)]


def per_cycle(rate: Quantity, units: int, cycle_us: int, order: int = 1) -> int:
    """A velocity (order 1), acceleration (2) or jerk (3) per second, second^2 or second^3 in units per
    cycle, cycle^2 or cycle^3, rounded toward zero; `units` are those of one of the caller's units."""
    if isinstance(rate, float):
        raise TypeError(f"{rate!r} is a float: give it as a string or a Decimal")
    return int(Fraction(rate) * units * Fraction(cycle_us, 10**6)**order)


def load(file: Optional[Path] = None) -> ctypes.CDLL:
    """The library with the types of its calls. Raises OSError where the file isn't a library."""
    built = Path(__file__).resolve().parent.parent / "crates" / "otg" / "out" / "libotg.so"
    library = ctypes.CDLL(str(file or os.environ.get("OTG_LIBRARY", built)))
    signed, rate = ctypes.c_int64, ctypes.c_uint64
    for name, words in (("otg_open", (signed,)), ("otg_move", (signed, rate, rate, rate, rate)),
                        ("otg_velocity", (signed, rate, rate, rate)), ("otg_halt", (rate, rate)),
                        ("otg_step", ())):
        call = getattr(library, name)
        call.restype, call.argtypes = ctypes.c_uint32, (ctypes.POINTER(_Otg), *words)
    return library


class Generator:
    """A generator, at rest at a setpoint within its limits. Raises GeneratorError where a number isn't
    in its range (docs/otg.md). One thread at a time calls it, and only the library writes what it
    holds."""

    def __init__(self, *, lo: int, hi: int, velocity: int, acceleration: int, deceleration: int,
                 jerk: int, setpoint: int = 0, library: Optional[ctypes.CDLL] = None):
        self._library = library or load()
        limits = [_whole(number) for number in (lo, hi, velocity, acceleration, deceleration, jerk)]
        self._otg = _Otg(*limits)
        self._rates = (velocity, acceleration, deceleration, jerk)
        self._call("otg_open", setpoint)

    def move(self, target: int, *, velocity: Optional[int] = None, acceleration: Optional[int] = None,
             deceleration: Optional[int] = None, jerk: Optional[int] = None) -> None:
        """Moves to a target from the next cycle on."""
        self._call("otg_move", target, *self._own(velocity, acceleration, deceleration, jerk))

    def velocity(self, velocity: int, *, acceleration: Optional[int] = None,
                 deceleration: Optional[int] = None, jerk: Optional[int] = None) -> None:
        """Goes on with a velocity, which is below 0 backward."""
        self._call("otg_velocity", velocity, *self._own(None, acceleration, deceleration, jerk)[1:])

    def halt(self, *, deceleration: Optional[int] = None, jerk: Optional[int] = None) -> None:
        """Halts from the next cycle on."""
        self._call("otg_halt", *self._own(None, None, deceleration, jerk)[2:])

    def step(self) -> int:
        """Goes through a cycle: the next setpoint."""
        self._call("otg_step")
        return self._otg.current

    def steps(self) -> Iterator[int]:
        """The setpoints of the cycles until a move is done."""
        while not self.done:
            yield self.step()

    @property
    def setpoint(self) -> int:
        """The setpoint of this cycle."""
        return self._otg.current

    @property
    def rests(self) -> bool:
        """Whether the last three setpoints are equal."""
        return self._otg.first == self._otg.before == self._otg.current

    @property
    def done(self) -> bool:
        """Whether a move has arrived: it stands at its target."""
        return self.rests and self._otg.current == self._otg.target

    def _own(self, *rates: Optional[int]) -> list[int]:
        return [limit if rate is None else rate for rate, limit in zip(rates, self._rates)]

    def _call(self, name: str, *numbers: int) -> None:
        words = [_whole(number) for number in numbers]
        rates = words if name == "otg_halt" else words[1:]
        if any(rate < 0 for rate in rates) or getattr(self._library, name)(self._otg, *words):
            raise GeneratorError(f"{name}{numbers}: a number isn't in its range")


def _whole(number: int) -> int:
    """A whole number of 64 bits. Raises TypeError and GeneratorError where it is none."""
    if not isinstance(number, int):
        raise TypeError(f"{number!r} isn't a whole number")
    if not -2**63 <= number < 2**63:
        raise GeneratorError(f"{number} isn't in its range")
    return number
