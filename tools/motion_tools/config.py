"""Reads the configuration of a machine, for the units of its traces and for what its axes may do.

    config = read_config("machine.toml")
    config.cycle_us, config.axes[0].hi, config.scales()

A quantity is a Fraction in user units. The name of the user unit stands in no key: a comment
`# unit: mm` at the top names it for all axes, below an `[[axis]]` for that axis. What breaks a rule
of a configuration is the matter of `explain`; here a text that can't be used is a ConfigError.
"""

import re
import tomllib
from fractions import Fraction
from pathlib import Path
from typing import Any, NamedTuple, Optional

from motion_tools.trace import ReadFault
from motion_tools.units import Scale

INTERNAL = 1e-9                 # user units in an internal unit
UNIT = re.compile(r"#.*?\bunit:\s*([^\d\s.<>&=;,\"'][^\s<>&=;,\"']{0,7})\s*(?:$|[,.;#(])")
HEADER = re.compile(r"\s*\[\[?\s*(\w+)\s*\]\]?")
QUANTITY = re.compile(r"-?[0-9]+(?:\.[0-9]{1,9})?")


class ConfigError(Exception):
    """A text can't be used as a configuration."""


class AxisConfig(NamedTuple):
    """An axis, in user units and per second; `unit` is the name of the unit."""
    name: str
    lo: Fraction
    hi: Fraction
    vmax: Fraction
    amax: Fraction
    dmax: Fraction
    increment: Fraction
    start: Fraction
    lag: int
    unit: str


class Config(NamedTuple):
    path: str
    cycle_us: int
    cycles: int
    entries: int
    axes: list[AxisConfig]
    groups: dict[str, list[str]]
    tables: list[list[tuple[Fraction, Fraction]]]
    version: int = 2

    def scales(self) -> dict[str, Scale]:
        """How much an internal unit of each axis is."""
        return {axis.name: Scale(INTERNAL, axis.unit) for axis in self.axes}

    def axis(self, name: str) -> AxisConfig:
        """The axis of a name. Raises LookupError."""
        for axis in self.axes:
            if axis.name == name:
                return axis
        known = ", ".join(axis.name for axis in self.axes)
        raise LookupError(f"{self.path} has no axis {name}, but {known}")


def read_config(path: str) -> Config:
    """The configuration in a file. Raises ReadFault and ConfigError."""
    try:
        text = Path(path).read_text(encoding="utf-8-sig")
    except OSError as error:
        raise ReadFault(f"cannot read {path}: {error.strerror}") from None
    except UnicodeDecodeError:
        raise ConfigError(f"{path}: it is no text of UTF-8") from None
    return config_of(path, text)


def config_of(path: str, text: str) -> Config:
    """The configuration of a text. Raises ConfigError."""
    try:
        data = tomllib.loads(text)
        units = units_in(text)
        axes = [axis_of(axis, units[place] if place < len(units) else "units")
                for place, axis in enumerate(data["axis"])]
        groups = {group["name"]: list(group["axes"]) for group in data.get("group", [])}
        tables = [[point_of(point) for point in table["points"]]
                  for table in data.get("table", [])]
        return Config(path, int(data["cycle_us"]), int(data["cycles"]), int(data["entries"]),
                      axes, groups, tables, int(data.get("version", 2)))
    except tomllib.TOMLDecodeError as error:
        raise ConfigError(f"{path}: it isn't TOML: {error}") from None
    except (KeyError, TypeError, ValueError, AttributeError) as error:
        reason = f"the key {error} is missing" if isinstance(error, KeyError) else str(error)
        raise ConfigError(f"{path}: it is no configuration: {reason}; "
                          f"see tools/explain --check {path}") from None


def axis_of(keys: dict[str, Any], unit: str) -> AxisConfig:
    """The axis of its keys."""
    lo, hi, vmax, amax = (quantity_of(keys[key]) for key in ("lo", "hi", "vmax", "amax"))
    return AxisConfig(str(keys["name"]), lo, hi, vmax, amax,
                      quantity_of(keys["dmax"]) if "dmax" in keys else amax,
                      quantity_of(keys["increment"]), quantity_of(keys["start"]),
                      int(keys.get("lag", 0)), unit)


def quantity_of(value: object) -> Fraction:
    """A quantity as a configuration and a program spell it. Raises ValueError."""
    text = str(value) if isinstance(value, (str, int)) and not isinstance(value, bool) else ""
    if not QUANTITY.fullmatch(text):
        raise ValueError(f"{value!r} is no quantity, as 12 or \"12.5\"")
    return Fraction(text)


def point_of(text: str) -> tuple[Fraction, Fraction]:
    """A point `X:Y`. Raises ValueError."""
    master, slave = text.split(":")
    return quantity_of(master), quantity_of(slave)


def units_in(text: str) -> list[str]:
    """The unit of each `[[axis]]`, in their order: that of a comment below it, else of one above
    all of them, else `units`."""
    common: Optional[str] = None
    found: list[Optional[str]] = []
    inside = ""
    for line in text.splitlines():
        if header := HEADER.match(line):
            inside = header[1]
            found += [None] if inside == "axis" else []
        if unit := UNIT.search(line):
            if inside == "axis":
                found[-1] = unit[1]
            elif not inside:
                common = unit[1]
    return [unit or common or "units" for unit in found]
