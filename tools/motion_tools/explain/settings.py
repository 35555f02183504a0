"""Finds what breaks a rule in a configuration: the key and its value, by the place and the rule
that `motion` reports. Place 0 is the text and its top, then come the axes, the groups and the
tables."""

import re
import tomllib
from collections.abc import Callable, Iterator
from decimal import Decimal
from fractions import Fraction
from math import ceil
from typing import Any, Optional

from motion_tools.config import QUANTITY, units_in
from motion_tools.explain.faults import Fault

TOP = {"version": "integer", "cycle_us": "integer", "cycles": "integer", "entries": "integer",
       "axis": "tables", "group": "tables", "table": "tables"}
ITEM_KEYS: dict[str, dict[str, str]] = {
    "axis": {"name": "string", "lo": "quantity", "hi": "quantity", "vmax": "quantity",
             "amax": "quantity", "dmax": "quantity", "increment": "quantity", "start": "quantity",
             "ready": "truth", "lag": "integer", "faults": "integers"},
    "group": {"name": "string", "axes": "strings"},
    "table": {"points": "strings"},
}
OPTIONAL = {"version", "group", "table", "dmax", "ready", "lag", "faults"}
RANGES = {"cycle_us": (100, 100_000), "cycles": (1, 200_000), "entries": (1, 1_000_000),
          "lag": (0, 64)}
NAME = re.compile(r"[A-Za-z][A-Za-z0-9_]{0,15}")
TYPES: dict[str, tuple[Callable[[Any], bool], str]] = {
    "integer": (lambda value: isinstance(value, int) and not isinstance(value, bool),
                "an integer without quotes"),
    "quantity": (lambda value: isinstance(value, (int, str)) and not isinstance(value, bool),
                 "a quantity: an integer, or a decimal number in quotes"),
    "string": (lambda value: isinstance(value, str), "a string in quotes"),
    "truth": (lambda value: isinstance(value, bool), "true or false without quotes"),
    "integers": (lambda value: isinstance(value, list) and all(
        isinstance(each, int) and not isinstance(each, bool) for each in value),
        "a list of integers"),
    "strings": (lambda value: isinstance(value, list) and all(
        isinstance(each, str) for each in value), "a list of strings"),
    "tables": (lambda value: isinstance(value, list) and all(
        isinstance(each, dict) for each in value), "a list of tables, as [[axis]]"),
}
Item = tuple[str, int, dict[str, Any]]          # its kind, its number from 0 among these, its keys


def fault_at(text: str, place: int, rule: str) -> Optional[Fault]:
    """What breaks a rule at a place, where this reader finds it."""
    if rule == "C8":
        # Its place is the line of the first sign too many; the text isn't read as TOML.
        return Fault("C8", place, -1, 1, "there are more signs than any machine needs")
    try:
        data = tomllib.loads(text.removeprefix("\ufeff"))
    except tomllib.TOMLDecodeError as error:
        return syntax_fault(text, str(error)) if rule == "C1" else None
    except RecursionError:
        return Fault("C1", len(text.splitlines()) or 1, -1, 1, "brackets are nested too deep") \
            if rule == "C1" else None
    for kind, number, key, says in broken(data, place, rule, units_in(text)):
        return placed(text, rule, kind, number, key, says)
    if (place, rule, data.get("version")) == (0, "C5", 3):
        return placed(text, rule, "", 0, "version", "the configuration is of version 3")
    return None


def faults_of(text: str) -> list[Fault]:
    """What breaks a rule at each place, by the first rule that is broken there."""
    try:
        data = tomllib.loads(text.removeprefix("\ufeff"))
    except (tomllib.TOMLDecodeError, RecursionError):
        fault = fault_at(text, 0, "C1")
        return [fault] if fault else []
    faults: list[Fault] = []
    for place in range(len(items_of(data)) + 1):
        for rule in [f"C{number}" for number in range(2, 8)]:
            if rule == "C5" and any("cycle_us" in fault.says for fault in faults):
                break                       # the ranges of rates depend on it
            try:
                found = [placed(text, rule, *each)
                         for each in broken(data, place, rule, units_in(text))]
            except (KeyError, TypeError, ValueError, AttributeError, ZeroDivisionError):
                break
            if found:
                faults += found
                break
    return faults


def syntax_fault(text: str, says: str) -> Fault:
    """Where a text ceases to be TOML."""
    found = re.search(r"\s*\(at line (\d+), column (\d+)\)", says)
    if not found:
        return Fault("C1", len(text.splitlines()) or 1, -1, 1, re.sub(r"\s*\(at.*", "", says))
    lines = text.split("\n")
    line = min(int(found[1]), len(lines))
    header = re.match(rf"\s*\[+\s*({'|'.join(ITEM_KEYS)})\s*\]", lines[line - 1])
    if header and (single := single_header(lines, header[1])):
        return single
    word = lines[line - 1][int(found[2]) - 1:].split(" ")[0]
    return Fault("C1", line, int(found[2]) - 1, 1, says[:found.start()], word)


def single_header(lines: list[str], kind: str) -> Optional[Fault]:
    """The first header of a kind in single brackets, which makes one table of a list of tables."""
    for number, line in enumerate(lines, 1):
        if found := re.match(rf"\s*(\[\s*{kind}\s*\])", line):
            return Fault("C1", number, found.start(1), len(found[1]), f"{found[1]} is one table, "
                         f"and has to be of a list of tables, as [[{kind}]]", found[1])
    return None


def placed(text: str, rule: str, kind: str, number: int, key: str, says: str) -> Fault:
    """A fault with the line of its key, or of the header of its item."""
    begin = 0
    lines = text.split("\n")
    if kind:
        headers = [place for place, line in enumerate(lines)
                   if re.match(rf"\s*\[\[\s*{kind}\s*\]\]", line)]
        if number >= len(headers):
            return Fault(rule, 0, -1, 1, says, key)
        begin = headers[number]
    for place in range(begin, len(lines)):
        if place > begin and kind and re.match(r"\s*\[", lines[place]):
            break
        if not key:
            continue
        if found := re.match(rf"\s*({re.escape(key)})\s*=\s*(\S[^#]*)?", lines[place]):
            value = (found[2] or "").rstrip()
            group = 2 if value and not says.startswith("there is no key") else 1
            return Fault(rule, place + 1, found.start(group), len(value if group == 2 else key),
                         says, value if group == 2 else key)
        if not kind and (found := re.match(rf"\s*(\[+\s*{re.escape(key)}\s*\]+)", lines[place])):
            return Fault(rule, place + 1, found.start(1), len(found[1]), says, found[1])
    header = lines[begin] if kind else ""
    return Fault(rule, begin + 1 if kind else 0, 0 if kind else -1, len(header.strip()), says, key)


def items_of(data: dict[str, Any]) -> list[Item]:
    """The items of a configuration, by place."""
    return [(kind, number, item) for kind in ("axis", "group", "table")
            for number, item in enumerate(data.get(kind, []))
            if isinstance(item, dict)]


def broken(data: dict[str, Any], place: int, rule: str,
           units: list[str]) -> Iterator[tuple[str, int, str, str]]:
    """What breaks a rule at a place: the kind and the number of the item, the key, and why. `units`
    are those of the axes."""
    if place == 0:
        yield from (("", 0, key, says) for key, says in top_faults(data, rule))
        return
    items = items_of(data)
    if place > len(items):
        return
    kind, number, item = items[place - 1]
    check = {"C2": type_faults, "C3": quantity_faults}.get(rule)
    if check:
        found = check(item, ITEM_KEYS[kind], kind)
    elif rule == "C4":
        found = name_faults(items, place - 1, "version" in data)
    elif rule == "C5":
        unit = units[number] if kind == "axis" else ""
        found = range_faults(item, data["cycle_us"], unit)
    elif rule == "C6":
        found = count_faults(item, kind)
    else:
        found = point_faults(item)
    yield from ((kind, number, key, says) for key, says in found)


def top_faults(data: dict[str, Any], rule: str) -> Iterator[tuple[str, str]]:
    """What is wrong at the top."""
    if rule == "C2":
        yield from type_faults(data, TOP, "configuration")
    elif rule == "C5":
        if data.get("version", 3) != 3:
            yield "version", f"version is {data['version']}, and is 3 or left out"
        for key in ("cycle_us", "cycles", "entries"):
            low, high = RANGES[key]
            if not low <= data[key] <= high:
                yield key, f"{key} is {data[key]}, and has to be from {low} to {high:,}"
    elif rule == "C6":
        for key, most in (("axis", 16), ("group", 4), ("table", 16)):
            count = len(data.get(key, []))
            if count > most or (key == "axis" and not count):
                yield key, f"there are {count} {key} tables, and {most} at most" + (
                    ", 1 at least" if key == "axis" else "")


def type_faults(item: dict[str, Any], keys: dict[str, str],
                kind: str) -> Iterator[tuple[str, str]]:
    """Keys that are unknown or missing, and values of another type."""
    for key, value in item.items():
        if key not in keys:
            known = {each.lower(): each for each in keys}
            near = known.get(key.lower())
            yield key, f"there is no key {key}" + (
                f"; it is written {near}" if near else f"; the keys are {', '.join(keys)}")
        elif not TYPES[keys[key]][0](value):
            yield key, f"{key} is {shown(value)}, and has to be {TYPES[keys[key]][1]}"
    for key in keys:
        if key not in item and key not in OPTIONAL:
            lower = [each for each in item if each.lower() == key]
            if not lower:
                yield key, f"{'an' if kind == 'axis' else 'a'} {kind} needs the key {key}"


def shown(value: object) -> str:
    """A value as TOML has it."""
    if isinstance(value, bool):
        return str(value).lower()
    if isinstance(value, float):
        return f"{value!r}, a TOML float"
    if isinstance(value, str):
        return f'"{value}"'
    return "a table" if isinstance(value, dict) else str(value)[:40]


def quantity_faults(item: dict[str, Any], keys: dict[str, str],
                    kind: str) -> Iterator[tuple[str, str]]:
    """Strings that are no decimal numbers, and points that are none."""
    for key, value in item.items():
        if keys.get(key) == "quantity" and not is_quantity(value):
            yield key, f"{key} is {shown(value)}, and that is no decimal number within 10^9 of 0"
    for point in item.get("points", []) if kind == "table" else []:
        parts = point.split(":")
        if len(parts) != 2 or not all(map(is_quantity, parts)):
            yield "points", f'the point "{point}" is no X:Y of two decimal numbers'


def is_quantity(value: object) -> bool:
    """Whether a value is a quantity."""
    text = str(value)
    return bool(QUANTITY.fullmatch(text)) and abs(Fraction(text)) <= 10**9


def name_faults(items: list[Item], place: int, third: bool) -> Iterator[tuple[str, str]]:
    """A name that is none or is used, in version 3 in any case of letters, and axes of a group that
    aren't free."""
    kind, _, item = items[place]
    name = item.get("name", "")
    if kind != "table" and not NAME.fullmatch(name):
        yield "name", f'"{name}" is no name: a letter, then up to 15 letters, digits or _'
    if kind != "table" and name in [other.get("name") for _, _, other in items[:place]]:
        yield "name", f"the name {name} is used above"
    elif kind != "table" and third:
        for other in [str(other.get("name")) for _, _, other in items[:place]]:
            if other.lower() == name.lower():
                yield "name", f"{name} is {other} above in another case of letters"
    axes = [other.get("name") for each, _, other in items if each == "axis"]
    taken = {axis: other["name"] for each, _, other in items[:place] if each == "group"
             for axis in other["axes"]}
    for number, axis in enumerate(item.get("axes", [])):
        if axis not in axes:
            yield "axes", f"there is no axis {axis}; there are {', '.join(map(str, axes))}"
        elif axis in taken or axis in item["axes"][:number]:
            yield "axes", f"{axis} is in {taken.get(axis, 'this group')} already"


def range_faults(item: dict[str, Any], cycle_us: int, unit: str) -> Iterator[tuple[str, str]]:
    """Numbers of an axis that are outside their ranges."""
    number = {key: Fraction(str(item[key])) for key in ITEM_KEYS["axis"]
              if ITEM_KEYS["axis"][key] == "quantity" and key in item}
    lo, hi, increment = number["lo"], number["hi"], number["increment"]
    for key in ("lo", "hi"):
        if abs(number[key]) > 10**6:
            yield key, f"{key} is {decimal(number[key])}, and has to be within 1,000,000 of 0"
    if lo >= hi:
        yield "hi", f"hi is {decimal(hi)}, and has to be above lo, {decimal(lo)}"
    yield from rate_faults(number, cycle_us, unit)
    if not 0 < increment <= 1:
        yield "increment", f"increment is {decimal(increment)}, and has to be above 0 and at most 1"
        return
    for key in ("lo", "hi"):
        if not -2**31 <= number[key] // increment < 2**31:
            yield "increment", (f"{key} is {number[key] // increment:,} increments, which is no "
                                "number of 32 bits; take a greater increment")
    start = number["start"]
    if lo < hi and not lo <= start <= hi:
        yield "start", (f"start is {decimal(start)}, and has to be from lo to hi, {decimal(lo)} to "
                        f"{decimal(hi)}")
    elif (start / increment).denominator != 1:
        yield "start", (f"start is {decimal(start)}, and no whole number of increments of "
                        f"{decimal(increment)}")
    yield from drive_faults(item)


def rate_faults(number: dict[str, Fraction], cycle_us: int,
                unit: str) -> Iterator[tuple[str, str]]:
    """Rates that are no steps of a cycle in their range."""
    seconds = Fraction(cycle_us, 10**6)
    for key, power, least in (("vmax", 1, 1), ("amax", 2, 2), ("dmax", 2, 2)):
        if key not in number:
            continue
        step = number[key] * 10**9 * seconds**power // 1
        if not least <= step <= 10**10:
            low = decimal(Fraction(ceil(least / seconds**power), 10**9))
            yield key, (f"{key} is {decimal(number[key])}, and with a cycle of {cycle_us} us it "
                        f"has to be from {low} to {decimal(10 / seconds**power)} {unit} per second"
                        + (" squared" if power == 2 else ""))
    if "dmax" in number and number["dmax"] < number["amax"]:
        yield "dmax", (f"dmax is {decimal(number['dmax'])}, below amax, {decimal(number['amax'])}: "
                       "an axis brakes at least as hard as it speeds up")


def drive_faults(item: dict[str, Any]) -> Iterator[tuple[str, str]]:
    """A lag and steps with a fault that a drive can't have."""
    lag, last = item.get("lag", 0), 0
    if not 0 <= lag <= 64:
        yield "lag", f"lag is {lag}, and has to be from 0 to 64 cycles"
    for step in item.get("faults", []):
        if not last < step < 2**32:
            yield "faults", f"the fault step {step} has to be above {last}, the one before it"
        last = step


def count_faults(item: dict[str, Any], kind: str) -> Iterator[tuple[str, str]]:
    """Too few or too many axes of a group, or faults of a drive."""
    if kind == "group" and not 2 <= len(item["axes"]) <= 6:
        yield "axes", f"the group has {len(item['axes'])} axes, and has 2 to 6"
    if kind == "axis" and len(item.get("faults", [])) > 1000:
        yield "faults", f"the drive has {len(item.get('faults', []))} faults, and has 1,000 at most"


def point_faults(item: dict[str, Any]) -> Iterator[tuple[str, str]]:
    """Points that make no cam table."""
    points, last = item["points"], None
    if not 2 <= len(points) <= 4096:
        yield "points", f"there are {len(points)} points, and a table has 2 to 4,096"
    for point in points:
        x, y = (Fraction(part) for part in point.split(":"))
        if last is not None and x <= last:
            yield "points", f'X has to rise from point to point, and at "{point}" it does not'
        if max(abs(x), abs(y)) > 10**6:
            yield "points", f'the point "{point}" is more than 1,000,000 units from 0'
        last = x


def decimal(number: Fraction) -> str:
    """A quantity as a decimal number, as a configuration has it: without an exponent, with at most
    nine digits after the point."""
    text = format(Decimal(number * 10**9 // 1).scaleb(-9), "f")
    return text.rstrip("0").rstrip(".")
