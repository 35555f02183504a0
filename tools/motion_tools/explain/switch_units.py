"""Switch files whose positions are perhaps in other units than the trace that they are for."""

from collections.abc import Iterator

from motion_tools.explain import hints
from motion_tools.explain.findings import Finding
from motion_tools.explain.finder import words_of
from motion_tools.trace import Machine
from motion_tools.units import Units

SMALL = 100_000         # positions that are smaller than the axis's range by this factor


def small_positions(machine: Machine, file: str, text: str, units: Units) -> Iterator[Finding]:
    """Switches in internal units whose positions are tiny beside the range of their axis."""
    axes = {axis.name: axis for axis in machine.axes}
    for number, line in enumerate(text.splitlines(), 1):
        words = words_of(line)
        if len(words) != 6 or words[0] != "switch" or words[2] not in axes:
            continue
        axis = axes[words[2]]
        if not all(word.lstrip("-").isdigit() for word in words[3:5]):
            continue
        on, off = map(int, words[3:5])
        if 0 < max(abs(on), abs(off)) * SMALL < axis.hi - axis.lo:
            says, cure = hints.warning("switch-units")
            shown = f", {units.text(axis.name, off)}" if units.of(axis.name) else ""
            yield Finding("warning", "switch-units", f"the switch {words[1]} is on from {on} to "
                          f"{off} internal units{shown}; {axis.name} goes from {axis.lo} to "
                          f"{axis.hi}: {says}", cure, "", file, number, 0, 1, line)
