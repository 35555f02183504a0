"""How GTKWave shows a dump of `trace_to_vcd`: positions and velocities as lines.

A view is a file of GTKWave's own (`.gtkw`): the name of the dump, and signals in their order, each
after the flags of those that follow. An empty row after an analog signal gives it more height.
"""

import math

from motion_tools.trace import Block, Machine

# An analog line over its whole height, of signed numbers, in steps: a dump has changes alone, so
# that a line that is joined from one to the next would rise where the axis still stands.
ANALOG = "@88420"
WORD, BIT, COMMENT, ROOM = "@22", "@28", "@200", "@20000"
HEIGHT = 3                              # rows that an analog line takes beside its own
WIDTH, FRAME = 800, 150                 # pixels that a dump is fitted into, and a zoom is given of


def view_of(machine: Machine, dump: str, end: int) -> str:
    """The text of the view of a machine's dump, which stands in the same folder and ends at a time
    in nanoseconds: all of it is in the window at first."""
    zoom = -math.log2(max(end, 1) * FRAME / WIDTH)
    lines = [f'[dumpfile] "{dump}"', "[timestart] 0", f"[size] {WIDTH + 600} 900",
             f"*{zoom:.6f} -1", "[sst_expanded] 0", "[signals_width] 220"]
    for axis in machine.axes:
        lines += axis_view(axis.name, machine.version > 1)
    for group in machine.groups:
        lines += [COMMENT, f"-Group {group.name}", WORD, f"motion.{group.name}.state"]
    for block in machine.blocks:
        lines += block_view(f"motion.{block.task}.{block.name}", block)
    return "\n".join(lines) + "\n"


def axis_view(name: str, has_place: bool) -> list[str]:
    """An axis: its lines, its state and whether it is driven."""
    lines = [COMMENT, f"-Axis {name}", *analog(f"motion.{name}.setpoint")]
    if has_place:
        lines += analog(f"motion.{name}.place")
    return [*lines, *analog(f"motion.{name}.velocity"), WORD, f"motion.{name}.state", BIT,
            f"motion.{name}.driven"]


def analog(signal: str) -> list[str]:
    """A signal as a line, in some rows of height."""
    return [ANALOG, signal, ROOM, *["-"] * HEIGHT]


def block_view(scope: str, block: Block) -> list[str]:
    """A block: what it was given and what it answered."""
    names = ("execute", "busy", "active", "done", "command_aborted", "error", "reached")
    return [COMMENT, f"-{block.name}: {block.kind}", BIT, *(f"{scope}.{name}" for name in names)]
