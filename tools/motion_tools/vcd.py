"""Writes a trace of `motion` as a value change dump (VCD, IEEE 1364), for a waveform viewer.

With --plain the dump keeps to what simple readers know, as that of sigrok: states are numbers,
names are whole and without scopes, and the time is in microseconds.
"""

import argparse
import os
from collections.abc import Callable, Sequence
from typing import Any, Optional, TextIO

from motion_tools import command
from motion_tools.gtkwave import view_of
from motion_tools.trace import (AXIS_STATES, GROUP_STATES, Axis, Block, Call, Cycle, Group,
                                GroupRow, Machine, Row, Trace, TraceError)
from motion_tools.units import Motions, Step, Units, scaled

NANOSECONDS = 1000      # in a microsecond; the dump's time is in nanoseconds
OUTPUTS = (("busy", "B"), ("active", "A"), ("done", "D"), ("command_aborted", "C"),
           ("error", "E"), ("reached", "R"))


def parser() -> argparse.ArgumentParser:
    words = command.options_of("trace_to_vcd", __doc__)
    words.add_argument("-o", "--output", metavar="FILE",
                       help="writes the dump into FILE, and beside it FILE.gtkw, by which GTKWave "
                       "opens it with positions and velocities as lines; left out, the dump goes "
                       "to the standard output")
    words.add_argument("--plain", action="store_true",
                       help="states as numbers, whole names without scopes, times in microseconds: "
                       "for readers as sigrok's")
    return words


def main() -> int:
    words = parser()
    options = words.parse_args()
    if not (options.cycle_us or options.config):
        words.error("the length of a cycle is needed: --config FILE or --cycle-us N")
    kind = PlainDump if options.plain else Dump
    if options.output is None:
        return command.run("trace_to_vcd", options, lambda trace, units, output:
                           write(trace, units, kind(output)))
    try:
        with open(options.output, "w", encoding="utf-8") as target:
            return command.run("trace_to_vcd", options, lambda trace, units, _:
                               write_both(trace, units, kind(target)))
    except OSError as error:
        return command.fail("trace_to_vcd", f"cannot write: {error.strerror}", command.UNWRITTEN)


def write_both(trace: Trace, units: Units, dump: "Dump") -> None:
    """Writes a dump into a file, and beside it how GTKWave shows it, also where the trace turns
    out to be none; a plain dump has no such view."""
    target = dump.output
    try:
        write(trace, units, dump)
    finally:
        target.flush()
        if dump.has_view:
            write_view(trace, dump)


def write_view(trace: Trace, dump: "Dump") -> None:
    """Writes how GTKWave shows a dump, beside it."""
    name = dump.output.name
    with open(f"{name}.gtkw", "w", encoding="ascii") as file:
        file.write(view_of(trace.machine, os.path.basename(name), dump.time or 0))


class Dump:
    """A dump that is written to an output: first variables in their scopes, then changes."""

    has_view = True                     # GTKWave has a view of it

    def __init__(self, output: TextIO):
        self.output = output
        self.variables = 0
        self.time: Optional[int] = None
        self.scopes: list[str] = []

    def line(self, text: str) -> None:
        self.output.write(text + "\n")

    def scale(self) -> None:
        self.line("$timescale 1 ns $end")

    def scope(self, name: str) -> None:
        self.scopes.append(name)
        self.line(f"$scope module {name} $end")

    def upscope(self) -> None:
        self.scopes.pop()
        self.line("$upscope $end")

    def variable(self, kind: str, bits: int, name: str) -> str:
        """Declares a variable, and gives its code."""
        code = code_of(self.variables)
        self.variables += 1
        self.line(f"$var {kind} {bits} {code} {name} $end")
        return code

    def event(self, name: str) -> Callable[[], None]:
        """Declares an event, and gives what makes it happen."""
        code = self.variable("event", 1, name)
        return lambda: self.line("1" + code)

    def state(self, name: str, _: Sequence[str]) -> "Signal":
        """A state, as its word: a kind of variable that GTKWave reads and IEEE 1364 doesn't
        know."""
        return Signal(self, "string", 1, name, lambda value: f"s{value} ")

    def at(self, time: int) -> None:
        """What is written next happens at this time, in nanoseconds, not before the last one."""
        if time != self.time:
            self.line(f"#{time}")
            self.time = time


class PlainDump(Dump):
    """A dump for simple readers: one scope, whole names, states as numbers, microseconds."""

    has_view = False

    def scale(self) -> None:
        self.line("$timescale 1 us $end")

    def scope(self, name: str) -> None:
        self.scopes.append(name)
        if len(self.scopes) == 1:
            self.line(f"$scope module {name} $end")

    def upscope(self) -> None:
        self.scopes.pop()
        if not self.scopes:
            self.line("$upscope $end")

    def variable(self, kind: str, bits: int, name: str) -> str:
        """Declares a variable whose name begins with that of its axis, group or block. An integer
        is a vector of its bits."""
        owner, plain = self.scopes[-1], name.split()[0]
        return super().variable("wire" if kind == "integer" else kind, bits, f"{owner}_{plain}")

    def event(self, name: str) -> Callable[[], None]:
        """An event as a bit that turns at each."""
        turned = bit(self, name)
        return lambda: turned.set(not turned.value)

    def state(self, name: str, states: Sequence[str]) -> "Signal":
        """A state as a number, which a comment explains, and as a bit for each state: some readers
        show bits alone."""
        words = ", ".join(f"{number} {state}" for number, state in enumerate(states))
        self.line(f"$comment {self.scopes[-1]}_{name}: {words} $end")
        return StateSignal(self, name, states)

    def at(self, time: int) -> None:
        super().at(time // NANOSECONDS)


def code_of(index: int) -> str:
    """The code of a variable: printable characters from ! to ~, as a number of base 94."""
    code = chr(33 + index % 94)
    while index >= 94:
        index = index // 94 - 1
        code += chr(33 + index % 94)
    return code


class Signal:
    """A variable whose values are written where they change. `spell` gives a value's text, to
    which the code is added."""

    def __init__(self, dump: Dump, kind: str, bits: int, name: str, spell: Callable[[Any], str]):
        self.dump, self.spell = dump, spell
        self.code = dump.variable(kind, bits, name)
        self.value: Any = None

    def set(self, value: Any) -> None:
        if value != self.value:
            self.value = value
            self.dump.line(self.spell(value) + self.code)


class StateSignal(Signal):
    """A state as a number, and a bit for each."""

    def __init__(self, dump: Dump, name: str, states: Sequence[str]):
        super().__init__(dump, "wire", 4, name, lambda value: f"b{states.index(value):b} ")
        self.bits = [(state, bit(dump, state)) for state in states]

    def set(self, value: str) -> None:
        super().set(value)
        for state, signal in self.bits:
            signal.set(state == value)


def bit(dump: Dump, name: str) -> Signal:
    """A truth value."""
    return Signal(dump, "wire", 1, name, lambda value: "1" if value else "0")


def word(dump: Dump, name: str) -> Signal:
    """A word of 16 bits."""
    return Signal(dump, "wire", 16, f"{name} [15:0]", lambda value: f"b{value:b} ")


def integer(dump: Dump, name: str) -> Signal:
    """A whole number, of which the lowest 32 bits are written, the highest of them as a sign."""
    return Signal(dump, "integer", 32, name, lambda value: f"b{value & 0xffffffff:b} ")


def real(dump: Dump, name: str) -> Signal:
    """A number in user or internal units; where there is none it is nan, in a plain dump 0."""
    none = "nan" if dump.has_view else "0"
    return Signal(dump, "real", 64, name, lambda value: f"r{none if value is None else value} ")


class AxisSignals:
    """The signals of an axis."""

    def __init__(self, dump: Dump, axis: Axis, units: Units, version: int):
        self.origin = axis.start
        self.factors = units.factors(axis.name)
        dump.scope(axis.name)
        self.numbers = [real(dump, name) for name in ("setpoint", "velocity", "acceleration")]
        self.place = real(dump, "place") if version > 1 else None
        self.state, self.error = dump.state("state", AXIS_STATES), integer(dump, "error")
        self.driven = bit(dump, "driven")
        self.statusword, self.controlword = word(dump, "statusword"), word(dump, "controlword")
        self.target, self.actual = integer(dump, "target"), integer(dump, "actual")
        self.mode = integer(dump, "mode")
        dump.upscope()

    def start(self) -> None:
        """The axis at its start, at rest."""
        self.set_numbers(self.numbers, [self.origin, 0, 0])

    def set(self, row: Row, step: Step) -> None:
        """The values of the axis's row, whose velocity and acceleration are `step`."""
        self.set_numbers(self.numbers, [row.setpoint, *step])
        if self.place is not None:
            self.set_numbers([self.place], [row.place])
        self.state.set(row.state)
        self.error.set(row.error)
        self.driven.set(row.driven)
        self.statusword.set(row.statusword)
        self.controlword.set(row.controlword)
        self.target.set(row.target)
        self.actual.set(row.actual)
        self.mode.set(row.mode)

    def set_numbers(self, signals: Sequence[Signal], numbers: Sequence[Optional[int]]) -> None:
        """Sets a position, velocity and acceleration, or the first of them, in the axis's units."""
        values = numbers if self.factors is None else scaled(numbers, self.factors)
        for signal, value in zip(signals, values):
            signal.set(value)


class GroupSignals:
    """The signals of a group."""

    def __init__(self, dump: Dump, group: Group):
        dump.scope(group.name)
        self.state, self.error = dump.state("state", GROUP_STATES), integer(dump, "error")
        dump.upscope()

    def set(self, row: GroupRow) -> None:
        self.state.set(row.state)
        self.error.set(row.error)


class BlockSignals:
    """The calls of a block, as events, with the Execute and the outputs of the last call."""

    def __init__(self, dump: Dump, block: Block):
        dump.scope(block.name)
        self.call = dump.event("call")
        self.execute = bit(dump, "execute")
        self.outputs = [(bit(dump, name), letter) for name, letter in OUTPUTS]
        self.error_id = integer(dump, "error_id")
        dump.upscope()

    def set(self, call: Call) -> None:
        self.call()
        self.execute.set(call.execute)
        for output, letter in self.outputs:
            output.set(letter in call.outputs)
        self.error_id.set(call.error)


class MachineSignals:
    """All signals of a machine, in scopes: of each axis, each group, and each task with its
    blocks."""

    def __init__(self, dump: Dump, machine: Machine, units: Units):
        self.axes = {axis.name: AxisSignals(dump, axis, units, machine.version)
                     for axis in machine.axes}
        self.groups = {group.name: GroupSignals(dump, group) for group in machine.groups}
        self.blocks: dict[str, BlockSignals] = {}
        for task in machine.tasks:
            dump.scope(task)
            self.blocks.update({block.name: BlockSignals(dump, block)
                                for block in machine.blocks if block.task == task})
            dump.upscope()


def write(trace: Trace, units: Units, dump: Dump) -> None:
    """Writes the variables, and the changes of each cycle as it is read."""
    signals = write_head(dump, trace.machine, units)
    length = units.cycle_us * NANOSECONDS
    motions, last = Motions(trace.machine), 0
    for cycle in trace.cycles():
        if cycle.number <= last:
            raise TraceError(cycle.record, f"cycle {cycle.number} follows cycle {last}")
        write_calls(dump, signals, cycle.calls, last * length, cycle.number * length)
        write_rows(dump, signals, cycle, motions.steps(cycle), cycle.number * length)
        last = cycle.number
    write_calls(dump, signals, trace.last_calls, last * length, (last + 1) * length)
    dump.at((last + 1) * length)


def write_head(dump: Dump, machine: Machine, units: Units) -> MachineSignals:
    """Declares the variables, which it gives, and writes the values at the opening."""
    for axis in machine.axes:
        names = [name or "internal units, per cycle" for name in units.names(axis.name)]
        dump.line(f"$comment {axis.name} is in {', '.join(dict.fromkeys(names))} $end")
    dump.scale()
    dump.scope("motion")
    signals = MachineSignals(dump, machine, units)
    dump.upscope()
    dump.line("$enddefinitions $end")
    dump.at(0)
    dump.line("$dumpvars")
    for axis in signals.axes.values():
        axis.start()
    dump.line("$end")
    return signals


def write_calls(dump: Dump, signals: MachineSignals, calls: Sequence[Call], begin: int,
                end: int) -> None:
    """Writes calls in their order, evenly between two times: a trace has no times of calls."""
    for place, call in enumerate(calls, 1):
        dump.at(begin + place * (end - begin) // (len(calls) + 1))
        signals.blocks[call.block].set(call)


def write_rows(dump: Dump, signals: MachineSignals, cycle: Cycle, steps: dict[str, Step],
               time: int) -> None:
    """Writes what a cycle's rows change."""
    dump.at(time)
    for name, row in cycle.rows.items():
        signals.axes[name].set(row, steps[name])
    for name, row in cycle.groups.items():
        signals.groups[name].set(row)
