"""Why a call was rejected or an axis met an error: the reason of the number, with the values at
hand."""

from typing import Optional

from motion_tools.blocks import RELATIVE, acts_on_group
from motion_tools.explain import hints
from motion_tools.explain.history import Failure, History
from motion_tools.trace import Call
from motion_tools.units import Units, decimal

RATES = {6: ("velocity", "velocity", "vmax"), 7: ("acceleration", "acceleration", "amax"),
         8: ("deceleration", "acceleration", "dmax")}
EXACT = 12          # digits of a rate and its limit, where fewer don't tell them apart
MOVING = ("GroupStandby", "GroupMoving")
LEADS = {"GroupEnable": ("GroupDisabled",), "GroupDisable": ("GroupDisabled", "GroupStandby"),
         "GroupHalt": MOVING, "GroupStop": MOVING,
         "MoveLinearAbsolute": MOVING, "MoveCircularAbsolute": MOVING}      # states by kinds
STATE_OF = {1: "Disabled", 2: "ErrorStop", 3: "Stopping", 4: "Homing"}


def reason_of(history: History, failure: Failure, units: Units) -> str:
    """The reason in numbers of this call; nothing where the general one says all."""
    call, number = failure.call, failure.number
    if call is None or failure.block is None:
        return axis_reason(history, failure, units)
    if number in STATE_OF:
        return state_reason(history, failure, STATE_OF[number])
    if number in RATES:
        return rate_reason(history, failure, call, units)
    if number == 10:
        return target_reason(history, failure, call, units)
    return other_reason(history, failure, call, units)


def state_reason(history: History, failure: Failure, state: str) -> str:
    """Which axis was in the state that the number stands for."""
    block = failure.block
    if block is None or not acts_on_group(block.kind):
        return f"{failure.owner} is {state_words(state)}"
    states = {name: failure.rows[name].state if name in failure.rows else "Disabled"
              for name in history.axes_of(failure.owner)}
    found = [name for name, each in states.items() if each == state]
    return f"{' and '.join(found) or 'an axis'} of {failure.owner} is {state_words(state)}"


def state_words(state: str) -> str:
    return "Disabled" if state == "Disabled" else f"in {state}"


def rate_reason(history: History, failure: Failure, call: Call, units: Units) -> str:
    """A velocity, an acceleration or a deceleration, and what the axis may have."""
    name, quantity, limit = RATES[failure.number]
    value = getattr(call, name)
    axis = history.axes_of(failure.owner)[0]
    given = units.text(axis, value, quantity)
    if failure.owner in history.members:
        return f"the {name} is {given}"
    most = getattr(history.axes[axis].axis, limit)
    greatest = units.text(axis, most, quantity)
    if given == greatest:
        given, greatest = (units.text(axis, each, quantity, EXACT) for each in (value, most))
    if value == 0:
        return (f"the {name} is 0, as it was left out or is less than an internal unit a cycle; "
                f"{limit} is {greatest}")
    return f"the {name} is {given}, and {limit} is {greatest}"


def target_reason(history: History, failure: Failure, call: Call, units: Units) -> str:
    """The targets that lie beyond the limits."""
    parts = []
    for name, position in zip(history.axes_of(failure.owner), call.positions or ()):
        axis = history.axes[name].axis
        if failure.block and failure.block.kind in RELATIVE:
            begin = units.text(name, failure.base[name])
            parts.append(f"{units.text(name, position)} from {begin} leads beyond the limits of "
                         f"{name}, {limits(axis.lo, axis.hi, name, units)}")
        elif not axis.lo <= position <= axis.hi:
            parts.append(f"{units.text(name, position)} is beyond the limits of {name}, "
                         f"{limits(axis.lo, axis.hi, name, units)}")
    return "; ".join(parts)


def limits(low: int, high: int, name: str, units: Units) -> str:
    """From where to where an axis goes."""
    return f"{units.text(name, low).split()[0]} to {units.text(name, high)}"


def jerk_text(history: History, failure: Failure, call: Call, units: Units) -> str:
    """The jerk as it is written: that of a configuration's tasks is kept in billionths of what was
    read, that of a bench in its units."""
    scale = units.of(history.axes_of(failure.owner)[0])
    if history.machine.maker != "run" or scale is None or not units.cycle_us:
        return str(call.jerk)
    return f"{decimal((call.jerk or 0) * scale.factor)} {scale.unit}/s³"


def state_cure(failure: Failure) -> str:
    """What to do where a group's state is none from which the block leads; nothing where a call
    since the last cycle has changed that state."""
    kind = failure.block.kind if failure.block else ""
    return "" if failure.state in LEADS.get(kind, ()) else hints.state_cure(kind, failure.state)


def other_reason(history: History, failure: Failure, call: Call, units: Units) -> str:
    """The reasons that have a value of another kind."""
    row = failure.rows.get(failure.owner)
    state = row.state if row else failure.state
    if failure.number == 9:
        return f"the jerk is {jerk_text(history, failure, call, units)}, and not 0"
    if failure.number == 12:
        return not_at_rest(history, failure)
    if failure.number == 16 and state and failure.block:
        if state in LEADS.get(failure.block.kind, ()):
            return f"a call since the last cycle changed the state of {failure.owner}"
        return f"{failure.owner} is in {state}"
    if failure.number == 13 and call.follow:
        return f"the ratio is {':'.join(call.follow.split(':')[1:])}"
    if failure.number == 14 and call.follow:
        count = len(history.machine.tables)
        return (f"there is no table {call.follow.split(':')[1]}; the configuration has "
                f"{f'{count}, numbered from 1' if count else 'none'}")
    if failure.number == 17:
        return f"the mode is {call.mode}"
    return ""


def not_at_rest(history: History, failure: Failure) -> str:
    """Which axes weren't in Standstill: by their last rows, or as a command began after them."""
    names = history.axes_of(failure.owner)
    states = [f"{name} is in {failure.rows[name].state}" for name in names
              if name in failure.rows and failure.rows[name].state != "Standstill"]
    if states:
        return "; ".join(states)
    begun = [name for name in names if any(command.block.on == name and command.call is not
                                           failure.call and command.begun == failure.cycle
                                           for command in history.commands)]
    who = " and ".join(begun) or (names[0] if len(names) == 1 else f"an axis of {failure.owner}")
    return f"{who} {'have' if len(begun) > 1 else 'has'} begun a command since the last cycle"


def axis_reason(history: History, failure: Failure, units: Units) -> str:
    """What the row of an axis in error says, and those of a group's axes."""
    row = failure.rows.get(failure.owner)
    if row is None:
        return "; ".join(f"{name} is {state_words(failure.rows[name].state)}"
                         for name in history.members.get(failure.owner, ())
                         if name in failure.rows
                         and failure.rows[name].state in ("ErrorStop", "Disabled"))
    if failure.number in (101, 102):
        return f"the statusword is {row.statusword:04x} hexadecimal"
    axis = history.axes[failure.owner].axis
    before: Optional[int] = None
    if failure.owner in failure.before:
        before = failure.before[failure.owner].setpoint
    if failure.number in (103, 105) and before is not None:
        return (f"{failure.owner} was at {units.text(failure.owner, before)}, and its limits are "
                f"{limits(axis.lo, axis.hi, failure.owner, units)}")
    if failure.number == 104 and before is not None:
        return (f"{failure.owner} was at {units.text(failure.owner, before)}, and its amax is "
                f"{units.text(failure.owner, axis.amax, 'acceleration')}")
    return ""
