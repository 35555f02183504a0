"""The lines of benches, programs and switch files: what is wrong with the words of each form."""

from collections.abc import Callable

from motion_tools.blocks import FLAGS, MODES, acts_on_group, keys_of
from motion_tools.explain.finder import (FORMS, NAME, NUMBER, POINT, QUANTITY, Finder, Word,
                                         is_number)
from motion_tools.trace import BLOCK_KINDS, LATER_KINDS


def axis_line(found: Finder) -> None:
    """`axis`, which has DMAX from version 2 on."""
    second = found.context.version.endswith(("2", "3"))
    form = FORMS["bench"]["axis"].replace("AMAX", "AMAX DMAX") if second else FORMS["bench"]["axis"]
    titles = [word for word in form.split()[2:] if word != "[ready]"]
    if not found.count(len(titles) + 2, len(titles) + 3, form):
        return
    found.new_name(found.words[1], "axis")
    bounds = {"LO": (-10**15, 10**15), "HI": (-10**15, 10**15), "VMAX": (1, 10**10),
              "AMAX": (2, 10**10), "DMAX": (2, 10**10), "INC": (1, 10**9)}
    read = {title: found.number(word, title, *bounds.get(title, ()))
            for title, word in zip(titles, found.words[2:])}
    if len(found.words) == len(titles) + 3 and found.words[-1].text != "ready":
        found.add("value", found.words[-1], "only the word ready may stand after START")
    values = {title: value for title, value in read.items() if value is not None}
    if len(values) == len(read):
        check_axis(found, values)


def check_axis(found: Finder, values: dict[str, int]) -> None:
    """What the numbers of an axis have to be beside each other."""
    words = dict(zip(values, found.words[2:]))
    if values["LO"] >= values["HI"]:
        found.add("range", words["HI"], "HI has to be above LO")
    if values.get("DMAX", values["AMAX"]) < values["AMAX"]:
        found.add("range", words["DMAX"], "DMAX has to be AMAX at least: an axis brakes at least "
                  "as hard as it speeds up")
    if values["INC"] > 0 and not (values["LO"] <= values["START"] <= values["HI"]
                                  and values["START"] % values["INC"] == 0):
        found.add("range", words["START"], f"START has to lie from LO to HI, and be a multiple of "
                  f"INC, {values['INC']}")
    for title in ("LO", "HI"):
        if values["INC"] > 0 and not -2**31 <= values[title] // values["INC"] < 2**31:
            found.add("range", words[title], f"{title} is {values[title] // values['INC']:,} "
                      "increments, which is no number of 32 bits; take a greater INC")


def drive_line(found: Finder) -> None:
    if found.count(3, 1003, FORMS["bench"]["drive"]):
        found.one_of(found.words[1], found.context.axes, "axis")
        found.number(found.words[2], "LAG", 0, 64)
        last = 0
        for word in found.words[3:]:
            step = found.number(word, "a fault step", 1, 2**32 - 1)
            if step is not None and step <= last:
                found.add("range", word, "fault steps have to rise")
            last = step or last


def group_line(found: Finder) -> None:
    if found.count(4, 8, FORMS["bench"]["group"]):
        found.new_name(found.words[1], "group")
        taken = {axis: group for group, axes in found.context.groups.items() for axis in axes}
        for place, word in enumerate(found.words[2:]):
            if found.one_of(word, found.context.axes, "axis"):
                if word.text in taken:
                    found.add("known", word, f"{word.text} is in the group {taken[word.text]} "
                              "already")
                elif word.text in [each.text for each in found.words[2:2 + place]]:
                    found.add("known", word, f"{word.text} stands here twice")


def table_line(found: Finder) -> None:
    if not found.count(2, 4097, FORMS["bench"]["table"]):
        return
    last = None
    for word in found.words[1:]:
        if not POINT.fullmatch(word.text) or not all(map(is_number, word.text.split(":"))):
            found.add("value", word, f"{word.text} is no point X:Y of two whole numbers")
            continue
        x, y = map(int, word.text.split(":"))
        if max(abs(x), abs(y)) > 10**15:
            found.add("range", word, "a point lies within 10^15 of 0")
        if last is not None and x <= last:
            found.add("range", word, f"X has to rise from point to point, and {x} isn't above "
                      f"{last}")
        last = x
    if len(found.words) < 3:
        found.add("range", found.words[1], "a table has 2 points at least")


def task_line(found: Finder) -> None:
    if found.count(2, 2, "task NAME"):
        found.new_name(found.words[1], "task")


def block_line(found: Finder) -> None:
    """`block`, which in a bench names its task."""
    bench = found.context.kind == "bench"
    form = FORMS[found.context.kind]["block"]
    if not found.count(5 if bench else 4, 5 if bench else 4, form):
        return
    found.new_name(found.words[1], "block")
    if bench:
        found.one_of(found.words[2], found.context.tasks, "task")
    kind, on = found.words[-2:]
    if kind.text in LATER_KINDS and not found.context.version.endswith("3"):
        found.add("known", kind, f"{kind.text} is a kind of version 3")
    elif kind.text not in (*BLOCK_KINDS, *LATER_KINDS):
        found.add("known", kind, f"there is no kind of block {kind.text}")
    elif acts_on_group(kind.text):
        found.one_of(on, found.context.groups, "group")
    else:
        found.one_of(on, found.context.axes, "axis")


def call_line(found: Finder) -> None:
    words, context = found.words, found.context
    form = FORMS[context.kind]["call"]
    if not found.count(3, 3 if len(words) > 2 and words[2].text == "off" else 999, form):
        return
    if words[1].text not in context.blocks:
        found.one_of(words[1], context.blocks, "block")
        return
    task, kind, on = context.blocks[words[1].text]
    if context.kind == "program" and task != context.tasks[-1]:
        found.add("known", words[1], f"{words[1].text} is a block of the task {task}, and a task "
                  "calls its own blocks")
    if words[2].text not in ("on", "off"):
        found.add("value", words[2], f"{words[2].text} stands where on or off is expected")
    allowed = list(keys_of(kind))
    for word in words[3:]:
        key_word(found, word, kind, on, allowed)


def key_word(found: Finder, word: Word, kind: str, on: str, allowed: list[str]) -> None:
    """A word KEY=VALUE of a call."""
    key, sign, value = word.text.partition("=")
    at = Word(value, word.column + len(key) + 1) if sign and value else word
    if key == "master" and sign and value not in found.context.axes:
        found.one_of(at, found.context.axes, "axis")
    if not sign:
        found.add("value", word, f"{word.text} is no word KEY=VALUE")
    elif key not in allowed:
        taken = " ".join(keys_of(kind)) or "no keys"
        says = (f"{key} comes twice or out of order; the order is {taken}" if key in keys_of(kind)
                else f"{kind} takes no key {key}; it takes {taken}")
        found.add("value", word, says)
    else:
        del allowed[:allowed.index(key) + 1]
        key_value(found, at, key, value, on)


def key_value(found: Finder, at: Word, key: str, value: str, on: str) -> None:
    """The value of a key."""
    program = found.context.kind == "program"
    what = "a decimal number, as 12.5" if program else "a whole number"
    pattern = QUANTITY if program and key not in ("num", "den", "table") else NUMBER
    if key == "mode":
        if value not in MODES:
            found.add("value", at, f"{value} is no mode; there are {', '.join(MODES)}")
    elif key == "pos":
        parts = value.split(";")
        if len(parts) != found.context.members(on):
            found.add("value", at, f"pos has {len(parts)} numbers, and {on} has "
                      f"{found.context.members(on)} axes: one for each, joined by ;")
        for part in parts:
            if not pattern.fullmatch(part) or pattern is NUMBER and not is_number(part):
                found.add("value", at, f"pos is {value}, and {part or 'nothing'} is not {what}")
    elif key == "table":
        found.number(at, key, 0, 65535)
    elif key != "master":
        if not pattern.fullmatch(value):
            wanted = "a whole number" if pattern is NUMBER else what
            found.add("value", at, f"{key} is {value or 'nothing'}, and not {wanted}")
        elif abs(float(value)) > 10**9 if pattern is QUANTITY else not is_number(value):
            most = "1,000,000,000" if pattern is QUANTITY else "10^18"
            found.add("value", at, f"{key} is {value}, and has to be at most {most} in size")


def wait_line(found: Finder) -> None:
    if not found.count(3, 3, FORMS["program"]["wait"]):
        return
    name, flag = found.words[1:]
    if name.text not in found.context.blocks:
        found.one_of(name, found.context.blocks, "block")
    elif found.context.blocks[name.text][0] != found.context.tasks[-1]:
        found.add("known", name, f"{name.text} is a block of the task "
                  f"{found.context.blocks[name.text][0]}, and a task waits for its own blocks")
    if flag.text not in FLAGS:
        found.add("value", flag, f"{flag.text} is no flag; there are {', '.join(FLAGS)}")
    elif name.text not in found.context.called:
        found.add("range", name, f"no call of {name.text} stands above; a wait repeats the last "
                  "call")


def repeat_line(found: Finder) -> None:
    if found.count(2, 2, "repeat N"):
        found.number(found.words[1], "N", 1, 1_000_000)


def limit_line(found: Finder) -> None:
    if found.count(3, 3, FORMS["bench"]["limit"]):
        found.number(found.words[1], "CYCLES", 1, 200_000)
        found.number(found.words[2], "ENTRIES", 1, 1_000_000)


def cycle_line(found: Finder) -> None:
    if found.count(1, 2, "cycle [N]") and len(found.words) == 2:
        found.number(found.words[1], "N", 1, 200_000)


def end_line(found: Finder) -> None:
    if found.count(2, 2, "end TASK"):
        found.one_of(found.words[1], found.context.tasks, "task")


def bare_line(found: Finder) -> None:
    """`go` or `again`."""
    found.count(1, 1, found.words[0].text)


def switch_line(found: Finder) -> None:
    if not found.count(6, 6, FORMS["switches"]["switch"]):
        return
    name, axis, *numbers = found.words[1:]
    if not NAME.fullmatch(name.text):
        found.add("name", name, f"{name.text} is no name")
    elif name.text in found.context.switches:
        found.add("known", name, f"there is a switch {name.text} already")
    found.one_of(axis, found.context.axes, "axis")
    on, off, hyst = (found.number(word, title)
                     for word, title in zip(numbers, ("ON", "OFF", "HYST")))
    if on is None or off is None or hyst is None:
        return
    for word, title, value in zip(numbers, ("ON", "OFF"), (on, off)):
        if abs(value) > 10**15:
            found.add("range", word, f"{title} is more than 10^15 in size")
    if off < on:
        found.add("range", numbers[1], "OFF is below ON")
    if not 0 <= 2 * hyst <= off - on:
        found.add("range", numbers[2], f"HYST has to be from 0 to {max(0, off - on) // 2}, half of "
                  "the distance from ON to OFF")


READERS: dict[str, Callable[[Finder], None]] = {
    "axis": axis_line, "drive": drive_line, "group": group_line, "table": table_line,
    "task": task_line, "block": block_line, "call": call_line, "wait": wait_line,
    "repeat": repeat_line, "limit": limit_line, "cycle": cycle_line, "end": end_line,
    "go": bare_line, "again": bare_line, "switch": switch_line}
