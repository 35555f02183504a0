"""Reads benches, programs and switch files by lines and words, and finds the word that breaks a
rule.

`motion` reports the line and the rule. This reader goes through the lines up to that one, for the
names that are defined there, and finds the word on it. Where it finds none the line is shown whole.
"""

from motion_tools.explain.faults import Fault
from motion_tools.explain.finder import EVENTS, FORMS, QUANTITY, VERSIONS, Context, Finder, words_of
from motion_tools.explain.line_forms import READERS

__all__ = ["EVENTS", "QUANTITY", "Context", "faults_at", "faults_below", "words_of"]


def misplaced(context: Context, words: list[str]) -> str:
    """Why a line doesn't stand here by its first word; nothing where it does."""
    first, kind = words[0], context.kind
    if first not in FORMS[kind]:
        return f"no line of a {kind if kind != 'switches' else 'switch file'} begins with {first}"
    if kind == "bench" and first in EVENTS and not context.gone:
        return f"a {first} is an event, and events stand below `go`"
    if kind == "bench" and first not in EVENTS and context.gone:
        return f"a {first} belongs to the machine, which stands above `go`"
    if first in context.once or (first == "drive" and f"drive {words[1:2]}" in context.once):
        return f"{first} comes once, and came above"
    if kind == "program":
        if first != "task" and not context.tasks:
            return f"a {first} stands in a task, and no task stands above"
        if first == "block" and context.acts:
            return "the blocks of a task stand above its first instruction"
        if first in ("task", "block", "repeat") and context.repeats:
            return f"a {first} stands inside a repeat, which ends with `again`"
        if first == "again" and not context.repeats:
            return "an again without a repeat above"
    return ""


def take(context: Context, words: list[str]) -> None:
    """Takes into account what a line defines, as far as it is one."""
    first, rest = words[0].lower(), words[1:]
    if first == "axis" and rest:
        context.axes.append(rest[0])
    elif first == "group" and rest:
        context.groups[rest[0]] = rest[1:]
    elif first == "task" and rest:
        context.tasks.append(rest[0])
        context.acts = False
    elif first == "block" and len(rest) >= 3:
        task = rest[1] if context.kind == "bench" else (context.tasks or [""])[-1]
        context.blocks[rest[0]] = (task, rest[-2], rest[-1])
    elif first == "switch" and rest:
        context.switches.append(rest[0])
    elif first == "call" and rest:
        context.called.add(rest[0])
    context.gone |= first == "go"
    context.once |= {first} if first in ("limit", "go") else set()
    context.once |= {f"drive {rest[:1]}"} if first == "drive" else set()
    context.repeats = first == "repeat" or (context.repeats and first != "again")
    context.acts |= first in ("call", "wait", "repeat", "again")


def faults_at(text: str, line: int, context: Context) -> list[Fault]:
    """What is wrong in a line of a text, counted from 1; the lines above give the context."""
    for number, content in enumerate(text.split("\n"), 1):
        found = Finder(context, number, content)
        words = [word.text for word in found.words]
        if number == line:
            faults_in(found, words)
            return found.faults
        if words and not context.version:
            context.version = " ".join(words)
        elif words:
            take(context, words)
    return []


def faults_below(text: str, line: int, context: Context) -> list[Fault]:
    """The first fault of each line below one with a fault, as well as this reader can go on."""
    faults: list[Fault] = []
    for number, content in enumerate(text.split("\n"), 1):
        found = Finder(context, number, content)
        words = [word.text for word in found.words]
        if not words:
            continue
        if not context.version:
            context.version = " ".join(words)
            if words[0] not in FORMS[context.kind]:
                continue
        if number == line:
            mend(context, words)
        elif number > line:
            faults_in(found, words)
            faults += [fault for fault in found.faults if fault.says][:1]
            mend(context, words)
        take(context, words)
    return faults


def mend(context: Context, words: list[str]) -> None:
    """Takes what a line lacks above it as given, so that it is missed once."""
    if context.kind == "bench" and words[0] in EVENTS:
        context.gone = True
    if context.kind == "program" and words[0] != "task" and not context.tasks:
        context.tasks.append("")


def faults_in(found: Finder, words: list[str]) -> None:
    """Finds what is wrong in the line itself."""
    context = found.context
    found.bytes()
    if words and not context.version:
        wanted = VERSIONS[context.kind]
        if " ".join(words) not in wanted:
            found.add("version", found.words[0], f"the first line with words is not {wanted[0]}")
        elif context.kind == "program" and words[1] == "3" and not context.third:
            found.add("version", found.words[1], "a program of version 3 needs version = 3 in its "
                      "configuration")
        return
    if words and (reason := misplaced(context, words)):
        found.add("first", found.words[0], reason)
    elif words:
        READERS[words[0]](found)
    for what in ("many", "end"):
        found.add(what, found.words[0] if found.words else None, "")
