"""Rejected files: the line, what is wrong there, the rule and its cure."""

import argparse
from pathlib import Path
from typing import Optional

from motion_tools.config import Config, ConfigError, config_of
from motion_tools.explain import hints, lines, settings, st
from motion_tools.explain.faults import Fault, chosen
from motion_tools.explain.findings import Finding
from motion_tools.explain.texts import kind_by_text, kind_of
from motion_tools.trace import Trace, TraceError, lines_of

OF_CONFIG = ("S3", "P6")                # rules about names that the configuration has
MOST = 7                                # further errors that are shown
KIND_OF_RULE = {"B": "bench", "P": "program", "S": "st", "K": "switches", "C": "config",
                "T": "trace", "G": "segment"}


def refusals(options: argparse.Namespace, name: str, place: int, rule: str) -> list[Finding]:
    """A rejected file: the line that `motion` named, what is wrong there, the rule and its cure; and
    the faults that this reader finds below it."""
    file = file_of(options.files, name, rule)
    kind = KIND_OF_RULE[rule[0]]
    text = Path(file).read_bytes().decode("utf-8", "surrogateescape").replace("\r\n", "\n")
    there = kind_by_text(file)
    if there and there != kind and {there, kind} != {"trace", "segment"}:
        return [misplaced(file, there, kind, rule)]
    first = fault_of(options, kind, text, place, rule)
    more = below(options, kind, text, place, first)
    found = [finding_of(kind, file, text, fault) for fault in [first, *more[:MOST]]]
    if rule in OF_CONFIG and config_named(options) is None:
        found[0].cure += "; give explain the configuration too, to see what is wrong here"
    if more:
        found.append(Finding("note", "", "motion reports the first error alone; the ones below it "
                             "are what explain finds by itself"
                             + (f", and {len(more) - MOST} more" if len(more) > MOST else "")))
    return found


def finding_of(kind: str, file: str, text: str, fault: Fault) -> Finding:
    """A fault of a text with its line, its rule and its cure."""
    says, line = hints.rule(fault.rule)[0], line_at(text, fault.line)
    return Finding("error", fault.rule, fault.says or says, hints.cure_of(kind, fault, line),
                   says if fault.says else "", file, fault.line, fault.column + 1, fault.length,
                   printable(line))


def misplaced(file: str, there: str, wanted: str, rule: str) -> Finding:
    """A file of another kind than the one that was read in its position."""
    names = hints.texts()["kind"]
    return Finding("error", rule, f"{file} is {names[there]}, and was read as {names[wanted]}",
                   hints.texts()["position"][wanted], file=file)


def below(options: argparse.Namespace, kind: str, text: str, place: int,
          first: Fault) -> list[Fault]:
    """The faults below the first one, one a line, where this reader goes on."""
    axes, groups = names_of(options)
    if kind == "config":
        found = [fault for fault in settings.faults_of(text) if fault.line != first.line]
    elif kind == "st":
        found = [fault for fault in st.faults_of(text, axes, groups) if fault.line > first.line]
    elif kind in ("program", "bench", "switches"):
        axes = trace_axes(options) if kind == "switches" else axes if kind == "program" else []
        context = lines.Context(kind, axes, groups if kind == "program" else {},
                                third=is_third(options))
        found = lines.faults_below(text, place, context)
    else:
        return []
    known = config_named(options) is not None
    lines_of_faults = {fault.line: fault for fault in reversed(found)
                       if known or fault.rule not in OF_CONFIG}
    return [lines_of_faults[line] for line in sorted(lines_of_faults)]


def file_of(files: list[str], name: str, rule: str) -> str:
    """The file that was rejected: of the name that motion wrote, else the one of its kind."""
    if name in files or not files or Path(name).exists():
        return name
    for file in files:
        if Path(file).name == Path(name).name:
            return file
    wanted = KIND_OF_RULE[rule[0]]
    return next((file for file in files if kind_of(file) == wanted),
                files[0] if rule[0] in "BCTG" else files[-1])


def line_at(text: str, number: int) -> str:
    """A line of a text, counted from 1; nothing where it has none."""
    found = text.split("\n")
    return found[number - 1] if 0 < number <= len(found) else ""


def printable(line: str) -> str:
    """A line as it can be written anywhere."""
    return line.encode("utf-8", "surrogateescape").decode("utf-8", "replace").replace("\x00", "?")


def fault_of(options: argparse.Namespace, kind: str, text: str, place: int, rule: str) -> Fault:
    """What breaks a rule at a line, a place of a configuration or a record of a trace."""
    whole = Fault(rule, place)
    if kind == "config":
        fault = settings.fault_at(text, place, rule)
        return fault or Fault(rule, 0, says=config_place(place, rule))
    if rule in OF_CONFIG and config_named(options) is None:
        return whole
    if kind == "st":
        axes, groups = names_of(options)
        return chosen(st.faults_of(text, axes, groups), place, rule) or whole
    if kind in ("trace", "segment"):
        return record_fault(text, place, rule)
    axes, groups = names_of(options) if kind == "program" else ([], {})
    if kind == "switches":
        axes = trace_axes(options)
    found = lines.faults_at(text, place, lines.Context(kind, axes, groups, third=is_third(options)))
    return chosen([fault for fault in found if fault.says or fault.rule == rule], place,
                  rule) or whole


def config_place(place: int, rule: str) -> str:
    """A place of a configuration in words, where nothing closer is known."""
    if place == 0:
        return f"the text, or a key above its tables: {hints.rule(rule)[0]}"
    return (f"table {place}, axes first, then groups and cam tables: {hints.rule(rule)[0]}")


def record_fault(text: str, place: int, rule: str) -> Fault:
    """A record of a trace or a line of a segment's header."""
    if rule.startswith("G"):
        return Fault(rule, place)
    head, _, body = text.partition("\n\n") if text.startswith("segment,") else ("", "", text)
    before = head.count("\n") + 2 if head else 0
    records = [number for number, line in enumerate(body.split("\n"), 1) if line]
    number = records[place - 1] if 0 < place <= len(records) else place
    reason = ""
    try:
        for _ in (trace := Trace(body.splitlines(True))).cycles():
            pass
        del trace
    except TraceError as error:
        reason = str(error).split(": ", 1)[-1] if error.record == place else ""
    return Fault(rule, before + number, -1, 1, reason and f"record {place}: {reason}")


def config_named(options: argparse.Namespace) -> Optional[Config]:
    """The configuration among the files, if it is one."""
    for name in [options.config, *options.files]:
        if name and (name == options.config or kind_of(name) == "config"):
            try:
                return config_of(name, Path(name).read_text(encoding="utf-8-sig"))
            except (OSError, ConfigError, UnicodeDecodeError):
                return None
    return None


def names_of(options: argparse.Namespace) -> tuple[list[str], dict[str, list[str]]]:
    """The axes and the groups of the configuration among the files."""
    config = config_named(options)
    return ([axis.name for axis in config.axes], config.groups) if config else ([], {})


def is_third(options: argparse.Namespace) -> bool:
    """Whether the configuration among the files is of version 3, where one is there."""
    config = config_named(options)
    return config is None or config.version == 3


def trace_axes(options: argparse.Namespace) -> list[str]:
    """The axes of the trace among the files."""
    name = next((file for file in options.files if kind_of(file) == "trace"), None)
    return [axis.name for axis in Trace(lines_of(name, None)).machine.axes] if name else []


def checked(name: str) -> list[Finding]:
    """What is wrong in a configuration, by every rule at every place: for its author."""
    text = Path(name).read_text(encoding="utf-8", errors="surrogateescape")
    return [finding_of("config", name, text, fault) for fault in settings.faults_of(text)] or [
        Finding("note", "", f"{name}: nothing is wrong by rules C1 to C7")]
