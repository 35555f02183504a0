"""Explains the trace of a run: its errors, its end, its warnings and its report."""

import argparse
from collections.abc import Iterable
from pathlib import Path

from motion_tools import command
from motion_tools.explain import endings, lines, report, warnings
from motion_tools.explain.findings import Finding
from motion_tools.explain.history import History
from motion_tools.explain.refusals import config_named, names_of
from motion_tools.explain.run import Run, failures
from motion_tools.explain.scans import Scans
from motion_tools.explain.texts import kind_of
from motion_tools.explain.walk import Walk
from motion_tools.trace import Trace
from motion_tools.units import Units


def run_findings(options: argparse.Namespace, output: Iterable[str],
               source: str) -> tuple[list[Finding], str]:
    """The findings and the report of a trace."""
    tasks = next((name for name in options.files
                  if kind_of(name) in ("program", "st", "bench")), "")
    kind = kind_of(tasks) if tasks else ""
    text = Path(tasks).read_text(encoding="utf-8", errors="replace") if tasks else ""
    walk = Walk(text) if kind == "program" else None
    scans = Scans(text, *names_of(options)) if kind == "st" else None
    history = History(Trace(output), walk or scans)
    run = Run(history, units_of(options, history), tasks, text, walk, scans,
              source if source != "-" else "the run", options.config or "")
    ending = bench_end(run) if history.machine.maker == "bench" and kind == "bench" else \
        endings.endings(run) if history.machine.maker == "run" else []
    if history.fault:
        ending = [Finding("error", "trace", f"{run.name} ceases to be a trace: {history.fault}",
                          "the run was stopped, or its output was cut off or changed")]
    found = [*listed(failures(run), "errors"), *ending,
             *listed(warnings.warnings(run), "warnings")]
    return found, "".join(report.nothing_moved(history)) + report.report(run)


def listed(findings: list[Finding], what: str) -> list[Finding]:
    """The first findings, and how many more there are."""
    more = len(findings) - report.MOST
    return findings[:report.MOST] + (
        [Finding("note", "", f"and {more} more {what}")] if more > 0 else [])


def units_of(options: argparse.Namespace, history: History) -> Units:
    """The units of the configuration among the files, or of the options."""
    config = config_named(options)
    if config and not options.config:
        options.config = config.path
    return command.units_of(options, history.machine)


def events_of(bench: str) -> list[tuple[int, str, str, int]]:
    """The events that a bench asks for, each with its line; N cycles of a line as N of them."""
    events, begun = [], False
    for number, line in enumerate(bench.splitlines(), 1):
        words = line.split("#")[0].split()
        begun = begun or words == ["go"]
        if begun and words and words[0] in lines.EVENTS:
            count = int(words[1]) if words[0] == "cycle" and len(words) > 1 else 1
            events.append((number, line.strip(), words[0], count))
    return events


def bench_end(run: Run) -> list[Finding]:
    """Whether all events of the bench were made, and else at which line the run ended, and why."""
    machine = run.history.machine
    cycles, entries = machine.cycles, machine.entries
    for number, line, word, count in events_of(run.text):
        if word == "cycle" and count > cycles:
            status, lacking = 8, f"no cycle is left of the {machine.cycles}"
        elif count > entries:
            status, lacking = 9, f"no room is left of the {machine.entries} entries"
        else:
            cycles, entries = cycles - count * (word == "cycle"), entries - count
            continue
        return [Finding("error", f"status {status}", f"The run ended in this line: {lacking} "
                        "that `limit` allows.",
                        "raise the numbers of limit", file=run.file, line=number, text=line)]
    return [Finding("note", "", "All calls, cycles and ends were made.")]
