"""Runs a machine in one command: keeps the trace, and prints on the standard error what came of it.

    tools/motion-run machine.toml tasks.st
    tools/motion-run machine.toml tasks.prog -o run.trace --plot run.html
    tools/motion-run my.bench

The files decide what is run: a bench by `motion bench`, a configuration with tasks in Structured
Text by `motion st`, one with a program by `motion run`; the order of the words is free. The trace
goes to the file that -o names, else to run.trace. What `tools/explain` says of it goes to the
standard error: a rejected file with its line and cure, errors, warnings, and a report of the moves.
A long run says every two seconds how far it is.
"""

import argparse
import subprocess
import sys
import time
from io import StringIO
from pathlib import Path
from typing import Optional, TextIO

from motion_tools import command, programs
from motion_tools.explain import command as explain
from motion_tools.explain.findings import words_of as text_of
from motion_tools.explain.texts import kind_of
from motion_tools.plot import command as plot
from motion_tools.plot import files
from motion_tools.trace import SECONDS_OF_SILENCE, ReadFault, TraceError

SECONDS_OF_THREADS = 10.0
SLOW = ("; it has a thread for each drive and task, and is slow while other programs use the "
        "processors; motion st has one thread")
STATUSES = """\
ends with the status of `motion`, and with 1 where that is 0 and the run has errors or, with
--strict, warnings; with 2 where the files are no machine"""


def parser() -> argparse.ArgumentParser:
    words = command.parser_of("motion-run", __doc__, STATUSES)
    words.add_argument("files", nargs="+", metavar="FILE",
                       help="a bench, or a configuration and the tasks")
    words.add_argument("-o", "--output", metavar="FILE", default="run.trace",
                       help="the file for the trace; left out, run.trace")
    words.add_argument("--plot", metavar="FILE", action="append", default=[],
                       help="draws the run too: as a page where the name ends with .html, as a PNG "
                       "or a PDF where it ends so and rsvg-convert, inkscape or chromium is there, "
                       "else as an SVG; may be given several times")
    words.add_argument("--check", action="store_true",
                       help="verifies the trace by its replay, as `motion check` does")
    words.add_argument("--strict", action="store_true", help="ends with 1 where there is a warning")
    words.add_argument("--motion", metavar="FILE",
                       help="the program; left out, the proved one where it is built, else the "
                       "unproved one of tools/preview")
    return words


class WrongFiles(Exception):
    """The files are no machine that can be run."""


def main() -> int:
    options = parser().parse_args()
    try:
        return run(options)
    except WrongFiles as error:
        return command.fail("motion-run", str(error), command.USAGE)
    except (ReadFault, TraceError) as error:
        return command.fail("motion-run", str(error), command.UNREADABLE)
    except programs.NotBuilt as error:
        return command.fail("motion-run", str(error), command.NOT_BUILT)
    except OSError as error:
        return command.fail("motion-run", f"{error.filename}: {error.strerror}", command.UNWRITTEN)


def run(options: argparse.Namespace) -> int:
    """Runs the machine, explains it, and draws it."""
    words = words_of(options.files)
    for picture in options.plot:
        if why := files.refusal(picture):
            raise WrongFiles(f"--plot {why}")
    program = options.motion or str(programs.chosen("motion-run"))
    status = made([program, *words], Path(options.output))
    trace = Path(options.output)
    is_trace = trace.stat().st_size > 0 and trace.open("rb").read(5) == b"kind,"
    found, text = findings_of(words[1:], options.output, status)
    sys.stderr.write(text_of(found) + text)
    if not is_trace:
        trace.unlink()
        return status
    print(f"status {status}; the trace is in {options.output}", file=sys.stderr)
    if options.check:
        status = checked(program, options.output) or status
    for picture in options.plot:
        draw(options.output, config_of(words), picture)
    severities = {finding.severity for finding in found}
    failed = "error" in severities or (options.strict and "warning" in severities)
    return status or int(failed)


def words_of(files: list[str]) -> list[str]:
    """The words for motion, by what the files are."""
    kinds = {kind_of(name): name for name in files}
    for name in files:
        if not Path(name).is_file():
            raise WrongFiles(f"cannot read {name}: there is no such file")
    if len(files) == 1 and "bench" in kinds:
        return ["bench", files[0]]
    if len(files) == 2 and "config" in kinds:
        for kind, word in (("st", "st"), ("program", "run")):
            if kind in kinds:
                return [word, kinds["config"], kinds[kind]]
    shown = ", ".join(f"{name} ({kind_of(name) or 'of no known kind'})" for name in files)
    raise WrongFiles("give a bench (its first line is motion-bench 1, 2 or 3), or a configuration "
                     "(TOML) and tasks: a program (its first line is motion-program 1 or 3) or "
                     f"Structured Text (PROGRAM name); here: {shown}")


def config_of(words: list[str]) -> Optional[str]:
    """The configuration among the words."""
    return words[1] if words[0] in ("st", "run") else None


def made(words: list[str], trace: Path, progress: TextIO = sys.stderr) -> int:
    """Runs the program into a file, and gives its status. The program writes its trace at its end,
    so that only the time can be shown before."""
    begun = time.monotonic()
    said = begun
    with open(trace, "wb") as output, subprocess.Popen(words, stdout=output) as running:
        while True:
            try:
                status = running.wait(timeout=0.1)
                return status if status >= 0 else 128 - status
            except subprocess.TimeoutExpired:
                now = time.monotonic()
                if now - said > SECONDS_OF_SILENCE:
                    said = now
                    slow = SLOW if words[1] == "run" and now - begun > SECONDS_OF_THREADS else ""
                    print(f"motion {words[1]}: running for {now - begun:.0f} s{slow}",
                          file=progress, flush=True)


def findings_of(files: list[str], output: str,
                status: int) -> tuple[list[explain.Finding], str]:
    """What explain finds in what motion wrote."""
    options = explain.parser().parse_args([*files, "--of", output, "--status", str(status)])
    return explain.explained(options, explain.lines_of(output, None), output)


def checked(program: str, trace: str) -> int:
    """Verifies a trace by its replay, and says what came of it."""
    ran = subprocess.run([program, "check", trace], capture_output=True, encoding="utf-8",
                         check=False)
    found, _ = explain.verdict_findings([trace], StringIO(ran.stdout).readlines() or [""])
    sys.stderr.write(text_of(found))
    return ran.returncode


def draw(trace: str, config: Optional[str], picture: str) -> None:
    """Draws a trace into a file."""
    words = [trace, "-o", picture] + (["--config", config] if config else [])
    options = plot.parser().parse_args(words + (["--html"] if files.is_page(picture) else []))
    plot.turn(options)
    print(f"the picture is in {picture}", file=sys.stderr)
