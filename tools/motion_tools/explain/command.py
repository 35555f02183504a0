"""Explains what came of a run of motion: errors with their cure, warnings where a run is legal and
perhaps not meant, and a short report.

    motion run my.toml my.prog > run.trace || tools/explain my.toml my.prog --of run.trace
    motion st my.toml my.st | tools/explain my.toml my.st
    motion bench my.bench | tools/explain my.bench
    motion check run.trace | tools/explain run.trace
    tools/explain run.trace --config my.toml
    tools/explain S2 104 status 9
    tools/explain ELSIF MC_SetOverride

Where a file was rejected it prints the file and the line with a mark under the word, what is wrong
there, the rule in one sentence and the cure. Of a run it prints each error of a call or an axis
with its reason in the machine's units, what was legal and perhaps not meant, at which wait a task
without an end stood, and per move its time, peak velocity and acceleration. A rule, an ErrorID,
`status N`, or a word that a text may not have, in place of files is explained by itself.
"""

import argparse
import json
import re
import sys
from collections.abc import Iterable, Iterator
from itertools import chain
from pathlib import Path
from typing import Optional

from motion_tools import command
from motion_tools.blocks import acts_on_group, keys_of
from motion_tools.config import ConfigError
from motion_tools.explain import hints
from motion_tools.explain.findings import Finding, words_of
from motion_tools.explain.refusals import checked, refusals
from motion_tools.explain.runs import run_findings
from motion_tools.explain.texts import kind_of, traces_among
from motion_tools.explain.verdicts import edge_findings, verdict_findings
from motion_tools.trace import BLOCK_KINDS, LATER_KINDS, ReadFault, TraceError, lines_of

CODE = re.compile(r"[A-Z][0-9]{1,2}|[0-9]{1,3}")
ERROR_ID = re.compile(r"(?i)(?:e|error|error_?id)([0-9]{1,3})")
WORD = re.compile(r"[A-Za-z][\w-]*")


def parser() -> argparse.ArgumentParser:
    words = command.parser_of("explain", __doc__)
    words.add_argument("files", nargs="*", metavar="FILE or CODE",
                       help="the files that motion was given: a bench, a configuration and tasks, "
                       "a trace; or codes and words to explain, as B7, E104, status 9, ELSIF")
    words.add_argument("--of", metavar="FILE",
                       help="what motion wrote; left out, the standard input, and where that is a "
                       "terminal or empty the trace among the files")
    words.add_argument("--status", type=int, metavar="N",
                       help="the status with which motion ended, where it wrote nothing")
    words.add_argument("--json", action="store_true", help="the findings as JSON, for editors")
    words.add_argument("--index", metavar="PAGE",
                       help="writes the index by symptom into a page, as docs/rules.md")
    words.add_argument("--check", metavar="FILE", dest="config_to_check",
                       help="a configuration alone: what this reader finds wrong in it, by rule")
    command.add_units(words)
    return words


def main() -> int:
    options = parser().parse_args()
    try:
        return explain(options)
    except TraceError as error:
        name = options.of or next(iter(traces_among(options.files)), "-")
        return command.fail("explain", f"refused {name}: {error}", command.REFUSED)
    except ConfigError as error:
        return command.fail("explain", str(error), command.USAGE)
    except ReadFault as error:
        return command.fail("explain", str(error), command.UNREADABLE)
    except LookupError as error:
        return command.fail("explain", str(error.args[0]), command.USAGE)
    except BrokenPipeError:
        sys.stdout = None                                       # type: ignore[assignment]
        return command.UNWRITTEN
    except OSError as error:
        return command.fail("explain", f"cannot read {error.filename}: {error.strerror}",
                            command.UNREADABLE)


def explain(options: argparse.Namespace) -> int:
    """Explains what is asked for, and gives the status."""
    if options.index:
        page = Path(options.index)
        page.write_text(hints.with_index(page.read_text(encoding="utf-8")), encoding="utf-8")
        return command.READ
    if options.config_to_check:
        return write(options, checked(options.config_to_check), "")
    if options.files and not options.of and all(map(is_word, options.files)):
        found = [each for code in codes(options.files) for each in code_findings(code)]
        return write(options, found, "")
    source, output = output_of(options)
    found, text = explained(options, output, source)
    status = write(options, found, text)
    return command.REFUSED if any(each.code == "trace" for each in found) else status


def write(options: argparse.Namespace, findings: Iterable[Finding], text: str) -> int:
    """Writes findings and the report, in words or as JSON."""
    found = list(findings)
    if options.json:
        data = {"findings": [finding.data() for finding in found], "report": text.splitlines()}
        print(json.dumps(data, indent=1, ensure_ascii=False))
    else:
        sys.stdout.write(words_of(found) + text)
    sys.stdout.flush()
    return command.READ


# Codes

def is_word(word: str) -> bool:
    """Whether a word is a code or what may stand in a text, and no file."""
    return bool(CODE.fullmatch(word) or WORD.fullmatch(word)) and not Path(word).exists()


def codes(words: list[str]) -> list[str]:
    """The codes of words, `status N` and `error N` as one."""
    return re.findall(r"status \d+|\S+", re.sub(r"(?i)\b(error|errorid) (?=\d)", r"\1",
                                               " ".join(words)))


def code_findings(code: str) -> list[Finding]:
    """What a code means, or what is written in the place of a word. Raises LookupError."""
    if found := ERROR_ID.fullmatch(code):
        code = found[1]
    if code.startswith("status "):
        number = code.split()[1]
        if number not in hints.texts()["status"]:
            raise LookupError(f"there is no status {number}: motion ends with 0 to 10")
        name, means, cure = hints.status(int(number))
        return [Finding("note", code, f"{name}: {means}", cure)]
    if code[0].isdigit():
        tables = [name for name in ("error", "group_error") if code in hints.texts()[name]]
        if not tables:
            raise LookupError(f"there is no ErrorID {code}: see docs/errors.md")
        return [Finding("note", f"ErrorID {code}", reason, cure)
                for reason, cure in (hints.texts()[name][code] for name in tables)]
    if code not in hints.texts()["rule"]:
        return word_findings(code)
    says, cure = hints.rule(code)
    found = [Finding("note", code, says, cure)]
    return found + [Finding("note", code, f"as in {hint.shows}", hint.listed)
                    for hint in hints.hints() if code in hint.rules]


def word_findings(word: str) -> list[Finding]:
    """What is written in the place of a word: a block that isn't there, one that is, a mistake of
    the index, a warning. Raises LookupError."""
    bare = word.removeprefix("MC_")
    if bare in LATER_KINDS:
        return [Finding("note", word, f"{bare} is a kind of version 3", hints.absent()[bare])]
    if bare in hints.absent():
        return [Finding("note", word, f"there is no {bare}", hints.absent()[bare])]
    if bare in BLOCK_KINDS:
        keys = " ".join(keys_of(bare)) or "no key"
        on = "a group" if acts_on_group(bare) else "an axis"
        return [Finding("note", word, f"{bare} acts on {on}, and takes {keys}",
                        f"write {bare} without MC_ (docs/blocks.md)" if bare != word
                        else "see docs/blocks.md")]
    if word in hints.texts()["warning"]:
        return [Finding("note", word, *hints.warning(word))]
    found = {hint.listed: Finding("note", ", ".join(hint.rules), f"as in {hint.shows}", hint.listed)
             for hint in hints.hints() if hint.names(word)}
    if not found and CODE.fullmatch(word):
        raise LookupError(f"there is no rule {word}: see docs/rules.md")
    if not found:
        raise LookupError(f"there is no file {word}, and no rule, ErrorID, block, warning or common "
                          "mistake of that name: see the index of docs/rules.md")
    return list(found.values())


# What motion wrote

def output_of(options: argparse.Namespace) -> tuple[str, Iterator[str]]:
    """What motion wrote, and where it stands: `-` for the standard input, in whose position a trace
    among the files is taken where it is a terminal or empty."""
    trace = next(iter(traces_among(options.files)), None)
    source: Optional[str] = options.of or (trace if sys.stdin.isatty() else None)
    if source:
        return source, lines_of(source, None)
    if sys.stdin.isatty():
        raise LookupError("give the files that motion was given, and what it wrote by --of FILE or "
                          "a pipe; or a code, as S2")
    output = lines_of("-", None)
    first = next(output, "")
    if not first and trace:
        return trace, lines_of(trace, None)
    return "-", chain([first], output) if first else output


def explained(options: argparse.Namespace, output: Iterator[str],
              source: str) -> tuple[list[Finding], str]:
    """The findings and the report of what motion wrote for some files."""
    first = next(output, "")
    words = first.split()
    if words[:1] == ["refused"] and len(words) >= 4 and CODE.fullmatch(words[-1]):
        name = " ".join(words[1:-2])
        return refusals(options, name, int(words[-2]), words[-1]), ""
    if not first:
        return nothing_written(options), ""
    if first.startswith(("kind", "motion-bench")) or "," in first:
        return run_findings(options, chain([first], output), source)
    return verdict_findings(options.files, [first, *output])


def nothing_written(options: argparse.Namespace) -> list[Finding]:
    """What it means that there is no output."""
    for name in options.files:
        if not Path(name).exists():
            raise ReadFault(f"cannot read {name}: there is no such file")
    if any(kind_of(name) == "switches" for name in options.files) and not options.status:
        return [Finding("note", "", "motion wrote nothing: where its status is 0, no switch goes "
                        "on or off"), *edge_findings(options.files)]
    if options.status is None:
        return [Finding("note", "", "motion wrote nothing: see its status",
                        "give it by --status N")]
    return code_findings(f"status {options.status}")
