"""What `motion` writes beside traces: verdicts of check, statuses in words, reports and edges."""

from pathlib import Path

from motion_tools.explain import hints
from motion_tools.explain.findings import Finding
from motion_tools.explain.switch_units import small_positions
from motion_tools.explain.texts import kind_of
from motion_tools.trace import FORMS, FORMS_OF_VERSION, Trace, lines_of
from motion_tools.units import Units

STATUS_OF = {"usage:": 2, "cannot": 4, "too": 5, "thread": 7}
FORMS_FOR = (                   # kinds of files, and the requests that take them
    ("bench", "motion bench {bench}", "motion standby {bench} CUT"),
    ("config", "motion run {config} PROGRAM", "motion st {config} FILE"),
    ("program", "motion run CONFIG {program}"),
    ("st", "motion st CONFIG {st}"),
    ("config program", "motion run {config} {program}"),
    ("config st", "motion st {config} {st}"),
    ("trace", "motion check {trace}", "motion migrate {trace}", "motion switches {trace} FILE",
     "motion scope {trace} WORKERS"),
    ("segment", "motion check {segment}"),
    ("switches", "motion switches TRACE {switches}"),
    ("trace switches", "motion switches {trace} {switches}"))


def verdict_findings(files: list[str], output: list[str]) -> tuple[list[Finding], str]:
    """The findings of an output that is no trace."""
    words = output[0].split()
    first = words[0] if words else ""
    if first == "legal":
        return [Finding("note", "", f"the trace is legal: the replay gives all its {words[1]} "
                        "calls, cycles and ends")], ""
    if first == "illegal":
        return [illegal(files, [line.rstrip("\r\n") for line in output])], ""
    if first in STATUS_OF:
        number = STATUS_OF[first]
        name, means, cure = hints.status(number)
        found = Finding("error", f"status {number}", f"{output[0].strip()} ({name}: {means})", cure)
        if number == 2:
            found.says = f"{means}; the forms are " + ", ".join(
                f"motion {name} {form}" for name, (form, _) in hints.commands().items())
            if forms := forms_for(files):
                found.cure = f"with {' and '.join(files)}: {', '.join(forms)}; {cure}"
        return [found], ""
    if first in ("gen", "axis", "block") or len(words) == 3 and words[2] in ("on", "off"):
        return [Finding("note", "", "the command did all that was asked"),
                *edge_findings(files)], "".join(output)
    return [Finding("note", "", f"this is no output of motion: {output[0].strip()[:60]}",
                    "give what motion run, st, bench or check wrote")], ""


def edge_findings(files: list[str]) -> list[Finding]:
    """What is to be said of the switch file among some files, where a trace is there too."""
    names = {kind_of(name): name for name in files}
    if not {"trace", "switches"} <= set(names):
        return []
    machine = Trace(lines_of(names["trace"], None)).machine
    text = Path(names["switches"]).read_text(encoding="utf-8", errors="replace")
    return list(small_positions(machine, names["switches"], text, Units()))


def forms_for(files: list[str]) -> list[str]:
    """The requests that go with some files, by their kinds."""
    names = {kind_of(name): name for name in files}
    return [form.format(**names) for kinds, *forms in FORMS_FOR if set(kinds.split()) == set(names)
            for form in forms]


def illegal(files: list[str], output: list[str]) -> Finding:
    """A trace that differs from its replay: the record, and which fields differ."""
    record = output[0].split()[1]
    expected, found = (line.split(" ", 1)[1].split(",") if " " in line else []
                       for line in (output[1:3] + ["", ""])[:2])
    _, _, cure = hints.status(1)
    file = next(iter(files), "")
    if not any(expected):
        return Finding("error", "illegal", f"record {record} has no room in the history, or is a "
                       "cycle too many", cure, file=file, text=",".join(found))
    names = names_of(expected)
    differences = [f"the {name} is {got or 'empty'}, and the replay gives {wanted or 'empty'}"
                   for name, wanted, got in zip(names, expected, found) if wanted != got]
    line = ",".join(found)
    place = next((index for index, (wanted, got) in enumerate(zip(expected, found))
                  if wanted != got), 0)
    column = len(",".join(found[:place])) + (place > 0)
    says = f"record {record} ({expected[0]}): " + ("; ".join(differences) or "it differs")
    return Finding("error", "illegal", says, cure, "", file, line_of(file, int(record)), column + 1,
                   max(1, len(found[place]) if found else 1), line)


def line_of(file: str, record: int) -> int:
    """The line of a record of a trace, which in a segment stands below the header and a blank line; 0
    where the file can't be read."""
    try:
        with open(file, encoding="utf-8", errors="replace") as lines:
            if not lines.readline().startswith("segment,"):
                return record
            for number, text in enumerate(lines, 2):
                if not text.strip():
                    return number + record
    except OSError:
        pass
    return 0


def names_of(record: list[str]) -> list[str]:
    """The names of a record's fields."""
    forms = {**FORMS, **FORMS_OF_VERSION[3]}
    names = ["kind", *(name for name, _ in forms.get(record[0], []))]
    return names + [f"field {place + 1}" for place in range(len(names), 12)]
