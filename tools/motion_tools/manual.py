"""Writes the man pages of motion and its tools, and the completion of their words for bash.

    tools/manual FOLDER
    MANPATH=FOLDER/man: man motion
    source FOLDER/bash-completion/completions/motion

The pages are made of the same texts as --help. A page of a tool stands in man/man1 of the folder
under the tool's name, that of the program as motion.1.
"""

import argparse
import importlib
import re
from collections.abc import Iterable
from pathlib import Path

from motion_tools import command
from motion_tools.explain import hints

TOOLS = {
    "motion-run": "machine", "explain": "explain.command", "trace_plot": "plot.command",
    "trace_to_table": "trace_table", "trace_to_vcd": "vcd", "trace_timing": "timing",
    "scope_table": "scope", "switches": "switches", "cam_points": "cams", "manual": "manual"}
FILES_OF = {
    "bench": "bench", "run": "toml|prog", "check": "trace|segment", "migrate": "trace",
    "st": "toml|st", "switches": "trace|switches", "standby": "bench", "scope": "trace"}
STATUSES = "ends with 0; with 6 where writing fails"
ROOT = Path(__file__).resolve().parents[2]


def parser() -> argparse.ArgumentParser:
    words = command.parser_of("manual", __doc__, STATUSES)
    words.add_argument("folder", help="where the folders man and bash-completion are made")
    return words


def main() -> int:
    options = parser().parse_args()
    return command.ended("manual", options.folder, lambda: write(Path(options.folder)))


def write(folder: Path) -> None:
    """Writes all pages and the completion."""
    pages, completions = folder / "man" / "man1", folder / "bash-completion" / "completions"
    pages.mkdir(parents=True, exist_ok=True)
    completions.mkdir(parents=True, exist_ok=True)
    (pages / "motion.1").write_text(motion_page(), encoding="utf-8")
    for name in TOOLS:
        (pages / f"{name}.1").write_text(tool_page(name), encoding="utf-8")
    (completions / "motion").write_text(completion(), encoding="utf-8")


def parser_of(name: str) -> argparse.ArgumentParser:
    """The parser of a tool's words."""
    module = importlib.import_module(f"motion_tools.{TOOLS[name]}")
    return module.parser()                                      # type: ignore[no-any-return]


def version() -> str:
    """The version of motion."""
    file = ROOT / "VERSION"
    return file.read_text(encoding="ascii").strip() if file.exists() else ""


# Pages

def heading(name: str) -> str:
    return f'.TH "{name.upper()}" 1 "" "motion {version()}" "motion"\n'


def roff(text: str) -> str:
    """A text for roff: no line of it is a request."""
    text = text.replace("\\", "\\e").replace("-", "\\-")
    return re.sub(r"^([.'])", r"\\&\1", text, flags=re.MULTILINE)


def paragraphs(text: str) -> str:
    """Paragraphs of a text; lines that are indented stay as they are."""
    parts = []
    for part in re.split(r"\n\s*\n", text.strip("\n")):
        if part.startswith("    "):
            lines = "\n".join(line[4:] for line in part.split("\n"))
            parts.append(f".PP\n.RS 4\n.nf\n{roff(lines)}\n.fi\n.RE\n")
        else:
            parts.append(f".PP\n{roff(part)}\n")
    return "".join(parts)


def item(term: str, text: str) -> str:
    """An item of a list."""
    return f".TP\n.B {roff(term)}\n{roff(text)}\n"


def section(title: str, text: str) -> str:
    return f".SH {title}\n{text}"


def tool_page(name: str) -> str:
    """The page of a tool."""
    words = parser_of(name)
    first, _, rest = (words.description or "").strip().partition("\n\n")
    usage = " ".join(words.format_usage().split()).removeprefix("usage: ")
    summary = " ".join(first.split())
    return "".join([
        heading(name), section("NAME", f"{roff(name)} \\- {roff(first_sentence(summary))}\n"),
        section("SYNOPSIS", f".B {roff(usage)}\n"),
        section("DESCRIPTION", paragraphs(first + "\n\n" + rest)),
        section("OPTIONS", "".join(options_of(words))),
        section("EXIT STATUS", paragraphs(words.epilog or "")),
        section("SEE ALSO", see_also(name))])


def first_sentence(text: str) -> str:
    """The first sentence of a text, with a small letter and without its full stop."""
    sentence = re.split(r"(?<=[a-z)])[.:](?: |$)", text, maxsplit=1)[0]
    return sentence[0].lower() + sentence[1:]


def options_of(words: argparse.ArgumentParser) -> Iterable[str]:
    """The words of a tool, each as an item."""
    for action in words._actions:                               # pylint: disable=protected-access
        metavar = action.metavar or action.dest.upper()
        shown = str(metavar) if action.nargs != 0 else ""
        terms = [f"{option} {shown}".strip() for option in action.option_strings] or [shown]
        help_text = (action.help or "") % {"prog": words.prog} if action.help else ""
        if action.choices:
            help_text += f"; one of {', '.join(map(str, action.choices))}" \
                if not action.metavar else ""
        yield item(", ".join(terms), help_text)


def see_also(name: str) -> str:
    """The other pages."""
    others = ["motion", *TOOLS]
    return ", ".join(f"\\fB{roff(other)}\\fR(1)" for other in others if other != name) + "\n"


def motion_page() -> str:
    """The page of the program."""
    commands = hints.commands()
    synopsis = "\n.br\n".join(f".B motion {name} {words}" for name, (words, _) in commands.items())
    described = paragraphs(
        "motion is a PLCopen motion kernel with simulated CiA 402 drives. It runs a machine, and "
        "prints the trace of the run on the standard output: every call, cycle and reply. The "
        "words are exactly those of one of the forms; there are no options. A file that breaks a "
        "rule ends the program with status 3 and a line `refused FILE PLACE RULE`, which "
        "explain(1) explains; motion-run(1) runs a machine and explains it in one command.")
    statuses = "".join(item(number, f"{name}: {means}" + (f". {cure}" if cure else ""))
                       for number, (name, means, cure) in hints.texts()["status"].items())
    return "".join([
        heading("motion"), section("NAME", "motion \\- runs PLCopen motion machines\n"),
        section("SYNOPSIS", synopsis + "\n"), section("DESCRIPTION", described),
        section("COMMANDS", "".join(item(f"{name} {words}", does)
                                    for name, (words, does) in commands.items())),
        section("EXIT STATUS", statuses),
        section("EXAMPLES", paragraphs("    motion st machine.toml tasks.st > run.trace\n"
                                       "    motion check run.trace")),
        section("SEE ALSO", see_also("motion"))])


# Completion

def completion() -> str:
    """The completion of the words of motion and its tools for bash."""
    parts = ["# Completion of motion and its tools, for bash: written by tools/manual.\n",
             "_motion() {\n", '    local word="${COMP_WORDS[COMP_CWORD]}"\n', "    COMPREPLY=()\n",
             '    if [ "$COMP_CWORD" -eq 1 ]; then\n',
             f'        COMPREPLY=($(compgen -W "{" ".join(hints.commands())}" -- "$word"))\n',
             "        return\n", "    fi\n", '    case "${COMP_WORDS[1]}" in\n']
    for name, endings in FILES_OF.items():
        parts.append(f'        {name}) _motion_files "{endings}" ;;\n')
    parts += ["    esac\n", "}\n\n", FILES_FUNCTION, "\n_motion_tool() {\n",
              '    local word="${COMP_WORDS[COMP_CWORD]}"\n', "    COMPREPLY=()\n",
              '    if [[ "$word" == -* ]]; then\n', '        case "${COMP_WORDS[0]##*/}" in\n']
    for name in TOOLS:
        options = " ".join(option for action in parser_of(name)._actions
                           for option in action.option_strings if option.startswith("--"))
        parts.append(f'            {name}) COMPREPLY=($(compgen -W "{options}" -- "$word")) ;;\n')
    parts += ["        esac\n", "    else\n",
              '        _motion_files "bench|toml|prog|st|trace|segment|switches|edges"\n', "    fi\n",
              "}\n\n", "complete -F _motion motion\n",
              f"complete -F _motion_tool {' '.join(TOOLS)}\n"]
    return "".join(parts)


FILES_FUNCTION = """\
# Folders, and files with one of these endings.
_motion_files() {
    local name
    compopt -o filenames 2>/dev/null
    while IFS= read -r name; do
        if [ -d "$name" ] || [[ "$name" =~ \\.($1)$ ]]; then
            COMPREPLY+=("$name")
        fi
    done < <(compgen -f -- "${COMP_WORDS[COMP_CWORD]}")
}
"""
