"""What `explain` finds: an error, a warning or a note, with its position and its cure."""

from collections.abc import Iterable
from dataclasses import asdict, dataclass
from typing import Optional

from motion_tools.explain.faults import marked


@dataclass
class Finding:
    """Something to know of a text or a run. Lines and columns are counted from 1, 0 where there is
    none; `when` is the time in a run."""

    severity: str               # error, warning or note
    code: str                   # a rule, an ErrorID, a status or the name of a warning
    says: str
    cure: str = ""
    rule: str = ""              # the rule in one sentence
    file: str = ""
    line: int = 0
    column: int = 0
    length: int = 1
    text: str = ""              # the line itself
    when: str = ""
    cycle: Optional[int] = None

    def words(self) -> str:
        """The finding in words, as a compiler has it."""
        head = f"{self.severity} {self.code}: " if self.code else f"{self.severity}: "
        at = f"{self.when}: " if self.when else ""
        lines = [f"{self.position()}{head}{at}{self.says}\n"]
        if self.text:
            lines.append(marked(self.text, self.column - 1, self.length))
        if self.rule:
            lines.append(f"  rule: {self.rule}\n")
        if self.cure:
            lines.append(f"  cure: {self.cure}\n")
        return "".join(lines)

    def position(self) -> str:
        """The file, the line and the column, as far as they are known."""
        numbers = [str(number) for number in (self.line, self.line and self.column) if number]
        return ":".join([self.file, *numbers]) + ": " if self.file else ""

    def data(self) -> dict[str, object]:
        """The finding for a program: what is there of it."""
        return {key: value for key, value in asdict(self).items()
                if value not in ("", 0, None) or key in ("severity", "code", "says")
                or key == "cycle" and value == 0}


def words_of(findings: Iterable[Finding]) -> str:
    """Findings in words."""
    return "".join(finding.words() for finding in findings)
