"""What kind of text a file is."""

import re
from typing import Optional

MARKS = (("motion-bench", "bench"), ("motion-program", "program"), ("motion-switches", "switches"),
         ("kind,a,b", "trace"), ("segment,", "segment"), ("PROGRAM", "st"), ("(*", "st"))


def traces_among(files: list[str]) -> list[str]:
    """The traces and segments among some files."""
    return [name for name in files if kind_of(name) in ("trace", "segment")]


def kind_of(name: str) -> str:
    """What kind of text a file is, by its first words, else by its ending; nothing where it can't
    be read."""
    head = head_of(name)
    if head is None:
        return ""
    for ending, kind in ((".bench", "bench"), (".prog", "program"), (".st", "st"),
                         (".toml", "config"), (".trace", "trace"), (".switches", "switches")):
        if name.endswith(ending):
            return kind_by_words(head) or kind
    return kind_in(head)


def kind_by_text(name: str) -> str:
    """The same by what stands in it alone; nothing where that is no mark of a kind."""
    return kind_in(head_of(name) or "")


def kind_in(head: str) -> str:
    """The kind of a text that begins so."""
    is_config = re.search(r"^\s*(cycle_us|\[\[axis)", head, re.MULTILINE)
    return kind_by_words(head) or ("config" if is_config else "")


def head_of(name: str) -> Optional[str]:
    """How a file begins; None where it can't be read."""
    try:
        with open(name, "rb") as file:
            return file.read(4096).decode("utf-8-sig", "replace")
    except OSError:
        return None


def kind_by_words(head: str) -> str:
    """The kind of a text by its first words."""
    words = [line.split("#")[0].split() for line in head.splitlines()]
    first = next((line for line in words if line), [""])
    return next((kind for mark, kind in MARKS if first[0].startswith(mark)), "")
