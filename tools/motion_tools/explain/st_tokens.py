"""The tokens of Structured Text, one after another, and what breaks a rule at one of them."""

import re
from collections.abc import Iterator
from typing import NamedTuple, NoReturn

from motion_tools.blocks import FLAGS
from motion_tools.explain.faults import Fault
from motion_tools.trace import BLOCK_KINDS

WORDS = frozenset("PROGRAM VAR END_VAR END_PROGRAM BOOL DINT TRUE FALSE IF THEN ELSE END_IF CASE "
                  "OF END_CASE AND OR NOT execute".split()) | set(FLAGS)
TOKEN = re.compile(r"(?P<blank>[ \t\r]+)|(?P<comment>\(\*)|(?P<word>[A-Za-z][A-Za-z0-9_]*)"
                   r"|(?P<number>[0-9]+)|(?P<sign>:=|<>|<=|>=|[:;,.()=<>+*-])")

ENDS = ("END_IF", "END_CASE", "END_PROGRAM", "ELSE", "PROGRAM")


class Token(NamedTuple):
    """A word, a number or a sign of a text, or its end."""
    kind: str           # word, number, sign or end
    text: str
    line: int
    column: int


class Stop(Exception):
    """Reading ends at a token that breaks S1 or S2."""


class Unfit(Stop):
    """A token doesn't fit the grammar. `motion` ends there; a statement or a declaration later this
    reader may go on."""


def open_words(opened: list[Token]) -> str:
    """The IF and CASE without an end in words, the last one first."""
    shown = [f"the {each.text} of line {each.line}" for each in reversed(opened[-4:])]
    return ", ".join(shown) + (", .." if len(opened) > 4 else "")


class Tokens:
    """Goes over the tokens of a text; `here` is the one that stands next, `before` the one
    taken."""

    def __init__(self, text: str):
        self.faults: list[Fault] = []
        self.opened: list[Token] = []           # the IF and CASE that have no end so far
        self.goes_on = False                    # of the last fault: a ; was missing, and no more
        self.is_whole = True                    # no token was passed over
        self.passed: set[str] = set()           # words that were
        self.tokens = self.lexed(text)
        self.here = self.before = Token("end", "", 0, 0)

    def lexed(self, text: str) -> Iterator[Token]:
        """The tokens of a text; the end is a token of its last line."""
        lines, number, column = text.split("\n"), 1, 0
        if len(lines) > 1 and not lines[-1]:
            lines.pop()
        while number <= len(lines):
            line = lines[number - 1]
            if column >= len(line):
                number, column = number + 1, 0
                continue
            found = TOKEN.match(line, column)
            if found is None:
                self.fail("S1", number, column, 1, f"no token begins with {line[column]!a}",
                          line[column])
            if found.lastgroup == "comment":
                number, column = self.comment_end(lines, number, column)
                continue
            if found.lastgroup != "blank":
                yield self.token(found, number)
            column = found.end()
        yield Token("end", "the end of the text", len(lines), len(lines[-1]))

    def token(self, found: "re.Match[str]", line: int) -> Token:
        """A word, number or sign; a word has at most 16 characters, or is a kind of block."""
        text, kind = found[0], str(found.lastgroup)
        if kind == "word" and len(text) > 16 and text not in BLOCK_KINDS:
            self.fail("S1", line, found.start(), len(text),
                      f"{text} has {len(text)} characters; a name has at most 16", text)
        return Token(kind, text, line, found.start())

    def comment_end(self, lines: list[str], number: int, column: int) -> tuple[int, int]:
        """Where a comment ends; it is ASCII."""
        start, begun, column = number, column, column + 2
        while number <= len(lines):
            line = lines[number - 1]
            end = line.find("*)", column)
            stop = len(line) if end < 0 else end
            for place in range(column, stop):
                if not line[place].isascii():
                    self.fail("S1", number, place, 1, f"a comment has {line[place]!a}, which isn't "
                              "ASCII", line[place])
            if end >= 0:
                return number, end + 2
            number, column = number + 1, 0
        self.fail("S1", start, begun, 2, "this comment has no end", "(*")

    def advance(self) -> Token:
        """Takes a token."""
        self.before, self.here = self.here, next(self.tokens, self.here)
        return self.before

    def is_at(self, *texts: str) -> bool:
        """Whether one of these words or signs stands next."""
        return self.here.kind != "end" and self.here.text in texts

    def take(self, text: str, wanted: str = "") -> Token:
        """Takes this word or sign, which has to stand next."""
        if not self.is_at(text):
            self.unexpected(wanted or text)
        return self.advance()

    def take_kind(self, kind: str, wanted: str) -> Token:
        """Takes a token of a kind, which has to stand next and is no word of the grammar."""
        if self.here.kind != kind or (kind == "word" and (
                self.here.text in WORDS or self.here.text in BLOCK_KINDS)):
            self.unexpected(wanted)
        return self.advance()

    # Faults

    def pass_over(self, name: Token) -> None:
        """Goes on after a fault at the next ; or at an end, for the faults that stand below it."""
        self.is_whole = False
        self.passed.add(name.text)
        while not (self.goes_on or self.here.kind == "end" or self.is_at(*ENDS, "END_VAR")):
            self.passed.add(self.here.text)
            if self.advance().text == ";":
                return

    def fail(self, rule: str, line: int, column: int, length: int, says: str,
             word: str) -> NoReturn:
        """Reading ends here."""
        self.faults.append(Fault(rule, line, column, length, says, word))
        raise Stop

    def unexpected(self, wanted: str, more: str = "") -> NoReturn:
        """The token that stands next doesn't fit the grammar."""
        here = self.here
        if wanted == ";":
            says = f"a ; is missing before {here.text}"
            if self.before.line != here.line:
                says += f", after {self.before.text} in line {self.before.line}"
        else:
            says = f"{here.text} stands where {wanted} is expected{more}"
            if self.opened and (here.kind in ("end", "number") or here.text in ENDS):
                says += f"; open are {open_words(self.opened)}"
        self.goes_on = wanted == ";" and (here.text in ENDS or self.before.line != here.line)
        length = len(here.text) if here.kind != "end" else 1
        self.faults.append(Fault("S2", here.line, here.column, length, says, here.text))
        raise Unfit

    def blame(self, rule: str, token: Token, says: str, line: int = 0) -> None:
        """A rule is broken at a token; of a type it is reported at its statement's line."""
        on_line = line in (0, token.line)
        self.faults.append(Fault(rule, line or token.line, token.column if on_line else -1,
                                 len(token.text), says, token.text))
