"""Reads tasks in Structured Text as `motion st` does, and finds what breaks a rule and where.

The program reports the first line that breaks a rule, and the rule. This reader finds the token on
that line, and what was wanted in its position. Where the two differ the program is right.
"""

import re
from collections.abc import Callable
from typing import NoReturn, Optional, TypeVar, Union

from motion_tools.blocks import FLAGS, MODES, acts_on_group, keys_of
from motion_tools.explain.faults import Fault
from motion_tools.explain.st_tokens import Stop, Token, Tokens, Unfit
from motion_tools.explain.st_tree import (Assign, CallOf, Case, Flag, If, Join, Number, Sign,
                                          Statements, Task, Tree, Truth, Typed, Variable)
from motion_tools.trace import BLOCK_KINDS

ORDER = ("=", "<>", "<", "<=", ">", ">=")
QUALIFIERS = ("CONSTANT", "RETAIN", "NON_RETAIN", "PERSISTENT")     # of a VAR, which has none here
MOST = 2147483647
Read = TypeVar("Read")


def tasks_of(text: str, axes: list[str], groups: dict[str, list[str]]) -> list[Task]:
    """The tasks of a text that breaks no rule; none of another one."""
    reader = Reader(text, axes, groups)
    try:
        reader.file()
    except Stop:
        return []
    return reader.tasks if reader.is_whole else []


def declared_in(text: str) -> dict[str, set[str]]:
    """The names that each task of a text declares, also below a fault."""
    found: dict[str, set[str]] = {}
    bare = re.sub(r"\(\*.*?\*\)", " ", text, flags=re.DOTALL)
    for task in re.finditer(r"\bPROGRAM\s+(\w+)\s+VAR\b(.*?)\bEND_VAR\b", bare, re.DOTALL):
        found.setdefault(task[1], set()).update(re.findall(r"(\w+)\s*:(?!=)", task[2]))
    return found


def faults_of(text: str, axes: list[str], groups: dict[str, list[str]]) -> list[Fault]:
    """What breaks a rule, in the order of the text: up to the first break of S1 or S2 as `motion`
    finds it, and of statements and declarations below one as well as this reader can go on."""
    reader = Reader(text, axes, groups)
    try:
        reader.file()
    except Stop:
        pass
    stops = [place for place, fault in enumerate(reader.faults) if fault.rule in ("S1", "S2")]
    found = reader.faults[:stops[0] + 1] if stops else reader.faults
    below = [fault for fault in reader.faults[len(found):] if fault.line > found[-1].line]
    return sorted([*found, *below], key=lambda fault: (fault.line, fault.rule))


class Reader(Tokens):
    """Goes over the tokens by the grammar of docs/formats.md, one method for each line of it."""

    def __init__(self, text: str, axes: list[str], groups: dict[str, list[str]]):
        super().__init__(text)
        self.axes, self.groups = axes, groups
        self.tasks: list[Task] = []
        self.declared = declared_in(text)
        self.depth = self.statements = 0

    # The grammar

    def file(self) -> None:
        """file = task {task}"""
        self.advance()
        self.task()
        while self.here.kind != "end":
            self.task()
        if self.is_whole and not any(task.blocks for task in self.tasks):
            self.blame("S6", self.here, "the text has no block")

    def task(self) -> None:
        """task = PROGRAM name VAR {decl} END_VAR {stmt} END_PROGRAM"""
        begin = self.take("PROGRAM")
        if len(self.tasks) == 8:
            self.blame("S6", begin, "it is the 9th task; there are 8 at most")
        name = self.take_kind("word", "the name of the task")
        self.define(name, Task(""))
        self.tasks.append(Task(name.text))
        self.take("VAR")
        while not self.is_at("END_VAR"):
            name = self.here
            try:
                self.declaration()
            except Unfit:
                if name is self.here:
                    raise
                self.pass_over(name)
        self.advance()
        self.tasks[-1].statements = self.statements_to("END_PROGRAM")
        self.advance()

    def declaration(self) -> None:
        """decl = name : BOOL [:= value] ; | name : DINT [:= number] ; | name : KIND ( object ) ;"""
        task, name = self.tasks[-1], self.take_kind("word", "a declaration, or END_VAR,")
        if name.text in QUALIFIERS and not self.is_at(":"):
            self.unexpected(":", f": {name.text} is taken for the name of a variable")
        self.take(":")
        kind = self.here
        if self.is_at("BOOL", "DINT"):
            self.advance()
            self.define(name, task)
            task.variables[name.text] = kind.text
            task.lines[name.text] = name.line
            if self.is_at(":="):
                self.advance()
                task.initial[name.text] = self.initial(kind.text)
        elif kind.text in BLOCK_KINDS:
            self.advance()
            self.block(task, name, kind)
        else:
            self.unexpected("BOOL, DINT or a kind of block")
        self.take(";")

    def initial(self, kind: str) -> int:
        """The first value of a variable."""
        if kind == "BOOL":
            if not self.is_at("TRUE", "FALSE"):
                self.unexpected("TRUE or FALSE")
            return self.advance().text == "TRUE"
        return self.signed()

    def signed(self) -> int:
        """[-] number"""
        if not self.is_at("-"):
            return self.number()
        self.advance()
        return -self.number()

    def block(self, task: Task, name: Token, kind: Token) -> None:
        """The object of a block."""
        self.take("(", "( with the block's axis or group")
        on = self.take_kind("word", "the name of an axis or a group")
        self.take(")")
        self.define(name, task)
        known = self.groups if acts_on_group(kind.text) else self.axes
        what = "group" if acts_on_group(kind.text) else "axis"
        article = "a" if what == "group" else "an"
        if on.text not in known:
            there = ", ".join(known) or f"no {what} at all"
            self.blame("S3", on, f"{kind.text} acts on {article} {what}, and the configuration "
                       f"has no {what} {on.text} but {there}")
        if sum(len(each.blocks) for each in self.tasks) == 256:
            self.blame("S6", name, "it is the 257th block; there are 256 at most")
        task.blocks[name.text] = (kind.text, on.text)
        task.lines[name.text] = name.line

    def define(self, name: Token, task: Task) -> None:
        """A name is defined in a task, which nothing else may have."""
        used = {**{axis: "an axis" for axis in self.axes},
                **{group: "a group" for group in self.groups},
                **{each.name: "a task" for each in self.tasks},
                **{block: "a block" for each in self.tasks for block in each.blocks},
                **{variable: "a variable" for variable in task.variables}}
        if name.text in used:
            self.blame("S3", name, f"{name.text} is the name of {used[name.text]} already")

    def statements_to(self, *ends: str) -> Statements:
        """{stmt}, up to one of these words."""
        found: Statements = []
        while not self.is_at(*ends):
            if ends[-1] == "END_CASE" and self.is_branch():
                break
            found.append(self.statement(" or ".join(ends)))
        return found

    def is_branch(self) -> bool:
        """Whether a branch of a CASE stands next."""
        return self.here.kind == "number" or self.is_at("-")

    def statement(self, ends: str) -> Union[Assign, CallOf, If, Case]:
        """stmt = assignment | call | IF | CASE"""
        self.statements += 1
        if self.statements == 10_001:
            self.blame("S6", self.here, "it is the 10,001st statement; there are 10,000 at most")
        if self.is_at("IF"):
            return self.nested(self.condition)
        if self.is_at("CASE"):
            return self.nested(self.case)
        name = self.take_kind("word", f"a statement or {ends}")
        try:
            return self.simple(name)
        except Unfit:
            self.pass_over(name)
            return Assign(name.line, name.text, Number(0))

    def simple(self, name: Token) -> Union[Assign, CallOf]:
        """assignment ; | call ;"""
        if self.is_at("("):
            made: Union[Assign, CallOf] = self.call(name)
        elif self.is_at(":="):
            made = self.assignment(name)
        else:
            self.no_statement(name)
        self.take(";")
        return made

    def no_statement(self, name: Token) -> NoReturn:
        """A name begins no statement: where it is unknown and on the line it is marked itself."""
        task = self.tasks[-1]
        if name.line != self.here.line or name.text in task.variables or name.text in task.blocks:
            self.unexpected(":= or (")
        self.goes_on = False
        if self.is_whole or not re.fullmatch(r"(?i)end_\w+|until|elsif", name.text):
            self.faults.append(Fault("S2", name.line, name.column, len(name.text),
                                     f"{name.text} begins no statement", name.text))
        raise Unfit

    def nested(self, read: Callable[[], Read]) -> Read:
        """Reads what may stand in itself, up to 32 deep."""
        self.depth += 1
        if self.depth == 33:
            self.blame("S6", self.here, "it is the 33rd IF, CASE or parenthesis that is open")
            raise Stop
        found = read()
        self.depth -= 1
        return found

    def condition(self) -> If:
        """IF expr THEN {stmt} [ELSE {stmt}] END_IF ;"""
        begin = self.advance()
        condition = self.expression("BOOL", begin, "the condition of an IF")
        self.take("THEN")
        self.opened.append(begin)
        then, other = self.statements_to("ELSE", "END_IF"), []
        if self.is_at("ELSE"):
            self.advance()
            other = self.statements_to("END_IF")
        self.take("END_IF")
        self.opened.pop()
        self.take(";")
        return If(begin.line, condition, then, other)

    def case(self) -> Case:
        """CASE expr OF {[-] number : {stmt}} [ELSE {stmt}] END_CASE ;"""
        begin = self.advance()
        value = self.expression("DINT", begin, "the value of a CASE")
        self.take("OF")
        self.opened.append(begin)
        branches, other = [], []
        while self.is_branch():
            line, number = self.here.line, self.signed()
            self.take(":", ": after the number of a branch")
            branches.append((number, line, self.statements_to("ELSE", "END_CASE")))
        if self.is_at("ELSE"):
            self.advance()
            other = self.statements_to("END_CASE")
        self.take("END_CASE", "the number of a branch, ELSE or END_CASE")
        self.opened.pop()
        self.take(";")
        return Case(begin.line, value, branches, other)

    def assignment(self, name: Token) -> Assign:
        """name := expr"""
        self.advance()
        kind = self.tasks[-1].variables.get(name.text)
        if kind is None:
            self.unknown("variable", name)
        return Assign(name.line, name.text,
                      self.expression(kind, name, f"the value of {name.text}"))

    def call(self, name: Token) -> CallOf:
        """name ( execute := expr {, key := value} )"""
        block = self.tasks[-1].blocks.get(name.text)
        if block is None:
            self.unknown("block", name)
        self.advance()
        self.take("execute")
        self.take(":=")
        execute = self.expression("BOOL", name, "the value of execute")
        allowed, given, sums = self.allowed_keys(block), set(), []
        while self.is_at(","):
            self.advance()
            given.add(self.here.text)
            tree = self.key(name, block, allowed)
            sums += [tree] if isinstance(tree, (Join, Sign)) else []
        self.take(")", ", or )")
        missing = () if block is None else tuple(
            key for key in self.allowed_keys(block) if key.startswith("pos") and key not in given)
        return CallOf(name.line, name.text, execute, missing, tuple(sums))

    def unknown(self, what: str, name: Token) -> None:
        """A name is no variable, or no block, of this task: whose it is, where it is somebody's."""
        task = self.tasks[-1]
        owners = [each for each, names in self.declared.items() if name.text in names]
        others = {**{axis: "an axis" for axis in self.axes},
                  **{group: "a group" for group in self.groups},
                  **{block: "a block" for block in task.blocks},
                  **{variable: "a variable" for variable in task.variables}}
        says = f"there is no {what} {name.text} in this task"
        if name.text in self.passed:
            return
        if name.text in others:
            says = f"{name.text} is {others[name.text]}, and no {what}"
        elif owners and owners[0] != task.name:
            says += f"; {name.text} is of the task {owners[0]}"
        self.blame("S3", name, says)

    def allowed_keys(self, block: Optional[tuple[str, str]]) -> list[str]:
        """The keys of a block, in their order, of which each may still come."""
        if block is None:
            return []
        kind, on = block
        count = len(self.groups.get(on, ()))
        return [each for key in keys_of(kind)
                for each in ([f"pos{place + 1}" for place in range(count)]
                             if key == "pos" and acts_on_group(kind) else [key])]

    def key(self, name: Token, block: Optional[tuple[str, str]],
            allowed: list[str]) -> Optional[Tree]:
        """key := value, of which a number has its tree"""
        key = self.take_kind("word", "a key, as pos, vel or acc,")
        self.take(":=")
        if key.text not in allowed:
            if block:
                keys = " ".join(self.allowed_keys(block)) or "no key but execute"
                self.blame("S5", key, f"{key.text} comes out of order, twice, or isn't taken by "
                           f"{block[0]}, which has {keys}")
            if key.text in ("mode", "master"):
                self.take_kind("word", "a name")
            else:
                self.expression(None, name, "")
            return None
        del allowed[:allowed.index(key.text) + 1]
        if key.text in ("mode", "master"):
            self.named(key)
            return None
        return self.expression("DINT", name, f"the value of {key.text}")

    def named(self, key: Token) -> None:
        """The value of `mode` or `master`."""
        value = self.take_kind("word", "a mode" if key.text == "mode" else "an axis")
        known = MODES if key.text == "mode" else self.axes
        if value.text not in known:
            self.blame("S3", value, f"{value.text} is no {'mode' if key.text == 'mode' else 'axis'}"
                       f"; there are {', '.join(known)}")

    # Expressions: each gives its type, None where a name is unknown, and its tree

    def expression(self, wanted: Optional[str], at: Token, what: str) -> Tree:
        """An expression, which has to be of a type."""
        first = self.here
        kind, tree = self.disjunction(at)
        if wanted and kind and kind != wanted:
            shown = first if first.line == at.line else at
            self.blame("S4", shown, f"{what} is a {kind}, and has to be a {wanted}", at.line)
        return tree

    def operands(self, read: Callable[[Token], Typed], signs: tuple[str, ...], kind: str,
                 at: Token) -> Typed:
        """Operands of one type that signs join, and the type of what they make."""
        first = self.here
        found, tree = read(at)
        while self.is_at(*signs):
            sign = self.advance()
            self.operand_type(found, kind, first, sign, at)
            first = self.here
            other, right = read(at)
            self.operand_type(other, kind, first, sign, at)
            found, tree = kind, Join(sign.text, tree, right)
        return found, tree

    def operand_type(self, found: Optional[str], wanted: str, token: Token, sign: Token,
                     at: Token) -> None:
        """An operand has to be of its operator's type."""
        if found and found != wanted:
            shown = token if token.line == at.line else at
            self.blame("S4", shown, f"{sign.text} takes {wanted}s, and {token.text} begins a "
                       f"{found}", at.line)

    def disjunction(self, at: Token) -> Typed:
        """expr = conj {OR conj}"""
        return self.operands(self.conjunction, ("OR",), "BOOL", at)

    def conjunction(self, at: Token) -> Typed:
        """conj = cmp {AND cmp}"""
        return self.operands(self.comparison, ("AND",), "BOOL", at)

    def comparison(self, at: Token) -> Typed:
        """cmp = sum [(= | <> | < | <= | > | >=) sum]"""
        first = self.here
        found, tree = self.sum(at)
        if not self.is_at(*ORDER):
            return found, tree
        sign, second = self.advance(), self.here
        other, right = self.sum(at)
        if sign.text in ("=", "<>"):
            if found and other and found != other:
                self.blame("S4", second if second.line == at.line else at,
                           f"both sides of {sign.text} have one type, and here a {found} stands "
                           f"beside a {other}", at.line)
        else:
            self.operand_type(found, "DINT", first, sign, at)
            self.operand_type(other, "DINT", second, sign, at)
        return "BOOL", Join(sign.text, tree, right)

    def sum(self, at: Token) -> Typed:
        """sum = prod {(+ | -) prod}"""
        return self.operands(self.product, ("+", "-"), "DINT", at)

    def product(self, at: Token) -> Typed:
        """prod = un {* un}"""
        return self.operands(self.unary, ("*",), "DINT", at)

    def unary(self, at: Token) -> Typed:
        """un = [- | NOT] prim"""
        if not self.is_at("-", "NOT"):
            return self.primary(at)
        sign, first = self.advance(), self.here
        (found, tree), wanted = self.primary(at), "BOOL" if sign.text == "NOT" else "DINT"
        self.operand_type(found, wanted, first, sign, at)
        return wanted, Sign(sign.text, tree)

    def primary(self, at: Token) -> Typed:
        """prim = number | TRUE | FALSE | name | name . flag | ( expr )"""
        if self.here.kind == "number":
            return "DINT", Number(self.number())
        if self.is_at("TRUE", "FALSE"):
            return "BOOL", Truth(self.advance().text == "TRUE")
        if self.is_at("("):
            self.advance()
            found = self.nested(lambda: self.disjunction(at))
            self.take(")")
            return found
        return self.name_or_flag()

    def name_or_flag(self) -> Typed:
        """A variable, or what a block shows."""
        task, name = self.tasks[-1], self.take_kind("word", "a value")
        if not self.is_at("."):
            if name.text not in task.variables:
                self.unknown("variable", name)
            return task.variables.get(name.text), Variable(name.text)
        self.advance()
        if not self.is_at(*FLAGS):
            what = "an axis" if name.text in self.axes else "a group"
            self.unexpected("busy, active, done, aborted, error or reached",
                            f"; {name.text} is {what}" * (name.text in [*self.axes, *self.groups]))
        flag = self.advance().text
        if name.text not in task.blocks:
            self.unknown("block", name)
        return "BOOL", Flag(name.text, flag)

    def number(self) -> int:
        """A number, up to the greatest DINT."""
        token = self.take_kind("number", "a whole number")
        if int(token.text) > MOST:
            self.blame("S5", token, f"{token.text} is above {MOST}, the greatest DINT")
        return int(token.text)
