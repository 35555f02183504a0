"""Checks the syntax of a value change dump against IEEE 1364-2005, clause 18, with GTKWave's kind
of variable `string` beside those of the standard, and reads its values back."""

import re

KINDS = {"event", "integer", "real", "wire", "string"}
UNITS = re.compile(r"(1|10|100) ?(s|ms|us|ns|ps|fs)")
REFERENCE = re.compile(r"[A-Za-z_][A-Za-z0-9_$]*( \[[0-9]+(:[0-9]+)?\])?")
CODE = re.compile(r"[!-~]+")
VECTOR = re.compile(r"[bB]([01xXzZ]+) ([!-~]+)")
REAL = re.compile(r"[rR](\S+) ([!-~]+)")
STRING = re.compile(r"s(\S*) ([!-~]+)")
SCALAR = re.compile(r"([01xXzZ])([!-~]+)")


class Fault(Exception):
    """The dump isn't one."""


def need(fact, reason, what):
    if not fact:
        raise Fault(f"{reason}: {what!r}")


class Dump:
    """A dump that was read: the kind and bits of each variable by its full name, and the values
    after each time, of which `at` gives those at one."""

    def __init__(self, text):
        need(text.isascii(), "a dump is ASCII", text[:40])
        head, separator, body = text.partition("$enddefinitions $end\n")
        need(separator, "there is no $enddefinitions", text[:40])
        self.variables, self.names, self.timescale = {}, {}, None
        self.read_header(head)
        self.times, self.values, self.events = [], {}, []
        self.snapshots = {}
        self.read_body(body.splitlines())

    # Declarations

    def read_header(self, head):
        """The declarations: words from $KEYWORD to $end."""
        scopes = []
        words = head.split()
        while words:
            end = words.index("$end")
            keyword, told, words = words[0], words[1:end], words[end + 1:]
            self.read_declaration(keyword, told, scopes)
        need(not scopes, "a scope has no end", scopes)
        need(self.timescale, "there is no $timescale", head[:40])

    def read_declaration(self, keyword, told, scopes):
        if keyword == "$scope":
            need(len(told) == 2 and told[0] == "module", "no scope", told)
            need(REFERENCE.fullmatch(told[1]), "no name of a scope", told)
            scopes.append(told[1])
        elif keyword == "$upscope":
            need(scopes and not told, "no scope to leave", told)
            scopes.pop()
        elif keyword == "$var":
            self.read_variable(told, scopes)
        elif keyword == "$timescale":
            need(self.timescale is None and UNITS.fullmatch(" ".join(told)), "no scale", told)
            self.timescale = " ".join(told)
        else:
            need(keyword in ("$comment", "$date", "$version"), "no declaration", keyword)

    def read_variable(self, told, scopes):
        kind, bits, code, *reference = told
        need(kind in KINDS, "no kind of variable", told)
        need(re.fullmatch("[1-9][0-9]*", bits), "no size", told)
        need(CODE.fullmatch(code) and code not in self.names, "no new code", told)
        need(REFERENCE.fullmatch(" ".join(reference)), "no name", told)
        name = ".".join(scopes + [reference[0]])
        need(scopes and name not in self.variables, "no new name", name)
        self.names[code] = name
        self.variables[name] = (kind, int(bits))

    # Values

    def read_body(self, lines):
        dumping = False
        for line in lines:
            if line.startswith("#"):
                self.read_time(line)
            elif line == "$dumpvars":
                need(not dumping and self.times == [0], "no place of $dumpvars", line)
                dumping = True
            elif line == "$end":
                need(dumping, "nothing ends", line)
                dumping = False
            else:
                self.read_change(line)
        need(not dumping, "$dumpvars has no end", lines[-1:])
        self.snapshots[self.times[-1]] = dict(self.values)

    def read_time(self, line):
        need(re.fullmatch("#(0|[1-9][0-9]*)", line), "no time", line)
        time = int(line[1:])
        if self.times:
            need(time > self.times[-1], "a time doesn't rise", line)
            self.snapshots[self.times[-1]] = dict(self.values)
        self.times.append(time)

    def read_change(self, line):
        need(self.times, "a change stands before all times", line)
        for pattern, kinds in ((VECTOR, ("wire", "integer")), (REAL, ("real",)),
                               (STRING, ("string",)), (SCALAR, ("wire", "event"))):
            match = pattern.fullmatch(line)
            if match:
                return self.change(match[1], match[2], kinds, pattern is SCALAR, line)
        raise Fault(f"no change: {line!r}")

    def change(self, value, code, kinds, scalar, line):
        need(code in self.names, "the code isn't declared", line)
        name = self.names[code]
        kind, bits = self.variables[name]
        need(kind in kinds, f"no change of a {kind}", line)
        if kind in ("wire", "integer"):
            need(scalar == (bits == 1) and len(value) <= bits, f"no value of {bits} bits", line)
            value = int(value, 2) - (1 << bits if len(value) == 32 and value[0] == "1" else 0)
        elif kind == "real":
            value = None if value == "nan" else float(value)
        if kind == "event":
            self.events.append((self.times[-1], name))
        else:
            self.values[name] = value

    def at(self, time, name):
        """The value of a variable after the changes at a time that is told."""
        return self.snapshots[time].get(name)
