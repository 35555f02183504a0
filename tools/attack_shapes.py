"""The shapes of tools/attacks: texts that are long in one way, each of as many bytes as are asked."""

import dataclasses
import pathlib
import typing

REFUSED = ".ci/refused"
CELL = f"{REFUSED}/cell.toml"
TASKS = "examples/two-tasks/two-tasks"
TEXT = "TEXT"                   # where the text stands among the words of a command


@dataclasses.dataclass(frozen=True)
class Shape:
    """A text that is made for a size, and the command that reads it."""

    name: str
    words: tuple
    text: typing.Callable

    def words_for(self, path):
        return [str(path) if word == TEXT else word for word in self.words]


SHAPES = []


def shape(name, words, make):
    """Adds a shape, whose text `make(size)` gives."""
    SHAPES.append(Shape(name, tuple(words.split()), lambda size: make(size).encode("latin-1")))


def filled(part, size):
    """A part over and over, up to a size."""
    return part * (size // len(part))


def counted(part, size):
    """A part over and over with its number in it, up to a size."""
    parts, length, number = [], 0, 0
    while length < size:
        parts.append(part % number)
        length += len(parts[-1])
        number += 1
    return "".join(parts)


def root_text(name):
    return (pathlib.Path(__file__).resolve().parent.parent / name).read_text(encoding="latin-1")


# Structured Text: what stands among the declarations, and what among the statements.
def program(body="", declarations=""):
    return (f"PROGRAM main VAR n : DINT; b : BOOL; finished : BOOL; e : Power(X); {declarations} "
            f"END_VAR {body} END_PROGRAM\n")


def st(name, make):
    shape(f"st {name}", f"st {CELL} {TEXT}", make)


st("declarations", lambda n: program("", counted("v%07d : BOOL;\n", n)))
st("short declarations", lambda n: program("", counted("v%x:BOOL;", n)))
st("one name declared", lambda n: program("", filled("v : DINT;", n)))
st("blocks", lambda n: program("", counted("v%07d : Power(X);\n", n)))
st("tasks", lambda n: counted("PROGRAM t%d VAR END_VAR END_PROGRAM\n", n))
st("sum of products", lambda n: program("n := " + filled("n*n+", n) + "n;"))
st("sum", lambda n: program("n := " + filled("n+", n) + "n;"))
st("conjunction", lambda n: program("b := " + filled("b AND ", n) + "b;"))
st("comparisons", lambda n: program("b := " + filled("n=n OR ", n) + "b;"))
st("negations", lambda n: program("n := " + filled("-n+", n) + "n;"))
st("parentheses", lambda n: program("n := " + filled("(", n)))
st("pairs of parentheses", lambda n: program("n := " + filled("(n)+", n) + "n;"))
st("assignments", lambda n: program(filled("n:=n;", n)))
st("unknown names", lambda n: program(counted("v%07d := n;", n)))
st("calls", lambda n: program(filled("e(execute:=b);", n)))
st("keys", lambda n: program("e(execute := b" + filled(",num:=n", n) + ");"))
st("modes", lambda n: program("e(execute := b" + filled(",mode:=buffered", n) + ");"))
st("branches", lambda n: program("CASE n OF " + filled("1:", n) + " END_CASE;"))
st("ifs", lambda n: program(filled("IF b THEN ", n)))
st("ifs one after another", lambda n: program(filled("IF b THEN END_IF;", n)))
st("comments", lambda n: program(filled("(**)", n)))
st("open comments", lambda n: program(filled("(*", n)))
st("blanks", lambda n: program(filled(" ", n)))
st("lines", lambda n: program(filled("\n", n)))
st("one word", lambda n: program(filled("a", n)))
st("one number", lambda n: program("n := " + filled("1", n) + ";"))
st("semicolons", lambda n: program(filled(";", n)))


# Configurations: what stands after the keys of the top.
TOP = "cycle_us = 1000\ncycles = 20\nentries = 40\n"
AXIS = ("[[axis]]\nname = 'X'\nlo = -10\nhi = 400\nvmax = 1000\namax = 5000\n"
        "increment = '0.001'\nstart = 0\n")


def config(name, make):
    shape(f"config {name}", f"st {TEXT} .ci/runs/one_move.st", lambda size: TOP + make(size))


config("deep headers", lambda n: counted("[k%07d" + 60 * ".a" + "]\n", n))
config("one deep header", lambda n: "[k" + filled(".a", n) + "]\n")
config("dotted keys", lambda n: counted("k%07d" + 30 * ".a" + " = 1\n", n))
config("one dotted key", lambda n: "k" + filled(".a", n) + " = 1\n")
config("inline tables", lambda n: "axis = [" + filled("{a=1},", n) + "]\n")
config("empty inline tables", lambda n: "axis = [" + filled("{},", n) + "]\n")
config("nested inline tables", lambda n: "x = " + filled("{a=", n))
config("headers", lambda n: filled("[[axis]]\n", n))
config("keys", lambda n: counted("k%07d = 1\n", n))
config("keys of an inline table", lambda n: "axis = [{" + counted("k%07d=1,", n) + "}]\n")
config("integers", lambda n: AXIS + "faults = [" + filled("1,", n) + "]\n")
config("strings", lambda n: AXIS + "faults = [" + filled("'',", n) + "]\n")
config("empty lists", lambda n: "axis = [" + filled("[],", n) + "]\n")
config("nested lists", lambda n: "axis = " + filled("[", n) + "\n")
config("one string", lambda n: "x = '" + filled("a", n) + "'\n" + AXIS)
config("one string of three quotes", lambda n: "x = '''" + filled("[{=.,\n", n) + "'''\n" + AXIS)
config("escapes", lambda n: 'x = "' + filled("\\\\", n) + '"\n' + AXIS)
config("comments", lambda n: filled("# a = [{b.c = 1}]\n", n) + AXIS)
config("lines", lambda n: filled("\n", n) + AXIS)
config("tables behind quotes", lambda n: "x = ['''\n''', " + filled("{a=1},", n) + "]\n")
config("tables behind a comment", lambda n: "x = ['#', " + filled("{a=1},", n) + "]\n")


# Benches and programs: what stands after the machine.
BENCH = root_text("examples/first-move/first-move.bench").split("call")[0]
PROGRAM = root_text(f"{TASKS}.prog")


def bench(name, make):
    shape(f"bench {name}", f"bench {TEXT}", make)


bench("calls", lambda n: BENCH + filled("call M off\n", n))
bench("cycles", lambda n: BENCH + filled("cycle 1\n", n))
bench("comments", lambda n: filled("#\n", n))
bench("words", lambda n: BENCH + "call" + filled(" M", n) + "\n")
bench("blocks", lambda n: BENCH.replace("go\n", "") + counted("block v%07d main Power X\n", n))
bench("faults", lambda n: BENCH.replace("go\n", "") + "drive X 0 " + filled("1,", n) + "\n")
bench("points", lambda n: BENCH.replace("go\n", "") + "table" + counted(" %d:0", n) + "\n")
bench("positions", lambda n: BENCH + "call M on pos=" + filled("1;", n) + "\n")
bench("one word", lambda n: filled("a", n))
shape("program blocks", f"run {TASKS}.toml {TEXT}",
      lambda n: "motion-program 1\ntask t\n" + counted("block v%07d Power X\n", n))
shape("program repeats", f"run {TASKS}.toml {TEXT}",
      lambda n: "motion-program 1\ntask t\n" + filled("repeat 2\nagain\n", n))
shape("program lines", f"run {TASKS}.toml {TEXT}", lambda n: PROGRAM + filled("again\n", n))
shape("program comments", f"run {TASKS}.toml {TEXT}", lambda n: filled("#\n", n) + "again\n")


# Traces, and segments of them.
TRACE = root_text("examples/first-move/first-move.trace")
MACHINE = TRACE[:TRACE.index("call,")]
SEGMENT = root_text(".ci/trace_segments/1.segment")
CALL = "call,M,1,20,6,2,2,0,aborting,,BA,0\n"


def trace(name, make):
    for command in ("check", "migrate"):
        shape(f"{command} {name}", f"{command} {TEXT}", make)
    shape(f"scope {name}", f"scope {TEXT} 1", make)


trace("calls", lambda n: MACHINE + filled(CALL, n))
trace("ends", lambda n: MACHINE + filled("end,main,,,,,,,,,,\n", n))
trace("cycles", lambda n: MACHINE + counted("cycle,%d,,,,,,,,,,\n", n))
trace("blocks", lambda n: MACHINE + counted("block,v%07d,main,Power,X,,,,,,,\n", n))
trace("axes", lambda n: MACHINE.split("axis")[0] + counted("axis,v%07d,0,50,10,4,1,0,1,,,\n", n))
trace("first line", lambda n: "kind" + filled(",", n) + "\n")
trace("commas", lambda n: MACHINE + filled(",", n) + "\n")
trace("quotes", lambda n: MACHINE + filled('"', n) + "\n")
shape("segment commas", f"check {TEXT}",
      lambda n: "segment,1,0,0,0\naxis" + filled(",", n) + "\n\n" + TRACE)
shape("segment first line", f"check {TEXT}", lambda n: "segment" + filled(",", n) + "\n\n" + TRACE)
shape("segment lines", f"check {TEXT}",
      lambda n: "segment,1,0,0,0\n" + filled("axis\n", n) + "\n" + TRACE)
shape("segment without a blank line", f"check {TEXT}", lambda n: "segment,\n" + filled("a\n", n))


# Switches of a trace.
def switches(name, make):
    shape(f"switches {name}", f"switches examples/first-move/first-move.trace {TEXT}", make)


switches("lines", lambda n: counted("switch s%07d X 0 1 1\n", n))
switches("words", lambda n: "switch" + filled(" a", n) + "\n")
