"""Runs the tools as a user does, and has small traces on which they are tried."""

import contextlib
import io
import pathlib
import subprocess
import sys

TOOLS = pathlib.Path(__file__).resolve().parent.parent
EXAMPLES = TOOLS.parent / "examples"
CELL = EXAMPLES / "cell" / "cell.trace"
FIRST_MOVE = EXAMPLES / "first-move" / "first-move.trace"

sys.path.insert(0, str(TOOLS))

# A trace of version 2: increments of 2, a move that begins at 6, and a Home that moves the
# coordinate by -4 while the axis stands.
HOMED = """\
kind,a,b,c,d,e,f,g,h,i,j,k
trace,2,bench,100,1000,,,,,,,
axis,A,-50,50,10,4,8,2,6,1,,
task,main,,,,,,,,,,
block,H,main,Home,A,,,,,,,
block,M,main,MoveAbsolute,A,,,,,,,
call,M,1,10,6,2,2,0,aborting,,BA,0
cycle,1,,,,,,,,,,
row,A,0037,3,8,DiscreteMotion,0,1,8,000f,4,6
cycle,2,,,,,,,,,,
row,A,0037,4,8,DiscreteMotion,0,1,10,000f,5,8
cycle,3,,,,,,,,,,
row,A,0037,5,8,Standstill,0,1,10,000f,5,10
call,M,0,0,0,0,0,0,aborting,,D,0
call,H,1,6,,,,,,,BA,0
cycle,4,,,,,,,,,,
row,A,0037,5,8,Standstill,0,1,6,000f,5,6
cycle,5,,,,,,,,,,
row,A,0037,5,8,Standstill,0,1,6,000f,5,6
call,H,0,0,,,,,,,D,0
end,main,,,,,,,,,,
drive,A,5,OperationEnabled,5,,,,,,,
"""


def run(tool, *words, text="", cwd=None):
    """The status, output and faults of a tool that is called with these words."""
    done = subprocess.run([sys.executable, str(TOOLS / tool), *map(str, words)], input=text,
                          capture_output=True, encoding="utf-8", check=False, cwd=cwd)
    return done.returncode, done.stdout, done.stderr


def call(main, *words):
    """The same of a tool's `main`, in this process, where no standard input is read."""
    output, faults = io.StringIO(), io.StringIO()
    before, sys.argv = sys.argv, [main.__module__, *map(str, words)]
    try:
        with contextlib.redirect_stdout(output), contextlib.redirect_stderr(faults):
            status = main()
    except SystemExit as ended:
        status = ended.code
    finally:
        sys.argv = before
    return status, output.getvalue(), faults.getvalue()


def changed(old, new):
    """The trace above with one part of its text changed."""
    assert HOMED.count(old) == 1, old
    return HOMED.replace(old, new)
