"""Small traces of one axis, and the tool trace_plot on them and on others."""

import io
import subprocess
import sys

from tool_runner import EXAMPLES, TOOLS  # noqa: F401

from motion_tools.plot import reader

HEAD = ["kind,a,b,c,d,e,f,g,h,i,j,k", "trace,2,bench,1000,2000,,,,,,,",
        "axis,X,-50,500,10,4,8,2,0,1,,", "task,main,,,,,,,,,,",
        "block,M,main,MoveAbsolute,X,,,,,,,"]
END = ["end,main,,,,,,,,,,", "drive,X,1,OperationEnabled,0,,,,,,,"]


def row(cycle, setpoint, driven=1, state="DiscreteMotion", error=0, place=0):
    """A cycle of one axis X."""
    return [f"cycle,{cycle},,,,,,,,,,",
            f"row,X,0037,0,8,{state},{error},{driven},{setpoint},000f,0,{place}"]


def call(outputs, execute=1, error=0, block="M"):
    """A call of a block."""
    return [f"call,{block},{execute},20,6,2,2,0,aborting,,{outputs},{error}"]


def read(*parts, head=None, **options):
    """The trace of records."""
    lines = [*(head or HEAD), *(line for part in parts for line in part), *END]
    return reader.read_trace(io.StringIO("\n".join(lines) + "\n"), **options)


def plot(*arguments, text=None):
    """The tool's exit status, output and complaint."""
    ran = subprocess.run([sys.executable, "-B", TOOLS / "trace_plot", *arguments], input=text,
                         capture_output=True, check=False)
    return ran.returncode, ran.stdout, ran.stderr.decode()
