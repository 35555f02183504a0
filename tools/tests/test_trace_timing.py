"""Tests of tools/trace_timing: its pictures stand in docs/blocks.md, one for each kind of block."""

import sys
import unittest
from pathlib import Path

TOOLS = Path(__file__).resolve().parent.parent
DOCS = TOOLS.parent / "docs"
sys.path.insert(0, str(TOOLS / "tests"))

from tool_runner import run  # noqa: E402

from motion_tools.trace import BLOCK_KINDS, LATER_KINDS  # noqa: E402


class Pictures(unittest.TestCase):
    """The pictures of blocks."""

    def test_each_block_has_its_picture(self):
        blocks, kinds = (DOCS / "blocks.md").read_text(), set()
        for trace in sorted((DOCS / "timing").glob("*.trace")):
            kinds.add(next(line.split(",")[3] for line in trace.read_text().splitlines()
                           if line.startswith("block,BLOCK,")))
            _, picture, _ = run("trace_timing", trace, "BLOCK")
            self.assertIn("".join("    " + line for line in picture.splitlines(True)), blocks,
                          trace.name)
        self.assertEqual(kinds, {*BLOCK_KINDS, *LATER_KINDS})

    def test_a_cut_trace_gives_what_there_is(self):
        lines = (DOCS / "timing" / "halt.trace").read_text().splitlines(True)
        last = max(place for place, line in enumerate(lines) if line.startswith("call,BLOCK,"))
        whole = run("trace_timing", "-", "BLOCK", text="".join(lines))[1]
        status, picture, _ = run("trace_timing", "-", "BLOCK", text="".join(lines[:last]))
        self.assertEqual(status, 3)
        self.assertEqual(picture.splitlines()[0], whole.splitlines()[0][:-1])

    def test_a_range_of_cycles_or_times(self):
        trace = DOCS / "timing" / "halt.trace"
        whole = run("trace_timing", trace, "BLOCK")[1].splitlines()[0]
        status, part, _ = run("trace_timing", trace, "BLOCK", "--from", "3", "--to", "8")
        self.assertEqual(status, 0)
        self.assertIn("Calls ", part)
        self.assertLess(len(part.splitlines()[0]), len(whole))
        times = run("trace_timing", trace, "BLOCK", "--from", "3ms", "--to", "8ms", "--cycle-us",
                    "1000")[1]
        self.assertEqual(times.splitlines()[:-1], part.splitlines()[:-1])
        self.assertIn(" ms", times.splitlines()[-1])
        for words in (("--from", "3ms"), ("--from", "0"), ("--from", "9", "--to", "3"),
                      ("--from", "1.5")):
            self.assertEqual(run("trace_timing", trace, *words)[0], 2, words)

    def test_several_blocks(self):
        _, picture, _ = run("trace_timing", TOOLS.parent / "examples" / "cell" / "cell.trace", "GEAR",
                            "LINE")
        self.assertIn("GEAR (GearIn)\nExecute", picture)
        self.assertIn("\n\nLINE (MoveLinearAbsolute)\nExecute", picture)

    def test_no_such_block(self):
        told = run("trace_timing", DOCS / "timing" / "halt.trace", "NONE")[2]
        self.assertRegex(told, "the trace has no block NONE, but .*BLOCK")

    def test_statuses(self):
        trace = DOCS / "timing" / "halt.trace"
        self.assertEqual(run("trace_timing", trace, "NONE")[0], 2)
        self.assertEqual(run("trace_timing", "no_such_file")[0], 4)
        self.assertEqual(run("trace_timing", DOCS / "blocks.md")[0], 3)


if __name__ == "__main__":
    unittest.main()
