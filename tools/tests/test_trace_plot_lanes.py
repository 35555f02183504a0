"""Tests of tools/trace_plot: where lines break, and the lanes of outputs and of cam switches."""

import re
import tempfile
import unittest
from xml.etree import ElementTree

from plot_runner import END, EXAMPLES, HEAD, call, plot, read, row

from motion_tools.plot import edges as edges_of
from motion_tools.plot import levels as levels_of


class Breaks(unittest.TestCase):
    """No slope is drawn at a Home and where an axis isn't driven."""

    def paths(self, lines, name, *options):
        """The lines of a name in a picture, each as its moves and steps."""
        _, picture, _ = plot("-", *options, text="\n".join(lines).encode())
        return re.findall(rf'<path d="([^"]*)" class="{name}"', picture.decode())[1:]

    def test_home(self):
        head = HEAD + ["block,H,main,Home,X,,,,,,,"]
        lines = head + row(1, 4, place=4) + ["call,H,1,30,,,,,,,BA,0"] + row(2, 30, place=30) + END
        position, = self.paths(lines, "position")
        self.assertRegex(position, r"^M[\d. ]+L[\d. ]+M[\d. ]+H[\d. ]+$")
        reported, = self.paths(lines, "reported")
        self.assertEqual((reported.count("M"), reported.count("L")), (2, 0))
        velocity, = self.paths(lines, "velocity")
        self.assertEqual(velocity.count("H"), 1)

    def test_not_driven(self):
        lines = HEAD + row(1, 4) + row(2, 8) + row(3, 5, driven=0) + row(4, 5) + row(5, 6) + END
        position, = self.paths(lines, "position")
        self.assertRegex(position, r"^M[\d. ]+L[\d. ]+L[\d. ]+M[\d. ]+L[\d. ]+$")
        loose, = self.paths(lines, "loose")
        self.assertRegex(loose, r"^M[\d. ]+H[\d. ]+M[\d. ]+H[\d. ]+$")

    def test_thinned(self):
        lines = HEAD + [line for cycle in range(1, 4001)
                        for line in row(cycle, 0 if cycle < 2000 else 400,
                                        driven=int(cycle not in (2000, 2001)))] + END
        position, = self.paths(lines, "position")
        rises = [part for part in re.split("M", position)[1:] if len(set(
            re.findall(r"(?:^|L)[\d.]+ ([\d.]+)", part))) > 1]
        self.assertEqual(rises, [])
        velocity, = self.paths(lines, "velocity")
        self.assertEqual(len(set(re.findall(r"[ML][\d.]+ ([\d.]+)", velocity))), 1)

    def test_words_stand_apart(self):
        _, picture, _ = plot(EXAMPLES / "portal" / "portal.trace", "--cycle-us", "1000",
                             "--scale", "0.001mm")
        root, right = ElementTree.fromstring(picture), []
        for text in root.iter("{http://www.w3.org/2000/svg}text"):
            if text.get("x") == "956":
                right.append(float(text.get("y")))
        self.assertGreater(min(after - before for before, after in zip(right, right[1:])), 11)


class Outputs(unittest.TestCase):
    """Execute and the outputs of blocks over time."""

    def runs(self, *parts, **options):
        """The runs of the block M, with Execute as 1, Busy 2, Active 4, Done 8."""
        trace = read(*parts, **options)
        return levels_of.runs(trace.blocks["M"].levels, trace.cycles), trace.blocks["M"].levels

    def test_levels(self):
        runs, levels = self.runs(row(1, 0), call("BA"), row(2, 2), row(3, 4), call("D"), row(4, 4),
                                 call("", execute=0))
        self.assertEqual(runs, [[0, 1, 0, 0], [1, 3, 7, 0], [3, 4, 9, 0]])
        self.assertEqual((levels.before, levels.value), (0, 0))

    def test_between_two_cycles(self):
        runs, _ = self.runs(call("BA"), row(1, 2), call("D"), call("", execute=0), call("BA"),
                            row(2, 2))
        self.assertEqual(runs, [[0, 1, 7, 0], [1, 2, 7, 15]])

    def test_window(self):
        parts = (call("BA"), row(1, 2), row(2, 4), call("D"), row(3, 4), call("", execute=0),
                 row(4, 4))
        runs, levels = self.runs(*parts, first=2, last=3)
        self.assertEqual(runs, [[0, 1, 7, 0], [1, 2, 9, 0]])
        self.assertEqual((levels.before, levels.value), (7, 0))
        runs, levels = self.runs(*parts, first=3, last=3)
        self.assertEqual((runs, levels.before, levels.value), ([[0, 1, 9, 0]], 7, 0))

    def test_thinned(self):
        parts = [part for cycle in range(1, 1001)
                 for part in (call("BA", execute=int(cycle != 500)), row(cycle, 2))]
        runs, levels = self.runs(*parts, limit=100)
        self.assertLessEqual(len(levels.columns), 100)
        self.assertEqual(runs, [[0, 496, 7, 0], [496, 1000, 7, 1]])

    def test_reached(self):
        trace = read(call("BAR"), row(1, 2), head=[line.replace("MoveAbsolute", "MoveVelocity")
                                                   for line in HEAD])
        self.assertEqual(levels_of.signals(trace.blocks["M"])[-1], "InVelocity")
        self.assertEqual(levels_of.seen(trace.blocks["M"].levels, 7), [0, 1, 2, 6])

    def test_lanes(self):
        for called, *options in ((6,), (6, "--dark", "--from", "3", "--to", "12"),
                                 (5, "--to", "5")):
            _, picture, _ = plot(EXAMPLES / "cell" / "cell.trace", "--outputs", *options)
            words = [text.text for text in ElementTree.fromstring(picture).iter(
                "{http://www.w3.org/2000/svg}text")]
            self.assertEqual(words.count("Execute"), called, options)
            self.assertIn("GearIn", words)

    def test_lane_of_a_move(self):
        _, picture, _ = plot("-", "--outputs", text="\n".join(
            HEAD + row(1, 0) + call("BA") + row(2, 2) + call("D") + END).encode())
        lanes = re.findall(r'<path d="(M[^"]*)" style="stroke:[^"]*;stroke-width:1.4"',
                           picture.decode())
        self.assertEqual([re.sub(r"[\d. ]", "", lane) for lane in lanes],
                         ["MHHVHH", "MHHVHHVH", "MHHVHHVH", "MHHVH"])


class Edges(unittest.TestCase):
    """The lanes of digital cam switches."""

    GUN = EXAMPLES / "glue-gun" / "glue-gun"

    def drawn(self, lines, *options):
        """The tool's answer with these edges."""
        with tempfile.NamedTemporaryFile("w", suffix=".edges") as file:
            file.write("".join(f"{line}\n" for line in lines))
            file.flush()
            return plot(self.GUN.with_suffix(".trace"), "--edges", file.name, *options)

    def test_stored(self):
        trace, edges = self.GUN.with_suffix(".trace"), self.GUN.with_suffix(".edges")
        self.assertEqual(plot(trace, "--edges", edges)[1],
                         (self.GUN.parent / "edges.svg").read_bytes())

    def test_spans(self):
        turns = edges_of.read_edges(["A 2 on\n", "B 2 on\r\n", "A 6 off\n", "A 7 on"])
        self.assertEqual(turns, {"A": [2, 6, 7], "B": [2]})
        self.assertEqual(edges_of.spans(turns["A"], 1, 9), [(2, 5), (7, 9)])
        self.assertEqual(edges_of.spans(turns["A"], 4, 6), [(4, 5)])
        self.assertEqual(edges_of.spans(turns["B"], 1, 1), [])

    def test_lanes(self):
        status, text, _ = self.drawn(["A 2 on", "B 3 on", "A 6 off"], "--dark", "--from", "3")
        told = "".join(ElementTree.fromstring(text).itertext())
        self.assertEqual(status, 0)
        self.assertIn("A on, cycles 3 to 5", told)
        self.assertIn("B on, cycles 3 to 50", told)

    def test_no_edge(self):
        status, text, _ = self.drawn([])
        self.assertEqual(status, 0)
        self.assertIn(b"Switches", text)

    def test_refused(self):
        for lines, line in ((["A 2 off"], 1), (["A 2 on", "A 3 on"], 2), (["A 3 on", "B 2 on"], 2),
                            (["A 0 on"], 1), (["A 2 on", "A 2 off"], 2), (["A on"], 1),
                            (["A 2 on", ""], 2), (["2A 2 on"], 1)):
            status, _, fault = self.drawn(lines)
            self.assertEqual(status, 3, lines)
            self.assertIn(f": line {line}: ", fault)

    def test_words(self):
        self.assertEqual(self.drawn(["A 2 on"], "--html")[0], 0)
        self.assertEqual(plot(self.GUN.with_suffix(".trace"), "--edges", "no_such_file")[0], 4)


if __name__ == "__main__":
    unittest.main()
