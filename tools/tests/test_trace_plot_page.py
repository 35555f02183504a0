"""Tests of the page of tools/trace_plot, driven in a headless Chromium where there is one."""

import re
import tempfile
import unittest

from page_driver import BROWSER, drive, page_of
from tool_runner import CELL, EXAMPLES, HOMED

GLUE = EXAMPLES / "glue-gun" / "glue-gun.trace"


@unittest.skipUnless(BROWSER, "there is no Chromium to drive the page in")
class Page(unittest.TestCase):
    """What the page does with a pointer, keys, fingers and a printer."""

    @classmethod
    def setUpClass(cls):
        cls.page = page_of(CELL)

    def test_cursor_after_a_zoom(self):
        before, after = drive(self.page, """
            const feeder = sections[4], told = [];
            pointer("pointermove", feeder, 8.2);
            const left = () => parseFloat(feeder.cursor.style.left).toFixed(1);
            told.push([feeder.read.textContent, cursorAt(), left(), feeder.x(8).toFixed(1)]);
            zoom(0.25, 9);
            await drawn();
            told.push([feeder.read.textContent, cursorAt(), left(), feeder.x(9).toFixed(1)]);
            return told;""")
        self.assertIn("cycle 8  ·  SynchronizedMotion  ·  position 18 units", before[0])
        self.assertEqual(before[1:3], [8, before[3]])
        self.assertEqual(after[1:3], [9, after[3]])
        self.assertIn("cycle 9  ·  SynchronizedMotion  ·  position 20 units", after[0])

    def test_dots_stand_on_the_lines(self):
        told = drive(self.page, """
            const feeder = sections[4];
            const dots = () => feeder.dots.filter(({dot}) => dot.style.display === "block")
              .map(({name, dot}) => [name, ...[dot.style.left, dot.style.top]
                .map(place => parseFloat(place).toFixed(1))]);
            const wanted = (name, x, value) => [name, feeder.x(x).toFixed(1),
              (feeder.canvas.offsetTop + feeder.toY[name === "reported" ? "position" : name](value))
                .toFixed(1)];
            pointer("pointermove", feeder, 8);
            return [dots(), [wanted("position", 8, 18), wanted("velocity", 8, 3),
              wanted("acceleration", 8, 0), wanted("reported", 7, 12)],
              (pointer("pointermove", feeder, 12), dots().map(([name]) => name))];""")
        self.assertEqual(told[0], told[1])
        self.assertEqual(told[2], ["position", "reported"])

    def test_pinned_cursor(self):
        told = drive(self.page, """
            const belt = sections[3], told = [];
            const click = at => ["pointermove", "pointerdown", "pointerup"]
              .forEach(kind => pointer(kind, belt, at));
            click(4);
            pointer("pointermove", belt, 10);
            told.push(pinned, belt.pin.style.display, belt.read.textContent);
            click(4);
            told.push(pinned);
            key("p");
            told.push(pinned);
            key("Escape");
            return [...told, pinned];""")
        self.assertEqual(told[:2] + told[3:], [4, "block", None, 4, None])
        self.assertIn("cycle 10 (Δ 6)", told[2])
        self.assertIn("position 46 (Δ 28) units", told[2])
        self.assertIn("velocity 3 (Δ -3) units/cycle", told[2])

    def test_axes_to_choose(self):
        told = drive(self.page, """
            const boxes = [...document.querySelectorAll("#choice input")];
            boxes[1].click();
            await drawn();
            return [boxes.length, ...sections.map(section => section.element.offsetHeight > 0)];""")
        self.assertEqual(told, [5, True, False, True, True, True])

    def test_jumps(self):
        told = drive(self.page, """
            const places = [];
            for (const name of ["e", "e", "E", "c", "C"]) { key(name); places.push(cursorAt()); }
            goTo(3);
            show(0, 5);
            key("e");
            await drawn();
            return [places, from <= cursorAt() && cursorAt() <= to,
              document.getElementById("told").textContent];""")
        self.assertEqual(told[0], [11, 11, 11, 13, 11])
        self.assertTrue(told[1])
        self.assertIn("after cycle 11: GEAR (GearIn) goes on: Error 101; RESET (Reset) called",
                      told[2])

    def test_plane(self):
        told = drive(self.page, """
            const hidden = [document.getElementById("plane").hidden];
            planeX.value = 0; planeY.value = 1;
            planeX.onchange();
            await drawn();
            const [box, views] = [plane.box, plane.views];
            return [...hidden, plane.figure.hidden, plane.head.textContent, views,
              plane.x(views[0][0]) === box[0], plane.y(views[1][0]) === box[1] + box[3],
              box[2] === box[3]];""")
        self.assertEqual(told[:3], [True, False, "Axis Y over X"])
        self.assertEqual([round(high - low, 6) for low, high in told[3]], [33, 33])
        self.assertEqual(told[4:], [True, True, True])

    def test_outputs(self):
        told = drive(self.page, """
            const heights = () => sections[4].lanes.map(lanes => lanes.canvas.offsetHeight);
            const before = heights();
            document.getElementById("outputs").click();
            await drawn();
            return [before, heights(),
              sections[4].lanes.map(lanes => lanes.signals.map(([name]) => name))];""")
        self.assertEqual(told[0], [0, 0])
        self.assertTrue(min(told[1]) > 50)
        self.assertEqual(told[2], [["Execute", "Busy", "Active", "Error", "InGear"],
                                   ["Execute", "Busy", "Done"]])

    def test_fingers(self):
        told = drive(self.page, """
            const belt = sections[3], told = [];
            const finger = (kind, id, at) =>
              pointer(kind, belt, at, {pointerId: id, pointerType: "touch"});
            finger("pointerdown", 1, 6); finger("pointerup", 1, 6);
            told.push(cursorAt());
            const across = at => ({pointerType: "touch", clientX: at});
            const edge = belt.plot.getBoundingClientRect().left;
            const [wide, wider] = [[6, 10], [4, 12]].map(all => all.map(at => edge + belt.x(at)));
            wide.forEach((x, place) => pointer("pointerdown", belt, 0,
              {...across(x), pointerId: place + 1}));
            wider.forEach((x, place) => pointer("pointermove", belt, 0,
              {...across(x), pointerId: place + 1}));
            await drawn();
            told.push([from, to]);
            finger("pointerup", 1, 6); finger("pointerup", 2, 10);
            finger("pointerdown", 3, 8); finger("pointermove", 3, 9);
            await drawn();
            return [...told, [from, to], pinned];""")
        self.assertEqual(told[0], 6)
        low, high = told[1]
        self.assertAlmostEqual(high - low, 8.5)
        self.assertAlmostEqual((low + high) / 2, 8.25, 3)
        self.assertAlmostEqual(told[2][0], low - 1, 2)
        self.assertIsNone(told[3])

    def test_narrow_screen(self):
        told = drive(self.page, """
            layOut(380);
            return [left + right, narrow];""", 380)
        self.assertEqual(told, [76, True])

    def test_print(self):
        told = drive(self.page, """
            dispatchEvent(new Event("beforeprint"));
            const main = document.querySelector("main").clientWidth;
            const canvas = sections[1].canvas.clientWidth;
            const style = getComputedStyle(document.documentElement);
            const page = style.getPropertyValue("--page").trim();
            dispatchEvent(new Event("afterprint"));
            return [main, canvas, page, document.querySelector("main").clientWidth > 860];""")
        self.assertEqual(told, [860, 860, "#ffffff", True])

    def test_no_velocity_where_it_is_not_driven(self):
        page = page_of(EXAMPLES / "power-fault-reset" / "power-fault-reset.trace")
        told = drive(page, "goTo(2); return sections[0].read.textContent;")
        self.assertIn("no velocity", told)

    def test_long_trace(self):
        told = drive(self.page_of_length(20_000), """
            goTo(12_345);
            const text = sections[0].read.textContent;
            for (let count = 0; count < 20; count++) zoom(0.5);
            await drawn();
            return [text, to - from,
              sections[0].dots.some(({dot}) => dot.style.display === "block")];""")
        self.assertIn("cycles 12345 to 12348", told[0])
        self.assertEqual(told[1:], [32, False])

    def page_of_length(self, cycles):
        """The page of a trace of one axis with so many cycles."""
        rows = "".join(f"cycle,{number},,,,,,,,,,\nrow,A,0037,0,8,DiscreteMotion,0,1,{number % 40},"
                       f"000f,0,0\n" for number in range(1, cycles + 1))
        head, rest = HOMED.split("call,M,1,", 1)
        with tempfile.NamedTemporaryFile("w", suffix=".trace") as file:
            file.write(head + rows + "end" + rest.split("\nend")[1])
            file.flush()
            return page_of(file.name)

    def test_texts_for_readers_of_screens(self):
        told = drive(self.page, """
            return [...document.querySelectorAll("section .spoken")]
              .map(text => text.textContent);""")
        self.assertEqual(len(told), 5)
        self.assertIn("ErrorStop error 101 in cycles 11 to 12", told[4])


@unittest.skipUnless(BROWSER, "there is no Chromium to drive the page in")
class More(unittest.TestCase):
    """The event table, the values between the cursors, pairs of axes, overlays, switches, words."""

    def test_events(self):
        told = drive(page_of(GLUE, "--edges", GLUE.with_suffix(".edges")), """
            const rows = () => [...document.querySelectorAll("#events tbody tr")];
            const texts = () => rows().map(row => [...row.children].map(cell => cell.textContent));
            const all = texts().length, kinds = [...eventKind.options].map(option => option.value);
            eventKind.value = "Edge"; eventKind.onchange();
            eventText.value = "lamp"; eventText.oninput();
            const found = texts();
            rows()[1].click();
            await drawn();
            return [all, kinds, found, cursorAt(), rows().map(row => row.className),
              document.getElementById("eventCount").textContent];""")
        self.assertEqual(told[0], 16)
        self.assertEqual(told[1], ["", "Call", "Edge", "Done"])
        self.assertEqual(told[2][:2], [["15", "", "LAMP", "Edge", "LAMP goes on"],
                                       ["20", "", "LAMP", "Edge", "LAMP goes off"]])
        self.assertEqual(told[3:], [20, ["", "now", "", ""], "4 of 16"])

    def test_switches(self):
        told = drive(page_of(GLUE, "--edges", GLUE.with_suffix(".edges")), """
            const lanes = sections[1].lanes;
            return [sections[1].title, lanes.map(each => each.signals[0][0]),
              lanes.every(each => each.canvas.offsetHeight > 10), lanes[0].runs];""")
        self.assertEqual(told[:3], ["Switches", ["GUN", "LAMP", "CAMERA"], True])
        edges = [line.split() for line in GLUE.with_suffix(".edges").read_text().splitlines()]
        first = next(int(cycle) for name, cycle, _ in edges if name == "GUN")
        self.assertEqual(told[3][1][0], first - 1)

    def test_least_greatest_and_mean(self):
        told = drive(page_of(CELL), """
            const belt = sections[3];
            pin(4);
            pointer("pointermove", belt, 10);
            const text = belt.stats.textContent;
            pin(null);
            return [text, belt.stats.textContent];""")
        self.assertIn("position least 18, greatest 46, mean 33", told[0])
        self.assertIn("velocity least 3, greatest 6, mean 4.857143 units/cycle", told[0])
        self.assertEqual(told[1], "")

    def test_following_error(self):
        told = drive(page_of(CELL), """
            const names = () => sections[4].panels.map(panel => panel.name);
            const before = names(), height = sections[4].canvas.offsetHeight;
            document.getElementById("following").click();
            await drawn();
            pointer("pointermove", sections[4], 6);
            return [before, names(), sections[4].canvas.offsetHeight - height,
              sections[4].lines.following[0].slice(0, 10), sections[4].read.textContent];""")
        self.assertEqual(told[0], ["position", "velocity", "acceleration"])
        self.assertEqual(told[1], [*told[0], "following"])
        self.assertGreater(told[2], 50)
        self.assertEqual(max(value for value in told[3] if value is not None), 3)
        self.assertIn("following ", told[4])

    def test_two_axes_in_one_panel(self):
        told = drive(page_of(CELL, "--together", "BELT,FEEDER"), """
            const shown = [together.figure.hidden, together.head.textContent];
            pairA.value = "";
            pairA.onchange();
            await drawn();
            return [...shown, together.figure.hidden];""")
        self.assertEqual(told, [False, "BELT and FEEDER", True])

    def test_overlay(self):
        told = drive(page_of(CELL, "--overlay", GLUE), """
            const belt = sections[3];
            return [belt.other.lines.position[0].length, sections[1].other,
              belt.shownRange(belt.panels[0], false, 0, 17), document.getElementById("legend").textContent];""")
        self.assertEqual(told[:2], [50, None])
        self.assertGreater(told[2][1], 200)
        self.assertIn("glue-gun", told[3])

    def test_bits_of_words(self):
        told = drive(page_of(CELL, "--bits"), """
            const lanes = sections[4].lanes.filter(each => each.shown === "bits");
            return lanes.map(each => [each.name, each.canvas.offsetHeight > 20,
              each.signals.map(([name]) => name)]);""")
        self.assertEqual([name for name, *_ in told], ["statusword", "controlword"])
        self.assertTrue(told[0][1] and told[1][1])
        self.assertIn("fault", told[0][2])
        self.assertIn("fault reset", told[1][2])


class Text(unittest.TestCase):
    """What can be told of the page without a browser."""

    def test_it_loads_nothing(self):
        page = page_of(CELL)
        self.assertNotRegex(page, r"https?://|src=|href=")
        self.assertNotRegex(page, r"/\*[A-Z]+\*/|<!--TITLE-->")
        self.assertEqual(page.count("<script>"), 1)

    def test_words(self):
        page = page_of(CELL)
        told = re.findall(r'"text":"([^"]*)"', page)
        self.assertEqual(told[4], (
            "Cycles 1 to 17. Setpoint from 0 to 21 units, at most 3 units/cycle. States: "
            "SynchronizedMotion in cycles 1 to 10; ErrorStop error 101 in cycles 11 to 12; "
            "Disabled in cycles 13 to 15; Standstill in cycles 16 to 17. Calls: after cycle 0 "
            "GEAR (GearIn) called; after cycle 11 GEAR (GearIn) goes on: Error 101; after cycle "
            "11 RESET (Reset) called; after cycle 13 RESET (Reset) goes on: Done."))


if __name__ == "__main__":
    unittest.main()
