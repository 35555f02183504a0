"""Tests of the page of laws: each of its links leads somewhere, and the table of what there is to read is the documents'."""

import collections
import pathlib
import re
import subprocess
import tempfile
import unittest

ROOT = pathlib.Path(__file__).resolve().parents[2]
TOOL = ROOT / "tools" / "law_page"


@unittest.skipUnless((ROOT / "crates").exists(), "no crates are here")
class LawPage(unittest.TestCase):

    @classmethod
    def setUpClass(cls):
        cls.folder = tempfile.TemporaryDirectory()
        cls.addClassCleanup(cls.folder.cleanup)
        cls.path = pathlib.Path(cls.folder.name, "laws.html")
        subprocess.run([TOOL, cls.path], check=True)
        cls.text = cls.path.read_text(encoding="utf-8")
        cls.anchors = collections.Counter(re.findall(r' id="([^"]*)"', cls.text))

    def test_each_anchor_stands_once(self):
        self.assertEqual([name for name, count in self.anchors.items() if count > 1], [])

    def test_each_link_within_the_page_leads_to_an_anchor(self):
        links = set(re.findall(r'href="#([^"]*)"', self.text))
        self.assertGreater(len(links), 1000)
        self.assertEqual(links - set(self.anchors), set())

    def test_each_link_to_a_file_leads_to_one(self):
        links = set(re.findall(r'href="([^#"][^"]*)"', self.text))
        self.assertGreater(len(links), 500)
        self.assertEqual([link for link in links if not (self.path.parent / link).exists()], [])

    def test_the_law_of_arrivals_leads_to_its_words_and_its_proof(self):
        law = self.text.split('<h3 id="motion_laws.moves_arrive_in_time">')[1].split("<h3")[0]
        for name in ("motion_laws.arrivals.Moves.MovesArrive", "axis_core.Arrivals.bound_of",
                     "trapezoid_plan.CyclesBound.", "command_changes.axis_fates_are_told"):
            self.assertIn(f'href="#{name}', law)
        self.assertIn("crates/motion_laws/proofs/arrivals/Moves.antt", law)

    def test_what_a_law_uses_stands_above_what_uses_it(self):
        law = self.text.split('<h3 id="motion_laws.moves_arrive_in_time">')[1].split("<h3")[0]
        order = re.findall(r'href="#([^"]*)"', law.split("in reading order")[1])
        self.assertLess(order.index("axis_core.Arrivals.bound_of"),
                        order.index("motion_laws.arrivals.Moves.KeepsMotion"))

    def test_the_table_of_what_there_is_to_read_is_the_documents(self):
        table = subprocess.run([TOOL, "--reading"], check=True, capture_output=True, text=True).stdout
        page = (ROOT / "docs" / "reading-a-contract.md").read_text(encoding="utf-8")
        self.assertIn(table, page, "tools/law_page --reading prints the table of docs/reading-a-contract.md")


if __name__ == "__main__":
    unittest.main()
