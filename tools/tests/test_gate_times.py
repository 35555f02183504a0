"""Which checks are measured, and the table that is written of them."""

import importlib.machinery
import importlib.util
import sys
import unittest

from tool_runner import TOOLS

sys.path.insert(0, str(TOOLS))
loader = importlib.machinery.SourceFileLoader("gate_times", str(TOOLS / "gate_times"))
gate_times = importlib.util.module_from_spec(importlib.util.spec_from_loader("gate_times", loader))
loader.exec_module(gate_times)

import crates  # noqa: E402  (it stands in tools/)

LINES = """\
top tests_may=Wait: middle low kit_library   # a comment
middle: low
low:
"""


class CratesTest(unittest.TestCase):
    def test_finds_the_crates_below_each(self):
        self.assertEqual(crates.crates_of(LINES),
                         {"top": ["middle", "low"], "middle": ["low"], "low": []})

    def test_puts_the_lowest_first(self):
        found = crates.crates_of(LINES)
        self.assertEqual(crates.lowest_first(found, ["top"]), ["low", "middle", "top"])
        self.assertEqual(crates.lowest_first(found, ["middle"]), ["low", "middle"])


class CheckTest(unittest.TestCase):
    def test_knows_proofs_tests_and_edits(self):
        words = ["/kit/bin/rattle", "build", "--crate-name", "low"]
        self.assertEqual(gate_times.check_of(words, "/copy/crates/low", "/copy"), ("low", "Proofs"))
        self.assertEqual(gate_times.check_of([*words, "--test"], "/copy/crates/low", "/copy"),
                         ("low", "Tests"))
        self.assertEqual(gate_times.check_of(words, "/tmp/edit/low", "/copy"),
                         ("low", "Must-fail edits"))

    def test_measures_no_other_program(self):
        self.assertIsNone(gate_times.check_of(["/kit/bin/rattle-link"], "/copy", "/copy"))
        self.assertIsNone(gate_times.check_of([], "/copy", "/copy"))


class TreeTest(unittest.TestCase):
    def test_finds_what_a_process_started(self):
        table = {5: (4, 0.0), 4: (3, 0.0), 7: (1, 0.0)}
        self.assertTrue(gate_times.is_below(5, 3, table))
        self.assertFalse(gate_times.is_below(7, 3, table))


class TableTest(unittest.TestCase):
    def test_has_the_dearest_crate_first_and_the_sum_last(self):
        table = gate_times.table_of({"low": (0.5, 0.0, 1.0), "top": (2.0, 1.0, 0.25)})
        self.assertEqual(table, """\
| Crate | Proofs | Tests | Must-fail edits | Together |
|---|---|---|---|---|
| `top` | 2.0 | 1.0 | 0.2 | 3.2 |
| `low` | 0.5 | 0.0 | 1.0 | 1.5 |
| all | 2.5 | 1.0 | 1.2 | 4.8 |
""")


if __name__ == "__main__":
    unittest.main()
