"""What tools/explain says of rejected files, of calls that are rejected, of runs that end early, of
codes and verdicts; and that its readers find what the program finds."""

import json
import pathlib
import re
import subprocess
import tempfile
import unittest

from tool_runner import EXAMPLES, TOOLS, call, run

from motion_tools.explain import hints, history, lines, scans, settings, st
from motion_tools.explain.command import main
from motion_tools.explain.faults import chosen, marked
from motion_tools.trace import BLOCK_KINDS, Trace, lines_of

ROOT = TOOLS.parent
REFUSED = ROOT / ".ci" / "refused"
BENCH = """\
motion-bench 1
limit 20 40
axis X 0 50 10 4 1 0 ready
task main
block M main MoveAbsolute X
go
call M on pos=500 vel=6 acc=2 dec=2
cycle 1
end main
"""
TRACE = """\
kind,a,b,c,d,e,f,g,h,i,j,k
trace,1,bench,20,40,,,,,,,
axis,X,0,50,10,4,1,0,1,,,
task,main,,,,,,,,,,
block,M,main,MoveAbsolute,X,,,,,,,
call,M,1,500,6,2,2,0,aborting,,E,10
cycle,1,,,,,,,,,,
row,X,0037,0,8,Standstill,0,1,0,000f,0,
end,main,,,,,,,,,,
drive,X,1,OperationEnabled,0,,,,,,,
"""


def explained(bench, text, *words):
    """What is said of what motion wrote for a bench."""
    with tempfile.TemporaryDirectory() as folder:
        file, made = pathlib.Path(folder) / "my.bench", pathlib.Path(folder) / "output"
        file.write_text(bench)
        made.write_text(text)
        status, output, faults = call(main, file, "--of", made, *words)
        assert (status, faults) == (0, ""), faults
        return output.replace(str(file), "my.bench")


class Refusals(unittest.TestCase):
    """Rejected files."""

    def test_a_refusal_has_its_line_and_its_cure(self):
        output = explained(BENCH.replace("50 10 4 1", "50 10 1 1"), "refused my.bench 3 B8\n")
        self.assertEqual(output.splitlines()[:4], [
            "my.bench:3:16: error B8: AMAX is 1, and has to be from 2 to 10,000,000,000",
            "    axis X 0 50 10 1 1 0 ready", "                   ^",
            "  rule: a number is outside its range"])
        self.assertIn("cure: AMAX is at least 2", output)

    def test_a_refusal_is_read_from_a_pipe(self):
        with tempfile.TemporaryDirectory() as folder:
            file = pathlib.Path(folder) / "my.bench"
            file.write_text(BENCH)
            self.assertIn("error B3", run("explain", file, text=f"refused {file} 9 B3\n")[1])

    def test_every_rule_is_explained(self):
        for rule in hints.texts()["rule"]:
            if rule[0] in "BPKS":
                self.assertIn("cure: ", explained(BENCH, f"refused my.bench 1 {rule}\n"), rule)
        for rule in [f"C{number}" for number in range(1, 8)]:
            self.assertIn("cure: ", explained("cycle_us = 1000\n", f"refused my.bench 1 {rule}\n"))

    def test_a_refused_configuration_has_its_position(self):
        output = explained("cycle_us = 1000\n", "refused my.bench 2 C3\n")
        self.assertTrue(output.startswith("my.bench: error C3: table 2, axes first"), output)

    def test_a_refused_trace_has_its_record(self):
        text = TRACE.replace("row,X,0037", "row,X,37")
        output = explained(text, "refused my.bench 8 T4\n")
        self.assertTrue(output.startswith(
            "my.bench:8: error T4: record 8: row: the statusword is '37', and not four"), output)
        self.assertIn("    row,X,37,0,8", output)

    def test_without_the_files(self):
        status, output, _ = run("explain", text="refused no_such_file 1 B1\n")
        self.assertEqual(status, 4)

    def test_json(self):
        data = json.loads(explained(BENCH, "refused my.bench 9 B3\n", "--json"))
        self.assertEqual(data["findings"][0]["line"], 9)
        self.assertEqual(data["findings"][0]["code"], "B3")
        data = json.loads(explained(BENCH, TRACE, "--json"))
        self.assertEqual(data["findings"][0]["cycle"], 0)
        self.assertIn("moves: none", data["report"])

    def test_a_long_line_is_cut_around_its_mark(self):
        first, second = marked("a" * 300 + "Q" + "b" * 300, 300, 1).splitlines()
        self.assertLess(len(first), 120)
        self.assertEqual(first[second.index("^")], "Q")


class Runs(unittest.TestCase):
    """Traces."""

    def test_a_rejected_call_has_its_reason_and_nothing_moved(self):
        output = explained(BENCH, TRACE)
        self.assertIn("error 10: after cycle 0: M (MoveAbsolute on X): 500 units is beyond the "
                      "limits of X, 0 to 50 units\n", output)
        self.assertIn("Every command was rejected: nothing moved.\n", output)
        self.assertIn("All calls, cycles and ends were made.\n", output)

    def test_every_error_id_is_explained(self):
        for number in [*range(1, 16), 19, *range(101, 107)]:
            output = explained(BENCH, TRACE.replace("E,10", f"E,{number}"))
            self.assertIn("cure: ", output)
            self.assertNotIn("no table has", output, number)

    def test_a_run_without_cycles_left_ends_at_its_line(self):
        output = explained(BENCH.replace("cycle 1", "cycle 21"), TRACE)
        self.assertIn("my.bench:8: error status 8: The run ended in this line: no cycle is left", output)

    def test_a_run_without_room_ends_at_its_line(self):
        limit = BENCH.replace("limit 20 40", "limit 20 2")
        output = explained(limit, TRACE.replace("20,40", "20,2"))
        self.assertIn("my.bench:9: error status 9: The run ended in this line: no room is left", output)

    def test_an_error_of_an_axis_has_its_cycle(self):
        _, output, _ = run("explain", EXAMPLES / "cell" / "cell.bench",
                           "--of", EXAMPLES / "cell" / "cell.trace")
        self.assertIn("in cycle 11: axis FEEDER: the drive is in Fault: the statusword is 001f",
                      output)

    def test_the_tasks_of_a_run_that_ended_early(self):
        ran = TRACE.replace("trace,1,bench", "trace,1,run")
        self.assertIn("All tasks came to their ends.\n", explained(BENCH, ran))
        output = explained(BENCH, ran.replace("end,main,,,,,,,,,,\n", ""))
        self.assertIn("Without an end: main. The run ended since no room", output)
        spent = ran.replace("end,main,,,,,,,,,,\n", "").replace("20,40", "1,40")
        self.assertIn("The run ended since all 1 cycles", explained(BENCH, spent))

    def test_a_report_in_the_units_of_a_configuration(self):
        folder = EXAMPLES / "structured-text"
        status, output, faults = run("explain", folder / "structured-text.toml",
                                     folder / "structured-text.st", "--of",
                                     folder / "structured-text.trace")
        self.assertEqual((status, faults), (0, ""))
        self.assertIn("cycles of 8 ms", output)
        self.assertIn("down (MoveAbsolute): Z 0 ", output)
        self.assertIn(" to 60 ", output)
        self.assertNotIn("error", output.replace("following error", ""))
        self.assertNotIn("warning", output)

    def test_a_trace_alone(self):
        status, output, _ = run("explain", EXAMPLES / "gear" / "gear.trace")
        self.assertEqual(status, 0)
        self.assertIn("moves:\n", output)

    def additive(self, name):
        """What is said of a bench with additive moves, and its history."""
        bench = ROOT / ".ci" / "benches" / f"additive_{name}.bench"
        trace = bench.with_suffix(".trace")
        status, output, faults = call(main, bench, "--of", trace)
        self.assertEqual((status, faults), (0, ""))
        return output, history.History(Trace(lines_of(str(trace)))).commands

    def test_an_additive_move_is_a_move(self):
        output, commands = self.additive("on_the_way")
        self.assertIn("  M (MoveAbsolute): X 0 units to 6 units; 2 cycles from 0 cycles;", output)
        self.assertIn("  D (MoveAdditive): X 6 units to 30 units; 6 cycles from 2 cycles;", output)
        self.assertNotIn("warning", output)
        self.assertEqual(commands[1].target, {"X": 30})

    def test_what_an_additive_move_counts_from(self):
        for name, targets in (("at_rest", [4, None, 14]), ("waiting", [4, 8, 0]),
                              ("blended", [20, 30, 40]), ("refused", [60, 10]),
                              ("after_a_velocity", [None, 42, 34, 46, None, 26, 36])):
            found = [command.target.get("X") for command in self.additive(name)[1]]
            self.assertEqual(found, targets, name)

    def test_a_small_additive_move_that_replaces_another_is_meant(self):
        trace = EXAMPLES / "print-mark" / "print-mark.trace"
        self.assertNotIn("warning", call(main, "--of", trace)[1])
        text = trace.read_text()
        with tempfile.TemporaryDirectory() as folder:
            file = pathlib.Path(folder) / "other.trace"
            file.write_text(text.replace("main,MoveAdditive,", "main,MoveRelative,"))
            output = call(main, "--of", file)[1]
        self.assertIn("warning tiny-move", output)
        self.assertIn("warning aborted-by-own-task", output)

    def test_a_rejected_additive_move_names_what_it_counts_from(self):
        self.assertIn("D (MoveAdditive on X): 50 units from 60 units leads beyond the limits of X, "
                      "0 to 100 units", self.additive("refused")[0])

    def test_no_example_has_an_error_that_no_table_has(self):
        for trace in EXAMPLES.glob("*/*.trace"):
            status, output, faults = call(main, "--of", trace)
            self.assertEqual((status, faults), (0, ""), trace)
            self.assertNotIn("no table has", output)

    def test_a_trace_that_was_cut_short_is_reported_as_far_as_it_goes(self):
        text = "".join((EXAMPLES / "cell" / "cell.trace").read_text().splitlines(True)[:40])
        status, output, _ = run("explain", text=text)
        self.assertEqual(status, 3)
        self.assertIn("ceases to be a trace: record 40", output)
        self.assertIn("moves:\n", output)
        self.assertNotIn("ends-in-motion", output)

    def test_what_is_no_trace_is_refused(self):
        self.assertEqual(run("explain", EXAMPLES / "cell" / "cell.bench", text="kind\n")[0], 3)


class Tasks(unittest.TestCase):
    """Where tasks stand in their text."""

    def test_scans_of_an_example(self):
        folder = EXAMPLES / "structured-text"
        found = scans.Scans((folder / "structured-text.st").read_text(), ["X", "Z"], {})
        history.History(Trace(lines_of(folder / "structured-text.trace")), found)
        task = found.tasks["handling"]
        self.assertFalse(task.is_lost)
        self.assertEqual(task.variables, {"state": 6, "parts": 3, "place": 400000, "finished": 1})
        self.assertEqual(found.line_of("down"), 29)

    def test_another_trace_has_no_lines(self):
        folder = EXAMPLES / "structured-text"
        text = (folder / "structured-text.st").read_text().replace("state := 3;", "state := 4;")
        found = scans.Scans(text, ["X", "Z"], {})
        history.History(Trace(lines_of(folder / "structured-text.trace")), found)
        self.assertTrue(found.tasks["handling"].is_lost)
        self.assertEqual(found.shown("handling"), "")

    def test_numbers_wrap(self):
        self.assertEqual(scans.wrapped(2**31), -2**31)
        self.assertEqual(scans.wrapped(-2**31 - 1), 2**31 - 1)


class Verdicts(unittest.TestCase):
    """What motion writes beside traces, and codes."""

    def test_an_illegal_trace_has_its_field(self):
        text = ("illegal 12\nexpected row,X,0037,6,8,DiscreteMotion,0,1,12,000f,12,\n"
                "found row,X,0037,6,8,DiscreteMotion,0,1,13,000f,12,\n")
        output = explained(BENCH, text)
        self.assertIn("my.bench:12:35: error illegal: record 12 (row): the setpoint is 13, and the "
                      "replay gives 12", output)
        first, second = output.splitlines()[1:3]
        self.assertEqual(first[second.index("^"):][:2], "13")

    def test_words_of_statuses(self):
        for text, status in (("usage: motion bench FILE\n", 2), ("cannot read x\n", 4),
                             ("too long x\n", 5), ("thread refused\n", 7)):
            self.assertIn(f"error status {status}: ", explained(BENCH, text))
        self.assertIn("the trace is legal", explained(BENCH, "legal 10\n"))
        self.assertIn("--status", explained(BENCH, ""))
        self.assertIn("OutOfMemory", explained(BENCH, "", "--status", "10"))

    def test_codes(self):
        status, output, _ = run("explain", "S2", "104", "status", "9")
        self.assertEqual(status, 0)
        for wanted in ("note S2: ", "note ErrorID 104: ", "note status 9: HistoryFull"):
            self.assertIn(wanted, output)
        for code in [*hints.texts()["rule"], *hints.texts()["error"], *hints.texts()["group_error"]]:
            self.assertEqual(call(main, code)[0], 0, code)
        self.assertEqual(run("explain", "S9")[0], 2)
        self.assertEqual(run("explain", "status", "11")[0], 2)
        status, _, message = run("explain", "B3", "Q1")
        self.assertEqual((status, message), (2, "explain: there is no rule Q1: see docs/rules.md\n"))

    def test_words(self):
        for word in [*hints.absent(), *BLOCK_KINDS, *hints.texts()["warning"]]:
            self.assertEqual(call(main, word)[0], 0, word)
        for hint in hints.hints():
            for word in re.findall(r"MC_\w+|\b[A-Z_]{4,}\b", hint.shows):
                self.assertIn("cure: ", call(main, word)[1], word)


class Readers(unittest.TestCase):
    """The readers find the line and the rule that the program reports: the tables of
    .ci/refused."""

    def cases(self, name):
        """The texts of a table: place, rule and text."""
        base, found = b"", []
        for line in (REFUSED / f"{name}.table").read_text(encoding="utf-8").splitlines():
            if line.startswith("base "):
                base = (REFUSED / line.split()[1]).read_bytes()
            elif match := re.fullmatch(r"refused (\d+) ([BCPSK]\d+) (.*)", line):
                made = subprocess.run(["sed", match[3]], input=base, capture_output=True, check=True)
                found.append((int(match[1]), match[2],
                              made.stdout.decode("utf-8", "surrogateescape"), match[3]))
        return found

    def test_structured_text(self):
        groups = {"G": ["A", "B"]}
        for place, rule, text, case in self.cases("structured_texts"):
            with self.subTest(case=case):
                found = st.faults_of(text, ["X", "Y", "A", "B"], groups)
                self.assertIsNotNone(chosen(found[:1], place, rule), found)

    def test_lines(self):
        of_cell = {"axes": ["X", "Y", "A", "B"], "groups": {"G": ["A", "B"]}}
        for name, kind, given in (("programs", "program", {**of_cell, "third": False}),
                                  ("programs_three", "program", of_cell), ("benches", "bench", {}),
                                  ("keys_of_kinds", "bench", {}),
                                  ("switches", "switches", {"axes": ["X", "Y"]}),
                                  ("switch_ranges", "switches", {"axes": ["X", "Y"]})):
            for place, rule, text, case in self.cases(name):
                if rule in ("B9", "B10", "P9", "P10", "K7"):
                    continue
                with self.subTest(table=name, case=case):
                    found = lines.faults_at(text, place, lines.Context(kind, **given))
                    told = [fault for fault in found if fault.says]
                    self.assertIsNotNone(chosen(told, place, rule), found)

    def test_configurations(self):
        missed = [case for place, rule, text, case in self.cases("configs")
                  if settings.fault_at(text, place, rule) is None]
        self.assertLessEqual(len(missed), 4, missed)


class Hints(unittest.TestCase):
    """The table of texts, and the page that is generated of it."""

    def test_the_index_is_up_to_date(self):
        page = (ROOT / "docs" / "rules.md").read_text(encoding="utf-8")
        self.assertEqual(hints.with_index(page), page, "tools/explain --index docs/rules.md")

    def test_the_statuses_are_those_of_the_page(self):
        page = (ROOT / "docs" / "errors.md").read_text(encoding="utf-8")
        for number, (name, means, cure) in hints.texts()["status"].items():
            self.assertIn(f"| {number} | {name} | {means} | {cure} |", page)

    def test_the_rules_are_those_of_the_page(self):
        page = (ROOT / "docs" / "rules.md").read_text(encoding="utf-8")
        rules = re.findall(r"^\| ([BCPSKTG]\d+) \|", page, re.MULTILINE)
        self.assertEqual(sorted(rules), sorted(hints.texts()["rule"]))

    def test_the_blocks_that_are_not_there_are_those_of_the_page(self):
        page = (ROOT / "docs" / "coverage.md").read_text(encoding="utf-8")
        found = re.findall(r"^\| MC_(\w+) \| No \|", page[page.index("## Part 1: blocks"):], re.MULTILINE)
        missing = set(found) - set(BLOCK_KINDS)
        self.assertGreater(len(missing), 50)
        self.assertEqual(missing - set(hints.absent()), set())
        self.assertEqual(set(hints.absent()) & set(BLOCK_KINDS), set())

    def test_the_warnings_are_those_of_the_page(self):
        page = (ROOT / "docs" / "tools.md").read_text(encoding="utf-8")
        table = page[page.index("| Warning | Comes where |"):].split("\n\n")[0]
        self.assertEqual(sorted(re.findall(r"^\| `([\w-]+)` \|", table, re.MULTILINE)),
                         sorted(hints.texts()["warning"]))

    def test_each_kind_of_text_has_its_position(self):
        self.assertEqual(set(hints.texts()["kind"]), set(hints.texts()["position"]))

    def test_every_hint_fits_a_rule(self):
        for hint in hints.hints():
            for rule in hint.rules:
                self.assertIn(rule, hints.texts()["rule"])


if __name__ == "__main__":
    unittest.main()
