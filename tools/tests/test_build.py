"""Tests of tools/build: what it says, what it keeps and takes, and how far it reckons to be. A stand-in for
rt proves and builds."""

import os
import pathlib
import random
import shutil
import signal
import subprocess
import tempfile
import time
import unittest

from tool_runner import TOOLS

import crates as repository  # pylint: disable=wrong-import-order
from progress import MINUTES, Progress, course  # pylint: disable=wrong-import-order

RT = """\
#!/bin/sh
case "$1" in
version) echo "kit 1" ;;
ci)
    cut -d' ' -f6 /proc/$$/stat >"$STANDIN/session"
    echo ci >>"$STANDIN/ran"
    for crate in $(sed 's/[: ].*//' crates.txt); do
        sleep "$(cat "$STANDIN/seconds")"
        grep -q wrong "crates/$crate/proofs/Lib.antt" 2>/dev/null \
            && { echo "rt: $crate NOT PROVED"; exit 1; }
        echo "rt: $crate proved"
    done
    mkdir -p crates/motion_main/out
    cat crates/low/src/lib.rt >crates/motion_main/out/motion_main
    chmod 755 crates/motion_main/out/motion_main
    ;;
lib)
    name="$(basename "$PWD")"
    echo "lib $name" >>"$STANDIN/ran"
    mkdir -p out
    echo "$name" >"out/lib$name.a"
    ;;
*) exit 9 ;;
esac
"""
CRATES = """\
low:
motion_main: low
motion_c staticlib: low   # for C
otg staticlib: low
other: low
"""
PROGRAM = "#!/bin/sh\necho ran $*\n"


class Builds(unittest.TestCase):

    def setUp(self):
        room = tempfile.TemporaryDirectory()
        self.addCleanup(room.cleanup)
        self.room = pathlib.Path(room.name)
        self.top = self.room / "top"
        for name, text in (("rt/rt", RT), ("rt/seconds", "0"), ("top/crates.txt", CRATES), ("top/HANDLES", "none"),
                           ("top/crates/low/src/lib.rt", PROGRAM), ("top/crates/low/proofs/Lib.antt", "proof"),
                           ("top/crates/motion_main/src/main.rt", "main"), ("top/crates/motion_c/src/lib.rt", "c"),
                           ("top/crates/otg/src/lib.rt", "otg"), ("top/crates/other/src/lib.rt", "other")):
            self.put(name, text)
        (self.room / "rt/rt").chmod(0o755)
        shutil.copytree(TOOLS / "motion_tools", self.top / "tools" / "motion_tools",
                        ignore=shutil.ignore_patterns("__pycache__"))
        for name in ("build", "crates.py", "progress.py", "steps.py"):
            shutil.copy(TOOLS / name, self.top / "tools")
        self.put("top/tools/stamp_libraries", "#!/bin/sh\n").chmod(0o755)
        shutil.copy(TOOLS.parent / "motion", self.top)
        self.set = {**os.environ, "PATH": f"{self.room / 'rt'}:{os.environ['PATH']}",
                    "STANDIN": str(self.room / "rt"), "XDG_CACHE_HOME": str(self.room / "cache")}

    def put(self, name, text):
        file = self.room / name
        file.parent.mkdir(parents=True, exist_ok=True)
        file.write_text(text, encoding="utf-8")
        return file

    def run_tool(self, *words):
        """The status, output and standard error of a command at the top."""
        done = subprocess.run([self.top / words[0], *words[1:]], capture_output=True, encoding="utf-8",
                              check=False, env=self.set, cwd=self.room, timeout=60)
        return done.returncode, done.stdout, done.stderr

    def ran(self):
        file = self.room / "rt" / "ran"
        return file.read_text().split("\n")[:-1] if file.exists() else []

    def session(self):
        return int((self.room / "rt" / "session").read_text())

    def test_motion_says_how_long_it_takes_and_how_to_see_a_trace_sooner(self):
        status, output, told = self.run_tool("motion", "check", "a")
        self.assertEqual((status, output), (0, "ran check a\n"))
        looking, first, second, *more = told.splitlines()
        self.assertEqual(looking, "motion: looking for an earlier build of these files")
        self.assertRegex(first, r"^motion: proving and building 2 crates takes \d+ to \d+ minutes with \d+ proc")
        self.assertIn("tools/preview takes the same words", second)
        self.assertRegex("\n".join(more), "1 of 2 crates proved; the program is being compiled, about .* left"
                         "\nmotion: 2 of 2 crates proved$")
        self.assertEqual(self.run_tool("motion", "st"), (0, "ran st\n", ""))
        self.assertEqual(self.ran(), ["ci"])

    def test_a_copy_takes_what_was_kept(self):
        self.run_tool("tools/build")
        shutil.copytree(self.top, self.room / "copy", ignore=shutil.ignore_patterns("out"))
        self.top = self.room / "copy"
        status, output, told = self.run_tool("motion", "st")
        self.assertEqual((status, output), (0, "ran st\n"))
        self.assertIn("one proved these very files with this kit; taken from ", told)
        self.assertEqual(self.ran(), ["ci"])

    def test_a_change_of_a_proof_proves_anew(self):
        for count, (name, text) in enumerate((("low/proofs/Lib.antt", "other proof"), ("low/specs/Lib.antt", "spec"),
                                              ("motion_main/src/main.rt", "more")), 2):
            self.run_tool("tools/build")
            self.put(f"top/crates/{name}", text)
            self.run_tool("tools/build")
            self.assertEqual(len(self.ran()), count)

    def test_a_damaged_program_is_not_taken(self):
        self.run_tool("tools/build")
        for file in (self.room / "cache").rglob("motion_main"):
            file.write_text("damaged")
        self.run_tool("tools/build")
        self.assertEqual(self.ran(), ["ci", "ci"])
        self.run_tool("tools/build")
        self.assertEqual(self.ran(), ["ci", "ci"])

    def test_a_proof_that_fails(self):
        self.put("top/crates/low/proofs/Lib.antt", "wrong")
        status, _, told = self.run_tool("motion", "st")
        self.assertEqual(status, 70)
        log = self.top / "crates/motion_main/out/build.log"
        self.assertIn(f"not all was proved; the reasons stand in {log}", told)
        self.assertIn("low NOT PROVED", log.read_text())
        self.assertFalse((self.top / "crates/motion_main/out/motion_main").exists())

    def test_the_libraries_report_their_steps(self):
        status, _, told = self.run_tool("tools/build", "--library")
        self.assertEqual(status, 0, told)
        self.assertRegex(told, r"4 of 4 crates proved, about .* left\n"
                         r"motion: library 1 of 2, motion_c; about \d+ minutes left for all\n"
                         r"motion: library 2 of 2, otg; about \d+ minutes left for all\n")
        self.assertEqual((self.top / "crates/otg/out/libotg.a").read_text(), "otg\n")
        self.assertEqual(self.ran(), ["ci", "lib motion_c", "lib otg"])
        # the program alone is kept by its own files, and both libraries by theirs
        shutil.rmtree(self.top / "crates/motion_main/out")
        self.put("top/crates/otg/src/lib.rt", "changed")
        self.run_tool("tools/build")
        self.assertEqual(len(self.ran()), 3)
        self.run_tool("tools/build", "--library")
        self.assertEqual(len(self.ran()), 6)

    def test_it_has_a_session_of_its_own(self):
        self.run_tool("tools/build")
        self.assertNotEqual(self.session(), os.getsid(0))

    def test_where_it_is_ended_its_proofs_end(self):
        self.put("rt/seconds", "30")
        with subprocess.Popen([self.top / "tools/build"], env=self.set, stderr=subprocess.PIPE, text=True) as call:
            while "log:" not in call.stderr.readline():
                pass
            ends = time.monotonic() + 60
            while not self.ran() and time.monotonic() < ends:
                time.sleep(0.05)
            call.send_signal(signal.SIGTERM)
            self.assertIn("interrupted; call it again to go on", call.stderr.read())
        self.assertEqual(call.returncode, 130)
        self.assertFalse(pathlib.Path(f"/proc/{self.session()}").exists())


# A run of `rt ci` as it was (rattle-kit-13f, four processors of 2.5 GHz at a load of 8 to 17, 1 December 2026):
# of each crate the minute of its end, its lines, and those that it stands on.
RUN = {
    "command_pool": (2.2, 2678, ""),
    "cia402_machine": (0.9, 1491, ""),
    "kin_core": (1.4, 1622, ""),
    "fb_outputs": (4.9, 666, "command_pool"),
    "axis_state": (2.1, 364, "kin_core"),
    "linear_path": (2.9, 2266, "kin_core"),
    "buffer_modes": (4.2, 691, "command_pool"),
    "command_core": (6.4, 1249, "buffer_modes"),
    "trapezoid_plan": (4.6, 2663, "command_pool kin_core"),
    "blend_plan": (3.8, 3485, "command_pool kin_core"),
    "axis_core": (10.6, 12925, "cia402_machine axis_state buffer_modes trapezoid_plan blend_plan"),
    "group_core": (8.3, 7551, "axis_state linear_path buffer_modes trapezoid_plan"),
    "command_changes": (11.0, 1490, "command_core axis_core group_core"),
    "state_events": (11.0, 1524, "axis_core group_core"),
    "motion_history": (5.2, 4679, ""),
    "motion_kernel": (19.6, 13520, "fb_outputs command_changes motion_history"),
    "motion_laws": (20.5, 19791, "state_events motion_kernel"),
    "kernel_invariants": (24.0, 3884, "motion_kernel"),
    "outside": (3.7, 1305, ""),
    "machine_words": (9.0, 2449, "motion_history"),
    "trace_columns": (6.0, 1975, ""),
    "trace_text": (21.4, 10386, "outside machine_words trace_columns"),
    "segment_text": (30.7, 6623, "motion_kernel trace_text"),
    "trace_check": (25.1, 3666, "motion_kernel trace_text"),
}


def is_near(found, truth):
    """Whether an estimate is right within a third, or within a minute and a half."""
    return abs(found - truth) <= max(truth / 3, 1.5)


class Reckoning(unittest.TestCase):
    """How far a build is, where its crates take longer or less long than they were measured to."""

    BELOW = {"base": [], **{f"text{n}": ["base"] for n in range(12)}, "core": ["base"], "kernel": ["core"],
             "laws": ["kernel"], "cli": ["laws", *[f"text{n}" for n in range(12)]], "motion_main": ["cli"]}
    LINES = {crate: 2000 + 300 * (number % 5) for number, crate in enumerate(BELOW)}

    def test_each_crate_that_was_measured_is_there(self):
        crates = repository.crates_of((repository.TOP / "crates.txt").read_text(encoding="utf-8"))
        self.assertEqual([crate for crate in MINUTES if crate not in crates], [])

    def test_the_course_of_crates(self):
        self.assertEqual(course({"a": [], "b": [], "c": ["a", "b"]}, {"a": 4.0, "b": 1.0, "c": 2.0}, 1),
                         [(4, "a"), (5, "b"), (7, "c")])
        # the one with the longer chain behind it first
        self.assertEqual(course({"a": [], "b": [], "c": [], "d": ["b"]}, {"a": 4.0, "b": 1.0, "c": 2.0, "d": 5.0}, 2),
                         [(1, "b"), (4, "a"), (6, "d"), (6, "c")])

    def worst(self, pace, factors, processors=4):
        """The worst estimates of a build in which each crate takes so much longer than was measured."""
        progress = Progress(self.BELOW, self.LINES, processors, 3.0)
        work = {crate: minutes * pace * factors(crate) for crate, minutes in progress.work.items()}
        turns = course(self.BELOW, work, processors)
        ends = turns[-1].end + 3.0 * pace
        wrong = []
        for turn in turns:
            progress.add(turn.crate)
            found, truth = progress.left(turn.end), ends - turn.end
            if turn.end > ends / 8 and not is_near(found, truth):
                wrong.append((turn, found, truth))
        return wrong

    def test_as_measured_and_on_slower_machines(self):
        for pace in (0.7, 1.0, 3.0):
            for processors in (1, 2, 4, 8):
                self.assertEqual(self.worst(pace, lambda _: 1.0, processors), [], (pace, processors))

    def test_where_single_crates_take_longer(self):
        for seed in range(20):
            chosen = random.Random(seed)
            factors = {crate: chosen.uniform(0.8, 1.3) for crate in self.BELOW}
            self.assertEqual(self.worst(1.5, factors.get), [], seed)

    def test_a_run_as_it_was(self):
        ends = {crate: end for crate, (end, _, _) in RUN.items()}
        progress = Progress({crate: low.split() for crate, (_, _, low) in RUN.items()},
                            {crate: lines for crate, (_, lines, _) in RUN.items()}, 4)
        whole = max(ends.values())
        for crate in sorted(ends, key=ends.get):
            progress.add(crate)
            if ends[crate] > whole / 8:
                found, truth = progress.left(ends[crate]), whole - ends[crate]
                self.assertTrue(is_near(found, truth), (crate, found, truth))

    def test_what_is_kept_takes_no_time(self):
        progress = Progress(self.BELOW, self.LINES, 4)
        whole = progress.left(0)
        for crate in self.BELOW:
            if crate not in ("cli", "motion_main"):
                progress.add(crate, is_kept=True)
        self.assertLess(progress.left(0.1), whole * 0.6)
        self.assertGreater(progress.left(0.1), progress.work["motion_main"])
        # while the compiling goes on
        progress.add("cli")
        left = progress.left(1.0)
        self.assertAlmostEqual(progress.left(2.0), left - 1.0)
        self.assertAlmostEqual(progress.left(60.0), left / 5)

    def test_a_crate_is_noted_once(self):
        progress = Progress(self.BELOW, self.LINES, 4)
        self.assertEqual([progress.add(crate) for crate in ("base", "base", "stranger")], [True, False, False])


if __name__ == "__main__":
    unittest.main()
