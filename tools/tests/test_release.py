"""Tests of tools/release and its trial, with stand-ins for the program and the libraries."""

import hashlib
import os
import pathlib
import shutil
import subprocess
import tarfile
import tempfile
import unittest

from tool_runner import TOOLS

TOP = TOOLS.parent
EXAMPLE = "examples/structured-text/structured-text"
PROGRAM = """\
#!/bin/sh
case "$1" in
st) cat "$(dirname "$0")/examples/structured-text/structured-text.trace" ;;
check) echo legal 2052 ;;
*) exit 2 ;;
esac
"""
# Commands that the trial needs; gcc is not among them, as stand-ins can't be linked.
COMMANDS = ("bash sh env cat grep sed wc find sort xargs sha256sum tar gzip cp mkdir mktemp rm uname tr dirname "
            "readlink cmp touch chmod echo python3").split()


@unittest.skipUnless((TOP / "crates.txt").exists(), "this is a release")
class Release(unittest.TestCase):

    @classmethod
    def setUpClass(cls):
        folder = tempfile.TemporaryDirectory()
        cls.addClassCleanup(folder.cleanup)
        cls.room = pathlib.Path(folder.name)
        cls.top = cls.room / "top"
        for name in ("docs", "examples", "tools", "c", "python"):
            shutil.copytree(TOP / name, cls.top / name, ignore=shutil.ignore_patterns("__pycache__"))
        for name in ("VERSION", "README.md", "CHANGELOG.md", "SECURITY.md", "LICENSE-APACHE", "LICENSE-MIT"):
            shutil.copy(TOP / name, cls.top)
        (cls.top / "crates/motion_main/src").mkdir(parents=True)
        for name in ("motion_main/out/motion_main", "motion_c/out/libmotion_c.a", "otg/out/libotg.a"):
            file = cls.top / "crates" / name
            file.parent.mkdir(parents=True)
            file.write_text(PROGRAM, encoding="utf-8")
            file.chmod(0o755)
        (cls.room / "bin").mkdir()
        for name in COMMANDS:
            found = shutil.which(name)
            if found:
                (cls.room / "bin" / name).symlink_to(found)
        cls.made = cls.run_release(str(cls.room / "to"))

    @classmethod
    def run_release(cls, *words):
        return subprocess.run([cls.top / "tools/release", *words], capture_output=True, encoding="utf-8",
                              check=False, env={**os.environ, "PATH": str(cls.room / "bin")})

    def archive(self):
        self.assertEqual(self.made.returncode, 0, self.made.stderr)
        return pathlib.Path(self.made.stdout.strip())

    def unpacked(self, folder):
        with tarfile.open(self.archive()) as archive:
            archive.extractall(folder, filter="data")
        return next(pathlib.Path(folder).iterdir())

    def test_it_is_tried(self):
        self.assertIn("runs in an empty folder without the kit", self.made.stderr)
        self.assertIn("there is no gcc, so the libraries for C aren't tried", self.made.stderr)

    def test_the_digests_are_those_of_all_files(self):
        with tempfile.TemporaryDirectory() as folder:
            top = self.unpacked(folder)
            lines = (top / "SHA256SUMS").read_text(encoding="utf-8").splitlines()
            listed = {line[66:]: line[:64] for line in lines}
            files = {str(file.relative_to(top)): hashlib.sha256(file.read_bytes()).hexdigest()
                     for file in top.rglob("*") if file.is_file() and file.name != "SHA256SUMS"}
            self.assertEqual(listed, files)
            for name in ("motion", "crates/motion_c/out/libmotion_c.a", "crates/otg/out/libotg.a", "c/motion.h",
                         "c/otg.h", "python/motion.py", "share/man/man1/motion-run.1"):
                self.assertIn(name, listed)
            self.assertNotIn("tools/build", listed)

    def test_its_own_digest(self):
        archive = self.archive()
        said = archive.with_name(f"{archive.name}.sha256").read_text().split()
        self.assertEqual(said, [hashlib.sha256(archive.read_bytes()).hexdigest(), archive.name])

    def smoke(self, change):
        """The trial of an archive that was changed."""
        with tempfile.TemporaryDirectory() as folder:
            top = self.unpacked(folder)
            change(top)
            other = pathlib.Path(folder) / "other.tar.gz"
            with tarfile.open(other, "w:gz") as archive:
                archive.add(top, top.name)
            return self.run_release("--smoke", str(other))

    def assert_refused(self, why, change):
        done = self.smoke(change)
        self.assertEqual(done.returncode, 1, done.stderr)
        self.assertIn(why, done.stderr)

    def test_an_archive_as_it_was_made(self):
        done = self.smoke(lambda top: None)
        self.assertEqual(done.returncode, 0, done.stderr)

    def test_a_file_is_another(self):
        self.assert_refused("a file is another", lambda top: (top / "c/motion.h").write_text("changed"))

    def test_a_file_without_a_digest(self):
        self.assert_refused("doesn't name every file", lambda top: (top / "c/more.h").write_text("more"))

    def test_a_library_is_missing(self):
        def change(top):
            (top / "crates/otg/out/libotg.a").unlink()
            sums = top / "SHA256SUMS"
            sums.write_text("".join(line for line in sums.read_text().splitlines(True) if "libotg.a" not in line))
        self.assert_refused("there is no crates/otg/out/libotg.a", change)

    def test_a_program_that_calls_the_kit(self):
        def change(top):
            file, sums = top / "motion", top / "SHA256SUMS"
            old = hashlib.sha256(file.read_bytes()).hexdigest()
            file.write_text(PROGRAM.replace("case", "rt version\ncase", 1))
            sums.write_text(sums.read_text().replace(f"{old}  motion\n",
                                                     f"{hashlib.sha256(file.read_bytes()).hexdigest()}  motion\n"))
        self.assert_refused("called the kit", change)

    def test_what_cannot_be_built_is_no_release(self):
        library = self.top / "crates/otg/out/libotg.a"
        library.rename(library.with_suffix(".away"))
        self.addCleanup(library.with_suffix(".away").rename, library)
        done = self.run_release(str(self.room / "other"))
        self.assertEqual((done.returncode, done.stdout), (70, ""))
        self.assertIn("rt of the Rattle kit isn't on the PATH", done.stderr)
        self.assertEqual(list((self.room / "other").iterdir()), [])

    def test_words_that_are_none(self):
        self.assertEqual(self.run_release().returncode, 2)
        self.assertEqual(self.run_release("--more").returncode, 2)
        done = self.run_release("--smoke", str(self.room / "none.tar.gz"))
        self.assertEqual((done.returncode, done.stderr), (1, f"release: there is no {self.room}/none.tar.gz\n"))


if __name__ == "__main__":
    unittest.main()
