"""The programs that the tools may run, and the unproved one, which is built once and kept.

`./motion` proves the program and puts it into crates/motion_main/out. `tools/preview` builds it
unproved, with checks at run time, and keeps it in the user's cache folder by a digest of all that it is
built from: the code of motion_main and of the crates below it, their lines of crates.txt, and the kit.
So a change of one of these has it built anew, and checkouts with the same code share it.
"""

import contextlib
import errno
import fcntl
import os
import shlex
import shutil
import signal
import subprocess
import sys
import tempfile
import time
from collections.abc import Iterator
from pathlib import Path
from typing import NamedTuple, Optional

from motion_tools import kept

ROOT = Path(__file__).resolve().parents[2]
CRATE = "motion_main"
SECONDS_BETWEEN_REPORTS = 20.0
TAKES = "some two minutes, more beside other work, once"


class NotBuilt(Exception):
    """Why there is no program, for a person."""


class Place(NamedTuple):
    """Where the program of a checkout that isn't proved is kept, or would be."""
    folder: Path        # with the program and `motion`, the script that runs it
    kit: str

    @property
    def script(self) -> Path:
        return self.folder / "motion"

    @property
    def is_there(self) -> bool:
        return self.script.is_file()


# The proved program

def proved(root: Path = ROOT) -> Optional[Path]:
    """The proved program, where it is there and no source is newer."""
    if not (root / "crates.txt").is_file():
        return root / "motion"          # a release: the program itself stands there
    program = root / "crates" / CRATE / "out" / CRATE
    if not os.access(program, os.X_OK):
        return None
    built = program.stat().st_mtime_ns
    sources = [*root.glob("crates/*/src"), *root.glob("crates/*/src/**/*")]
    is_old = any(file.stat().st_mtime_ns > built for file in sources)
    return None if is_old else program


def is_out_of_date(root: Path = ROOT) -> bool:
    """Whether a proved program is there, but older than a source."""
    return (root / "crates" / CRATE / "out" / CRATE).is_file() and proved(root) is None


def kit() -> str:
    """The kit's one line about itself, with its place. Raises NotBuilt."""
    command = shutil.which("rt")
    if not command:
        raise NotBuilt("the command rt of the Rattle kit isn't on the PATH")
    said = subprocess.run([command, "version"], capture_output=True, encoding="utf-8", check=False)
    if said.returncode or not said.stdout.strip():
        raise NotBuilt(f"{command} version: {said.stderr.strip() or 'it says nothing'}")
    return f"{said.stdout.strip()}, {Path(command).resolve()}"


def place(root: Path = ROOT) -> Place:
    """Where the unproved program of these sources is kept, or would be."""
    name = kit()
    try:
        return Place(kept.folder(root, "preview") / kept.digest(name, root, CRATE, ("src",)), name)
    except OSError as error:
        raise NotBuilt(f"{error.filename}: {error.strerror}") from None


# The unproved program

def unproved(tool: str, root: Path = ROOT) -> Path:
    """The script that runs the unproved program, which is built where it isn't kept."""
    where = place(root)
    if not where.is_there:
        with turn(where, tool):
            if not where.is_there:
                build(where, tool, root)
    kept.use(where.folder)
    return where.script


@contextlib.contextmanager
def turn(where: Place, tool: str) -> Iterator[None]:
    """Waits while another call builds the same."""
    with open(where.folder.with_suffix(".lock"), "w", encoding="ascii") as lock:
        try:
            fcntl.flock(lock, fcntl.LOCK_EX | fcntl.LOCK_NB)
        except BlockingIOError:
            say(tool, "another call is building the unproved program; waiting for it")
            fcntl.flock(lock, fcntl.LOCK_EX)
        yield


def build(where: Place, tool: str, root: Path) -> None:
    """Builds the program and puts it with its script into its folder, in one step."""
    begun = time.monotonic()
    with tempfile.TemporaryDirectory(prefix="new-", dir=where.folder.parent) as room:
        say(tool, f"building the program unproved: {TAKES}")
        made = Path(room) / "made"
        made.mkdir()
        words = grab(Path(room), made / "program", tool, root)
        script = made / "motion"
        script.write_text(f"#!/bin/sh\n# {where.kit}\n"
                          f'exec env -i {shlex.join(words)} "${{0%/*}}/program" "$@"\n',
                          encoding="utf-8")
        script.chmod(0o755)
        if not where.is_there:          # a folder that isn't whole was made by no call
            shutil.rmtree(where.folder, ignore_errors=True)
        made.rename(where.folder)
    say(tool, f"built in {time.monotonic() - begun:.0f} s")
    kept.forget_old(where.folder)


def grab(room: Path, target: Path, tool: str, root: Path) -> list[str]:
    """Copies the program that `rt try` builds, and gives the words before it that start it.

    `rt try` removes the program when its run has ended. So its run is one that waits: it opens a pipe
    into which nothing is written until the copy is made."""
    pipe = room / "wait"
    os.mkfifo(pipe)
    with open(room / "report", "w+", encoding="utf-8", errors="replace") as report:
        with subprocess.Popen(["rt", "try", "--", "check", str(pipe)], cwd=root / "crates" / CRATE,
                              stdin=subprocess.DEVNULL, stdout=subprocess.DEVNULL, stderr=report,
                              env={**os.environ, "TMPDIR": str(room)}) as trying:
            try:
                words = copy_waiting(pipe, target, trying, tool)
            except BaseException:
                trying.terminate()
                raise
        if not words:
            report.seek(0)
            raise NotBuilt(f"`rt try` built no program:\n{report.read().rstrip()}")
    return words


def copy_waiting(pipe: Path, target: Path, trying: "subprocess.Popen[bytes]",
                 tool: str) -> list[str]:
    """Copies the program that waits at the pipe; no words where there will be none."""
    said = begun = time.monotonic()
    while trying.poll() is None:
        try:
            end = os.open(pipe, os.O_WRONLY | os.O_NONBLOCK)
        except OSError as error:
            if error.errno != errno.ENXIO:      # nobody reads yet
                raise
        else:
            with os.fdopen(end, "wb"):
                return copy_reader(pipe, target)
        time.sleep(0.05)
        if time.monotonic() - said > SECONDS_BETWEEN_REPORTS:
            said = time.monotonic()
            say(tool, f"building for {said - begun:.0f} s")
    return []


def copy_reader(pipe: Path, target: Path) -> list[str]:
    """Copies the program that reads the pipe, and gives the words that stand before its name."""
    ends = time.monotonic() + 10.0      # its call that opens the pipe returns soon
    while time.monotonic() < ends:
        for process in Path("/proc").glob("[0-9]*"):
            words = words_of_reader(process, pipe)
            if words:
                shutil.copyfile(words[-1], target)
                target.chmod(0o700)
                return words[:-1]
        time.sleep(0.02)
    raise NotBuilt("the program that `rt try` built wasn't found among the processes")


def words_of_reader(process: Path, pipe: Path) -> list[str]:
    """The words that started a process, up to the program's name; none where it doesn't read the pipe."""
    with contextlib.suppress(OSError):
        words = [os.fsdecode(word) for word in (process / "cmdline").read_bytes().split(b"\0")]
        if words[-3:-1] == ["check", str(pipe)] and any(
                os.readlink(file) == str(pipe) for file in (process / "fd").iterdir()):
            return words[:-3]
    return []


# For the tools

def chosen(tool: str, root: Path = ROOT) -> Path:
    """The program that a tool runs: the proved one, or else the unproved one, which is built where it
    isn't kept; and says which on the standard error. Raises NotBuilt."""
    found = proved(root)
    if found:
        if (root / "crates.txt").is_file():
            say(tool, "by the proved program")
        return found
    script = unproved(tool, root)
    why = "is older than a source" if is_out_of_date(root) else "isn't built"
    say(tool, f"by the unproved program, with checks at run time; the proved one {why}: ./motion builds it")
    return script


def say(tool: str, text: str) -> None:
    print(f"{tool}: {text}", file=sys.stderr, flush=True)


# tools/preview

USAGE = """\
usage: tools/preview WORDS      runs the program unproved; the words are those of ./motion
       tools/preview --state    says whether it is built from the sources as they are, and where it is kept
       tools/preview --build    builds it where it isn't, and runs nothing
"""


def state(root: Path = ROOT) -> int:
    """Prints what there is; 0 where the unproved program is built from the sources as they are."""
    found = proved(root)
    print(f"proved: {found}" if found else "proved: older than a source, ./motion builds it anew"
          if is_out_of_date(root) else "proved: not built; ./motion proves and builds it")
    where = place(root)
    if where.is_there:
        built = time.strftime("%Y-%m-%d %H:%M", time.localtime(where.script.stat().st_mtime))
        print(f"unproved: {where.folder}, built {built} with {where.kit}")
        return 0
    print(f"unproved: not built from the sources as they are; tools/preview builds it in {TAKES}")
    return 1


def interrupt(number: int, frame: object) -> None:
    raise KeyboardInterrupt


def main() -> int:
    """tools/preview."""
    words = sys.argv[1:]
    signal.signal(signal.SIGTERM, interrupt)
    if words in (["--help"], ["-h"]):
        print(USAGE, end="")
        return 0
    try:
        if words == ["--state"]:
            return state()
        script = unproved("preview")
        if words == ["--build"]:
            return 0
        say("preview", "nothing is proved of this run; the checks at run time are on")
        os.execv(script, [str(script), *words])
    except NotBuilt as why:
        say("preview", str(why))
    except OSError as error:
        say("preview", f"{error.filename}: {error.strerror}")
    except KeyboardInterrupt:
        say("preview", "interrupted; nothing was built")
        return 130
    return 70
