"""What builds keep in the user's cache folder: each file in a folder that is named by a digest of all that
the file was made from. So what is kept never goes stale, and checkouts with the same sources share it.

The folder is $XDG_CACHE_HOME/motion, else ~/.cache/motion, or out/ of the program's crate where that can't
be written. An entry is made apart and renamed, so that no other call meets half of it.
"""

import contextlib
import hashlib
import os
import shutil
import tempfile
import time
from pathlib import Path
from typing import Optional

MOST_KEPT = 6
SUM = "sum"


def folder(root: Path, kind: str) -> Path:
    """The folder for entries of a kind, made where it isn't there. Raises OSError."""
    home = os.environ.get("XDG_CACHE_HOME") or os.path.expanduser("~/.cache")
    with contextlib.suppress(OSError):
        found = Path(home) / "motion" / kind
        found.mkdir(mode=0o700, parents=True, exist_ok=True)
        if os.access(found, os.W_OK):
            return found
    found = root / "crates" / "motion_main" / "out" / kind
    found.mkdir(parents=True, exist_ok=True)
    return found


def crates_below(text: str, crate: str) -> dict[str, str]:
    """The lines of crates.txt of a crate and those below it, by their names."""
    lines = {}
    for line in (line.split("#")[0].strip() for line in text.splitlines()):
        if line:
            lines[line.partition(":")[0].split()[0]] = line
    found: dict[str, str] = {}
    left = [crate]
    while left:
        name = left.pop()
        if name in lines and name not in found:
            found[name] = lines[name]
            left += lines[name].partition(":")[2].split()
    return found


def digest(kit: str, root: Path, crate: str, parts: tuple[str, ...]) -> str:
    """The digest of the kit, and of these parts of a crate and of those below it with their lines of
    crates.txt."""
    made = hashlib.sha256(repr(kit).encode())
    lines = crates_below((root / "crates.txt").read_text(encoding="utf-8"), crate)
    for name in sorted(lines):
        made.update(repr(lines[name].split()).encode())
        for part in parts:
            for file in sorted((root / "crates" / name / part).rglob("*")):
                if file.is_file():
                    made.update(repr((str(file.relative_to(root)), file.read_bytes())).encode())
    return made.hexdigest()


def sum_of(file: Path) -> str:
    return hashlib.sha256(file.read_bytes()).hexdigest()


def keep(file: Path, entry: Path) -> None:
    """Keeps a file, if there is room."""
    with contextlib.suppress(OSError):
        with tempfile.TemporaryDirectory(prefix="new-", dir=entry.parent) as room:
            made = Path(room) / "made"
            made.mkdir()
            shutil.copy2(file, made / file.name)
            (made / SUM).write_text(sum_of(made / file.name), encoding="ascii")
            if not take(entry, file.name):
                shutil.rmtree(entry, ignore_errors=True)
            made.rename(entry)
    with contextlib.suppress(OSError):
        forget_old(entry)


def take(entry: Path, name: str) -> Optional[Path]:
    """The file that is kept there, if it is whole."""
    with contextlib.suppress(OSError):
        if (entry / SUM).read_text(encoding="ascii") == sum_of(entry / name):
            use(entry)
            return entry / name
    return None


def use(entry: Path) -> None:
    """Notes that an entry was used now."""
    with contextlib.suppress(OSError):
        os.utime(entry)


def forget_old(newest: Path) -> None:
    """Removes what wasn't used for a day and isn't among the newest, and what calls that were killed left."""
    day = time.time() - 24 * 3600
    found = [(entry.stat().st_mtime, entry) for entry in newest.parent.iterdir()
             if entry.is_dir() and entry != newest]
    stay = sorted(it for it in found if not it[1].name.startswith("new-"))[1 - MOST_KEPT:]
    for used, entry in found:
        if used < day and (used, entry) not in stay:
            shutil.rmtree(entry, ignore_errors=True)
            entry.with_suffix(".lock").unlink(missing_ok=True)
