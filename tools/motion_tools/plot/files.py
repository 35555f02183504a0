"""The files of pictures: an SVG and a page are written as they are, a PNG and a PDF by a converter
of the system, where one is there."""

import os
import re
import shutil
import subprocess
import tempfile
from collections.abc import Callable
from pathlib import Path
from typing import NamedTuple, Optional

CONVERTED = (".png", ".pdf")
OTHERS = (".jpg", ".jpeg", ".gif", ".webp", ".bmp", ".tif", ".tiff", ".eps", ".ps")
BROWSERS = ("chromium", "chromium-browser", "google-chrome", "chrome", "chromium-headless-shell")
SIZE = re.compile(r'<svg\b[^>]*?\bwidth="(\d+)[^"]*"[^>]*?\bheight="(\d+)')
PAGE = """<!DOCTYPE html><style>@page {{ size: {0}px {1}px; margin: 0 }} body {{ margin: 0 }}
svg {{ display: block }}</style>{2}"""


class Converter(NamedTuple):
    """A program that makes a PNG or a PDF of an SVG: its words for a source, a target and a size."""
    program: str
    words: Callable[[str, str, tuple[str, str]], list[str]]
    wants_page: bool = False


def by_rsvg(source: str, target: str, _: tuple[str, str]) -> list[str]:
    return ["--format", Path(target).suffix[1:], "--output", target, source]


def by_inkscape(source: str, target: str, _: tuple[str, str]) -> list[str]:
    return [source, f"--export-type={Path(target).suffix[1:]}", f"--export-filename={target}"]


def by_browser(source: str, target: str, size: tuple[str, str]) -> list[str]:
    made = [f"--print-to-pdf={target}", "--no-pdf-header-footer"] if target.endswith(".pdf") else \
        [f"--screenshot={target}", f"--window-size={','.join(size)}", "--hide-scrollbars"]
    return ["--headless", "--no-sandbox", "--disable-gpu", *made, Path(source).as_uri()]


def converter() -> Optional[Converter]:
    """The converter of this system: librsvg's, Inkscape, or a browser, in this order."""
    found = [Converter("rsvg-convert", by_rsvg), Converter("inkscape", by_inkscape),
             *(Converter(name, by_browser, True)
               for name in filter(None, [os.environ.get("CHROMIUM"), *BROWSERS]))]
    return next((each for each in found if shutil.which(each.program)), None)


def is_page(name: str) -> bool:
    """Whether a file of this name is a page."""
    return name.lower().endswith((".html", ".htm"))


def refusal(name: str) -> str:
    """Why no picture can be written into a file of this name; nothing where one can."""
    ending = Path(name).suffix.lower()
    if ending in OTHERS:
        return f"{name}: a picture is an SVG (.svg), a page (.html), a PNG (.png) or a PDF (.pdf)"
    if ending in CONVERTED and converter() is None:
        return (f"{name}: a {ending[1:].upper()} is made by rsvg-convert, inkscape or chromium, and "
                f"none of them is here; write {Path(name).with_suffix('.svg')}, or a page, "
                f"{Path(name).with_suffix('.html')}")
    return ""


def write(text: str, name: Optional[str]) -> None:
    """Writes a picture into a file, or to the standard output. Raises OSError."""
    if name is None or Path(name).suffix.lower() not in CONVERTED:
        with open(name or 1, "w", encoding="utf-8", newline="\n") as target:
            target.write(text)
        return
    by = converter()
    if by is None:
        raise OSError(0, refusal(name), name)
    found = SIZE.search(text)
    size = (found[1], found[2]) if found else ("1100", "900")
    with tempfile.TemporaryDirectory() as folder:
        source = Path(folder) / ("picture.html" if by.wants_page else "picture.svg")
        source.write_text(PAGE.format(*size, text) if by.wants_page else text, encoding="utf-8")
        made = subprocess.run([by.program, *by.words(str(source), str(Path(name).resolve()), size)],
                              capture_output=True, encoding="utf-8", errors="replace", check=False)
    if made.returncode or not Path(name).exists():
        said = (made.stderr.strip().splitlines() or ["it wrote nothing"])[-1]
        raise OSError(0, f"{by.program} made no picture: {said}", name)
