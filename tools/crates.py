"""The crates of this repository: which stand below which, by crates.txt."""

import pathlib

TOP = pathlib.Path(__file__).resolve().parent.parent
PARTS = ("src", "specs", "proofs")


def lines_of(text):
    """The lines of crates.txt by the crate that each names, without comments."""
    lines = [line.split("#")[0].strip() for line in text.splitlines()]
    return {line.partition(":")[0].split()[0]: line for line in filter(None, lines)}


def crates_of(text):
    """The crates that the lines of crates.txt name, each with those of them that it stands on."""
    lines = lines_of(text)
    return {crate: [low for low in line.partition(":")[2].split() if low in lines]
            for crate, line in lines.items()}


def lowest_first(crates, wanted):
    """The wanted crates and those below them, each after those that it stands on."""
    order = []

    def add(crate):
        for low in crates[crate]:
            add(low)
        if crate not in order:
            order.append(crate)

    for crate in wanted:
        add(crate)
    return order


def lines_to_prove(folder):
    """How many lines of code, definitions and proofs a crate has, by which its work is estimated."""
    files = [file for part in PARTS for file in (folder / part).rglob("*") if file.is_file()]
    return sum(file.read_bytes().count(b"\n") for file in files)
