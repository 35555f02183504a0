#!/usr/bin/env python3
"""Whether python/otg.py gives the setpoints that c/otg_move.c has printed, and rejects what is none.

    tools/tests/generator.py TABLE

The environment's OTG_LIBRARY names the shared library. .ci/checks/generator_in_c runs it.
"""

import csv
import pathlib
import sys

sys.path.insert(0, str(pathlib.Path(__file__).resolve().parents[2] / "python"))
import otg


def is_rejected(call, *words, **named):
    try:
        call(*words, **named)
    except (otg.GeneratorError, TypeError):
        return True
    return False


def main():
    with open(sys.argv[1], encoding="utf-8", newline="") as file:
        wanted = [int(row["position"]) for row in csv.DictReader(file)]
    nm, us = 10**6, 1000
    generator = otg.Generator(lo=-10**9, hi=10**9, velocity=otg.per_cycle(500, nm, us),
                              acceleration=otg.per_cycle("2000", nm, us, 2),
                              deceleration=otg.per_cycle(2000, nm, us, 2),
                              jerk=otg.per_cycle(20000, nm, us, 3))
    generator.move(200_000_000)
    found = []
    while not generator.done:
        if len(found) == 299:
            generator.move(50_000_000, velocity=400_000)
        found.append(generator.step())
    assert found == wanted, f"{len(found)} setpoints differ from the {len(wanted)} of the table"
    for words in ((10**9, 0), (0, 2**64), (0, -1), (0, 1.5)):
        assert is_rejected(generator.move, words[0], jerk=words[1]), words
    assert generator.setpoint == 50_000_000 and generator.done
    generator.velocity(-1000)
    assert generator.step() < 50_000_000 and not generator.rests
    generator.halt(jerk=2)
    while not generator.rests:
        generator.step()
    assert is_rejected(otg.Generator, lo=0, hi=-1, velocity=1, acceleration=1, deceleration=1, jerk=2)
    print(f"python/otg.py: {len(found)} setpoints are those of c/otg_move.c")


if __name__ == "__main__":
    main()
