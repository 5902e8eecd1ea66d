#!/usr/bin/env python3
"""Times of `mari value` beside `mari check` on large days: processor seconds and peak memory.

usage: python3 bench/value.py [PROGRAM]

PROGRAM is the built program, by default crates/mari_app/out/mari_app. Each day has 96 runs of 1,000 bids over 40 zones and
60 borders, is cleared by one worker, and is then checked and valued by 10 MW, three times; the least time is printed. Days
are measured as `folders.py` makes them, where few borders are full, and with borders that carry a twentieth and nothing
of that. How many limits have a rise is counted in the lines that are printed: only these are solved. It is no test:
nothing fails where a machine is slow or busy.
"""

import os
import pathlib
import sys
import tempfile

import clock
import folders

TOP = pathlib.Path(__file__).resolve().parent.parent
ZONES, BORDERS, BIDS = 40, 60, 1000
RUNS = 96
# by what the limits of a day are divided, in words
DAYS = [(1, "as made"), (20, "a twentieth of that"), (10**6, "nothing")]


def pages(divisor):
    """The pages of such a day: each run is the scheduled one of its quarter."""
    made = folders.market(ZONES, BORDERS, BIDS, 0, runs=RUNS)
    return made | {"borders.csv": [(a, b, limit // divisor, back // divisor) for a, b, limit, back in made["borders.csv"]]}


def rises(path):
    """How many limits were printed, and how many of them have a rise."""
    count = some = 0
    with open(path, encoding="ascii") as text:
        for line in text:
            if line.startswith("border "):
                words = line.split()
                count += 2
                some += (words[4] != "0.0000") + (words[6] != "0.0000")
    return count, some


def main():
    program = sys.argv[1] if len(sys.argv) > 1 else str(TOP / "crates/mari_app/out/mari_app")
    print(clock.machine(), "\n")
    print("| borders carry | limits | with a rise | check, processor s | value | times the check | MB |")
    print("|---|---|---|---|---|---|---|")
    for divisor, carried in DAYS:
        with tempfile.TemporaryDirectory() as folder:
            folders.write(folder, pages(divisor))
            text = os.path.join(folder, "publication.txt")
            values = os.path.join(folder, "values.txt")
            clock.least_of(1, [program, "clear", folder, "--workers", "1"], text)
            checked = clock.least_of(3, [program, "check", folder])
            valued = clock.least_of(3, [program, "value", folder, "10"], values)
            count, some = rises(values)
            print(
                f"| {carried} | {count:,} | {some:,} | {checked.processor:.2f} | {valued.processor:.2f} "
                f"| {valued.processor / checked.processor:.1f} | {max(checked.memory, valued.memory):.0f} |",
                flush=True,
            )


if __name__ == "__main__":
    main()
