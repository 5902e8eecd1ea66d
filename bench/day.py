#!/usr/bin/env python3
"""Times of `mari clear` and `mari check` on large days: processor seconds, wall seconds and peak memory.

usage: python3 bench/day.py [PROGRAM]

PROGRAM is the built program, by default crates/mari_app/out/mari_app. Each folder has eight zones, ten borders and
plain bids; it is cleared by one worker, three times, and the least time is printed. It is no test: nothing fails where a
machine is slow or busy.
"""

import os
import pathlib
import random
import sys
import tempfile

import clock
import folders

TOP = pathlib.Path(__file__).resolve().parent.parent
ZONES = 8
# the name of a day, its quarters, the bids of each, and the runs of each
DAYS = [
    ("no run, 96 quarters with 4,096 bids", 96, 4096, 0),
    ("96 runs, 96 quarters with 4,096 bids", 96, 4096, 1),
    ("960 runs, 96 quarters with 4,096 bids", 96, 4096, 10),
    ("960 runs, 96 quarters with 1,000 bids", 96, 1000, 10),
]


def pages(quarters, bids, runs):
    """The pages of such a folder; the first run of a quarter is scheduled, each other one direct."""
    dice = random.Random(7)
    made = folders.empty_pages()
    made["zones.csv"] = [(f"Z{zone}", f"T{zone % 4}") for zone in range(ZONES)]
    borders = [(zone, (zone + 1) % ZONES) for zone in range(ZONES)] + [(0, 4), (2, 6)]
    for quarter in range(1, quarters + 1):
        for place in range(bids):
            is_up = dice.random() < 0.75
            cents = dice.randint(3000, 12000) if is_up else dice.randint(-1000, 5000)
            direction = "up" if is_up else "down"
            zone = dice.randrange(ZONES)
            bid = (f"q{quarter}b{place}", f"P{place % 10}", f"Z{zone}", quarter, direction, folders.euro(cents), 0, dice.randint(5, 50), "both")
            made["bids.csv"].append(bid)
    for number in range(quarters * runs):
        kind = "direct" if number % runs else "scheduled"
        made["runs.csv"].append((number + 1, number // runs + 1, kind, folders.euro(dice.randint(4000, 8000))))
        made["demands.csv"] += [(number + 1, f"Z{zone}", dice.randint(-20, 60), "") for zone in range(ZONES)]
    made["borders.csv"] = [(f"Z{a}", f"Z{b}", dice.randint(20, 99), dice.randint(20, 99)) for a, b in borders]
    return made


def main():
    program = sys.argv[1] if len(sys.argv) > 1 else str(TOP / "crates/mari_app/out/mari_app")
    print(clock.machine(), "\n")
    print("| day | text, MB | clear, processor s | wall s | MB | check, processor s | wall s | MB |")
    print("|---|---|---|---|---|---|---|---|")
    for name, quarters, bids, runs in DAYS:
        with tempfile.TemporaryDirectory() as folder:
            folders.write(folder, pages(quarters, bids, runs))
            text = os.path.join(folder, "publication.txt")
            cleared = clock.least_of(3, [program, "clear", folder, "--workers", "1"], text)
            checked = clock.least_of(3, [program, "check", folder])
            cells = [f"{spent.processor:.2f} | {spent.wall:.2f} | {spent.memory:.0f}" for spent in (cleared, checked)]
            print(f"| {name} | {os.path.getsize(text) / 1e6:.1f} | " + " | ".join(cells) + " |", flush=True)


if __name__ == "__main__":
    main()
