#!/usr/bin/env python3
"""Wall time of `mari clear` by 1, 2 and 4 workers on two markets of some thousand nodes.

usage: python3 bench/workers.py [PROGRAM [REPEATS]]

PROGRAM is the built program, by default crates/mari_app/out/mari_app. In `pairs` the second gated bid of each zone is
like its first, the fourth like its third and so on: then many activations are as good as the best, the tree is ten
times as large, and it is cut back and refined twice. It prints a table: for each market the items of its tree, the best
wall time of all repeats by each number of workers, and the ratios of the best to that of one worker. It is no test:
nothing fails where a machine is slow or busy. It ends with 1 where two numbers of workers print other trees.
"""

import pathlib
import random
import re
import subprocess
import sys
import tempfile
import time

import clock
import folders

TOP = pathlib.Path(__file__).resolve().parent.parent
ZONES = 8
GATES = 96
PLAIN = 500
NODES = 50_000
WORKERS = (1, 2, 4)


def pages(seed, pairs=False):
    """The pages of a folder: a ring of zones, plain bids in each, and gated bids priced close to the margin."""
    dice = random.Random(seed)
    zones = [f"Z{zone}" for zone in range(1, ZONES + 1)]
    made = folders.empty_pages()
    made["zones.csv"] = [(zone, f"T{zone}") for zone in zones]
    made["borders.csv"] = [(a, b, 40, 40) for a, b in zip(zones, zones[1:] + zones[:1])]
    for zone in zones:
        for number in range(PLAIN):
            price = f"{30 + dice.randrange(60)}.{dice.randrange(100):02}"
            made["bids.csv"].append((f"{zone}p{number}", "P", zone, 1, "up", price, 0, 1 + dice.randrange(4), "both"))
    priced = []
    for gate in range(GATES):
        price = f"{40 + dice.randrange(6)}.{dice.randrange(100):02}"
        quantity = 37 + dice.randrange(40)
        priced.append((price, quantity))
        if pairs and gate // ZONES % 2 == 1:
            price, quantity = priced[gate - ZONES]
        made["bids.csv"].append((f"g{gate}", "Q", zones[gate % ZONES], 1, "up", price, quantity, quantity, "both"))
    made["runs.csv"] = [(1, 1, "scheduled", "40.00")]
    made["demands.csv"] = [(1, zone, 250 + dice.randrange(100), "") for zone in zones]
    return made


def clear(program, folder, workers):
    """The wall time in seconds, and what every number of workers prints alike: the welfare and the items of the tree."""
    began = time.perf_counter()
    words = [program, "clear", folder, "--nodes", str(NODES), "--workers", str(workers)]
    done = subprocess.run(words, stdout=subprocess.PIPE, check=False)
    took = time.perf_counter() - began
    return took, re.findall(r"^(?:welfare|tree) (\d+)$", done.stdout.decode(), re.M)


def measure(program, name, pairs, repeats):
    """Prints the row of a market, and answers whether every call prints the same welfare and tree."""
    with tempfile.TemporaryDirectory() as folder:
        folders.write(folder, pages(1, pairs))
        runs = {workers: [clear(program, folder, workers) for _ in range(repeats)] for workers in WORKERS}
    best = [min(took for took, _ in runs[workers]) for workers in WORKERS]
    printed = {tuple(said) for calls in runs.values() for _, said in calls}
    items = " or ".join(sorted(f"{int(said[1]):,}" for said in printed))
    cells = [f"{took:.3f}" for took in best] + [f"{took / best[0]:.2f}" for took in best[1:]]
    print(f"| {name} | {items} | " + " | ".join(cells) + " |", flush=True)
    return len(printed) == 1


def main():
    program = sys.argv[1] if len(sys.argv) > 1 else str(TOP / "crates/mari_app/out/mari_app")
    repeats = int(sys.argv[2]) if len(sys.argv) > 2 else 7
    print(f"{clock.machine()}, {repeats} repeats\n")
    print("| market | items | 1 worker, s | 2 | 4 | 2 of 1 | 4 of 1 |")
    print("|---|---|---|---|---|---|---|")
    alike = [measure(program, name, pairs, repeats) for name, pairs in (("96 indivisible bids", False), ("`pairs`", True))]
    return 0 if all(alike) else 1


if __name__ == "__main__":
    sys.exit(main())
