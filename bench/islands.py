#!/usr/bin/env python3
"""Times of `mari split` beside `mari clear`, islands that are too much for one search, and whether both days agree.

usage: python3 bench/islands.py [PROGRAM [DAYS]]

PROGRAM is the built program, by default crates/mari_app/out/mari_app. It prints:

- of a day of 20 runs, each of 64 islands with 4,096 bids: processor seconds of `clear` and `split` by one worker, the
  difference a run, and wall seconds of `split` by 1, 2 and 4 workers;
- of one run of 8 islands with 12 gated bids each, near the margin: that `clear` can't publish it within 10,000 nodes,
  and the most items that `split` needs for an island, within 1,000;
- of DAYS random days, by default 200, made as `tools/one-text` makes them: in how many all runs are published both
  ways, and in how many of these a line of a run, its welfare, a zone, a border, a bid or a demand differs.

It is no test: nothing fails where a machine is slow or busy. It ends with 1 where two days differ.
"""

import importlib.machinery
import importlib.util
import os
import pathlib
import random
import re
import subprocess
import sys
import tempfile

import clock
import folders

TOP = pathlib.Path(__file__).resolve().parent.parent
RUNS = 20
SHARED = re.compile(r"^(?:run|welfare|zone|border|bid|demand|done) .*$", re.M)


def apart(zones, bids, runs):
    """Pages of zones that nothing joins, with this number of bids each."""
    dice = random.Random(11)
    pages = folders.empty_pages()
    pages["zones.csv"] = [(f"Z{zone}", f"T{zone % 4}") for zone in range(zones)]
    for run in range(1, runs + 1):
        pages["runs.csv"].append((run, run, "scheduled", "40.00"))
        for zone in range(zones):
            for place in range(bids):
                cents, greatest = dice.randint(3000, 12000), dice.randint(5, 50)
                pages["bids.csv"].append((f"r{run}z{zone}b{place}", f"P{place % 10}", f"Z{zone}", run, "up", folders.euro(cents), 0, greatest, "both"))
            pages["demands.csv"].append((run, f"Z{zone}", 10 * bids, ""))
    return pages


def near_the_margin(zones, gates):
    """Pages of one run of zones that nothing joins, each with this number of indivisible bids near the margin of its demand."""
    dice = random.Random(5)
    pages = folders.empty_pages()
    pages["zones.csv"] = [(f"Z{zone}", f"T{zone}") for zone in range(zones)]
    pages["runs.csv"].append((1, 1, "scheduled", "40.00"))
    for zone in range(zones):
        for place in range(gates):
            mw = dice.randint(20, 40)
            pages["bids.csv"].append((f"z{zone}g{place}", f"P{place}", f"Z{zone}", 1, "up", folders.euro(dice.randint(4800, 5200)), mw, mw, "both"))
        pages["bids.csv"].append((f"z{zone}s", "P", f"Z{zone}", 1, "up", "70.00", 0, 15, "both"))
        pages["bids.csv"].append((f"z{zone}t", "P", f"Z{zone}", 1, "down", "30.00", 0, 15, "both"))
        pages["demands.csv"].append((1, f"Z{zone}", 15 * gates + 7, ""))
    return pages


def printed(program, *words):
    """The exit code of the program and what it prints."""
    done = subprocess.run([program, *words], stdout=subprocess.PIPE, stdin=subprocess.DEVNULL, check=False)
    return done.returncode, done.stdout.decode()


def measure(program, folder):
    """Prints what splitting costs."""
    folders.write(folder, apart(64, 64, RUNS))
    took = {verb: clock.least_of(5, [program, verb, folder, "--workers", "1"]) for verb in ("clear", "split")}
    both = [took[verb].processor for verb in ("clear", "split")]
    print(f"{RUNS} runs of 64 islands, 4,096 bids: clear {both[0]:.3f} s, split {both[1]:.3f} s of processor time,")
    print(f"  {(both[1] - both[0]) / RUNS * 1000:+.2f} ms a run; peak memory {took['clear'].memory:.0f} and {took['split'].memory:.0f} MB")
    walls = [clock.least_of(5, [program, "split", folder, "--workers", str(workers)]).wall for workers in (1, 2, 4)]
    print("  split by 1, 2 and 4 workers: " + ", ".join(f"{wall:.3f} s" for wall in walls))


def too_much(program, folder):
    """Prints what comes of the islands near the margin."""
    folders.write(folder, near_the_margin(8, 12))
    code, text = printed(program, "clear", folder, "--nodes", "10000")
    line = next(line for line in text.splitlines() if line.startswith("run "))
    print(f"8 islands with 12 gated bids each: clear within 10,000 nodes: exit code {code}, {line}")
    code, text = printed(program, "split", folder, "--nodes", "999")
    trees = [int(items) for items in re.findall(r"^tree (\d+)$", text, re.M)]
    line = next(line for line in text.splitlines() if line.startswith("run "))
    print(f"  split within 999 nodes an island: exit code {code}, {line}, items of the trees: {trees}")


def random_pages():
    """What makes the pages of a random day, of `tools/one-text`."""
    loader = importlib.machinery.SourceFileLoader("one_text", str(TOP / "tools" / "one-text"))
    spec = importlib.util.spec_from_loader("one_text", loader)
    module = importlib.util.module_from_spec(spec)
    loader.exec_module(module)
    return module


def compare(program, folder, days):
    """Prints in how many random days the lines of both differ, and answers whether any does."""
    one_text = random_pages()
    whole = differ = 0
    for seed in range(days):
        folders.write(folder, one_text.day(seed)[0])
        cleared, split = (printed(program, verb, folder, "--nodes", "50000") for verb in ("clear", "split"))
        if cleared[0] == 0 and split[0] == 0:
            whole += 1
            if SHARED.findall(cleared[1]) != SHARED.findall(split[1]):
                differ += 1
                print(f"  day {seed} differs")
    print(f"{days} random days: {whole} published both ways, {differ} of them differ")
    return differ > 0


def main():
    program = os.path.abspath(sys.argv[1]) if len(sys.argv) > 1 else str(TOP / "crates/mari_app/out/mari_app")
    days = int(sys.argv[2]) if len(sys.argv) > 2 else 200
    print(clock.machine())
    with tempfile.TemporaryDirectory() as folder:
        measure(program, folder)
        too_much(program, folder)
        return compare(program, folder, days)


if __name__ == "__main__":
    sys.exit(main())
