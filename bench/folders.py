#!/usr/bin/env python3
"""Makes folders of market files to measure with.

usage: python3 bench/folders.py FOLDER [--zones N] [--borders N] [--bids N] [--gates N] [--size N] [--load N]
                                       [--demands N] [--runs N] [--seed N]
       python3 bench/folders.py FOLDER --day NUMBER

The first form makes markets of one shape: a ring of zones with chords, three bids of four upward, as many demands as
zones or as asked for, and gated bids spread evenly over the others. Border limits and demands grow with the bids, so a
market of more bids is the same market in finer steps. `size` multiplies the gated bids, and `load` is added to each
demand's draw: at 0 few gates are worth opening, at 40 their prices lie amid the margin. Each run is the scheduled one
of its quarter. The second form makes the day that `mari generate NUMBER` clears.
"""

import argparse
import pathlib
import random

HEADERS = {
    "day.csv": "date,rule",
    "zones.csv": "zone,operator",
    "borders.csv": "from,to,limit,back",
    "bids.csv": "id,provider,zone,quarter,direction,price,least,greatest,kind",
    "links.csv": "kind,first,second",
    "runs.csv": "run,quarter,kind,reference",
    "demands.csv": "run,zone,mw,price",
}


def euro(cents):
    """A price as the files write it."""
    return f"{'-' if cents < 0 else ''}{abs(cents) // 100}.{abs(cents) % 100:02}"


def empty_pages():
    """A day without records, but for its date."""
    return {name: [] for name in HEADERS} | {"day.csv": [("2025-03-12", "UTC0")]}


def write(folder, pages):
    """Writes the pages, each a list of records, below their headers."""
    path = pathlib.Path(folder)
    path.mkdir(parents=True, exist_ok=True)
    for name, header in HEADERS.items():
        lines = [header] + [",".join(map(str, record)) for record in pages[name]]
        (path / name).write_text("\n".join(lines) + "\n")


def network(dice, zones, borders):
    """The pairs of zones of a ring, and then of chords."""
    ring = zones if zones > 2 else zones - 1
    pairs = [(zone, (zone + 1) % zones) for zone in range(min(ring, borders))]
    seen = {frozenset(pair) for pair in pairs}
    while len(pairs) < borders and len(seen) < zones * (zones - 1) // 2:
        pair = dice.sample(range(zones), 2)
        if frozenset(pair) not in seen:
            seen.add(frozenset(pair))
            pairs.append(tuple(pair))
    return pairs


def gated_bid(greatest, gate, size):
    """The least and the greatest quantity of a gated bid: each second is indivisible, others go down to a half."""
    greatest = min(9999, greatest * size)
    return (greatest if gate % 2 == 0 else max(1, greatest // 2)), greatest


def market(zones=8, borders=10, bids=100, gates=0, size=1, load=0, demands=0, runs=1, seed=1):
    """The pages of markets of one shape, one for each run."""
    dice = random.Random(seed)
    pages = empty_pages()
    pages["zones.csv"] = [(f"Z{zone}", f"T{zone % 4}") for zone in range(zones)]
    for a, b in network(dice, zones, borders):
        limits = [min(99999, dice.randint(20, 99) * bids // (5 * zones)) for _ in range(2)]
        pages["borders.csv"].append((f"Z{a}", f"Z{b}", *limits))
    gate_of = {(2 * gate + 1) * bids // (2 * gates): gate for gate in range(gates)}
    for run in range(1, runs + 1):
        names = []
        for place in range(bids):
            is_up = dice.random() < 0.75
            cents = dice.randrange(3000, 12000) if is_up else dice.randrange(-1000, 5000)
            least, greatest = 0, dice.randint(5, 50)
            if place in gate_of:
                least, greatest = gated_bid(greatest, gate_of[place], size)
                names.append(f"q{run}b{place}")
            direction = "up" if is_up else "down"
            zone = dice.randrange(zones)
            pages["bids.csv"].append((f"q{run}b{place}", f"P{place % 10}", f"Z{zone}", run, direction, euro(cents), least, greatest, "both"))
        for first in range(0, gates - 4, 8):  # of eight gates two exclude each other, and one is the child of another
            pages["links.csv"] += [("group", f"r{run}g{first}", names[first + 1]), ("group", f"r{run}g{first}", names[first + 2])]
            pages["links.csv"].append(("child", names[first + 4], names[first + 3]))
        pages["runs.csv"].append((run, run, "scheduled", euro(dice.randrange(4000, 8000))))
        for place in range(demands or zones):
            mw = (dice.randint(-20, 40) + load) * bids // (5 * (demands or zones))
            price = euro(dice.randrange(5000, 15000)) if dice.randrange(3) == 2 else ""
            pages["demands.csv"].append((run, f"Z{place % zones}", mw, price))
    return pages


class Draws:
    """The numbers that `mari generate` draws."""

    def __init__(self, number):
        self.state = number

    def below(self, bound):
        self.state = (1103515245 * self.state + 12345) % 2**31
        return (self.state >> 16) % bound


def generated(number):
    """The pages of the day that `mari generate NUMBER` clears."""
    draws = Draws(number)
    pages = empty_pages()
    pages["zones.csv"] = [(f"Z{zone + 1}", f"T{zone % 4 + 1}") for zone in range(8)]
    for a, b in [(1, 2), (2, 3), (3, 4), (4, 5), (5, 6), (6, 7), (7, 8), (8, 1), (1, 5), (3, 7)]:
        pages["borders.csv"].append((f"Z{a}", f"Z{b}", 20 + draws.below(80), 20 + draws.below(80)))
    for quarter in range(1, 25):
        for place in range(1, 41):
            zone = 1 + draws.below(8)
            is_up = draws.below(4) < 3
            cents = 3000 + draws.below(9000) if is_up else draws.below(6000) - 1000
            greatest = 5 + draws.below(46)
            kind = "both" if draws.below(2) == 0 else "scheduled"
            least = greatest if place % 5 == 0 else 0
            name, provider = f"q{quarter}b{place}", f"P{(place - 1) % 10 + 1}"
            direction = "up" if is_up else "down"
            pages["bids.csv"].append((name, provider, f"Z{zone}", quarter, direction, euro(cents), least, greatest, kind))
        links = [("group", f"g{quarter}", f"q{quarter}b10"), ("group", f"g{quarter}", f"q{quarter}b15")]
        pages["links.csv"] += links + [("child", f"q{quarter}b25", f"q{quarter}b20")]
    for quarter in range(1, 25):
        pages["runs.csv"].append((quarter, quarter, "scheduled", euro(4000 + draws.below(4000))))
    for quarter in range(1, 25):
        for zone in range(1, 9):
            mw = draws.below(61) - 20
            price = euro(5000 + draws.below(10000)) if draws.below(3) == 2 else ""
            pages["demands.csv"].append((quarter, f"Z{zone}", mw, price))
    return pages


def main():
    parser = argparse.ArgumentParser(description=__doc__, formatter_class=argparse.RawDescriptionHelpFormatter)
    parser.add_argument("folder")
    parser.add_argument("--day", type=int)
    defaults = {"zones": 8, "borders": 10, "bids": 100, "gates": 0, "size": 1, "load": 0, "demands": 0, "runs": 1, "seed": 1}
    for name, default in defaults.items():
        parser.add_argument(f"--{name}", type=int, default=default)
    words = vars(parser.parse_args())
    folder, day = words.pop("folder"), words.pop("day")
    write(folder, market(**words) if day is None else generated(day))


if __name__ == "__main__":
    main()
