#!/usr/bin/env python3
"""Days of the shape of the European platform: how many of their runs `mari clear`, `mari split` and `reach clear` settle.

usage: python3 bench/real.py [MARI] [--reach PROGRAM] [--seeds N] [--quarters N] [--nodes N] [--shares A,B,..]
                             [--solvers A,B,..] [--seconds N]
       python3 bench/real.py --folder FOLDER [--seed N] [--share PERCENT] [--quarters N]

The first form makes a day for each seed from 1 on and each share of indivisible bids, clears it by both programs within N
nodes a run, and prints a table in Markdown: runs published by `clear` and by `split`; runs of which `reach` shows the first
activation, and the gaps of the others, as a part of their welfare; times of `clear` and of `reach` by the clock. With
--solvers, as highs, cuts and cbc, it makes a run for each seed instead, and the table has for `reach`, `clear` and each solver
(bench/milp.py) the runs that it ends within the seconds, 15 without the option, the processor seconds of these, and on how
many of them `reach` takes less; one thread each. Where `reach` shows the first activation a solver that ends with less welfare
doesn't count as ended (cbc has tolerances), and one with more stops it. The second form makes one folder.

Zones and borders are the public ones of the bidding zone map. Bids, demands and limits are drawn: 20 to 150 bids a zone and
quarter hour of 1 to 100 MW, prices about a level for each zone with a long tail, blocks, groups, parents with children;
limits that are 0 one way in a third of all cases; inelastic demands in half of the zones.
"""

import argparse
import collections
import math
import pathlib
import random
import re
import statistics
import subprocess
import tempfile
import time

import clock

TOP = pathlib.Path(__file__).resolve().parent.parent
PYTHON = "/usr/bin/python3"  # which has Debian's scipy
ZONES = """DE FR NL BE AT CZ PL SK HU SI HR RO ES PT IT1 DK1 DK2 SE4 SE3 SE2 SE1 NO2 NO1 NO5 NO3 NO4 FI EE LV LT BG GR IT2 IT3
IT4 IT5 IT6 IT7 CH IE""".split()
BORDERS = """PT-ES ES-FR FR-BE FR-DE FR-IT1 FR-CH FR-IE BE-NL BE-DE NL-DE NL-NO2 NL-DK1 DE-DK1 DE-DK2 DE-SE4 DE-NO2 DE-PL DE-CZ
DE-AT DE-CH CH-AT CH-IT1 AT-CZ AT-HU AT-SI AT-IT1 CZ-SK CZ-PL PL-SK PL-SE4 PL-LT SK-HU HU-SI HU-HR HU-RO SI-HR SI-IT1 RO-BG
BG-GR GR-IT4 IT1-IT2 IT2-IT3 IT3-IT4 IT4-IT5 IT5-IT6 IT2-IT7 IT3-IT7 DK1-DK2 DK1-NO2 DK1-SE3 DK2-SE4 NO1-NO2 NO1-NO3 NO1-NO5
NO2-NO5 NO3-NO4 NO3-NO5 NO3-SE2 NO4-SE1 NO4-SE2 NO1-SE3 SE1-SE2 SE2-SE3 SE3-SE4 SE1-FI SE3-FI SE4-LT FI-EE EE-LV LV-LT""".split()
MOST_GATES, MOST_BIDS = 512, 4096
SIZES = (5, 5, 8, 10, 10, 12, 15, 20, 20, 25, 30, 40, 50, 50, 60, 75, 100)

Offer = collections.namedtuple("Offer", "name provider zone quarter up cents least greatest kind")


def euro(cents):
    """A price as the files write it."""
    return f"{'-' if cents < 0 else ''}{abs(cents) // 100}.{abs(cents) % 100:02}"


class Day:
    """Draws the bids, limits and demands of a day."""

    def __init__(self, seed, share):
        self.dice = dice = random.Random(f"{seed} {share}")
        self.share = share / 100
        self.zones = ZONES[: dice.randint(25, len(ZONES))]
        self.borders = [pair for pair in (tuple(text.split("-")) for text in BORDERS) if set(pair) <= set(self.zones)]
        self.level = dice.uniform(45, 130)
        self.levels = {zone: self.level * dice.uniform(0.5, 1.2) for zone in self.zones}
        self.rooms = {pair: dice.choice((150, 300, 500, 800, 1200, 2000)) for pair in self.borders}
        self.plants = [plant for zone in self.zones for plant in self.draw_plants(zone)]

    def draw_price(self, zone, is_up):
        """A price in whole cents, rounded as providers do."""
        dice, level = self.dice, self.levels[zone]
        if is_up:
            price = level + dice.gammavariate(1.4, 45) if dice.random() < 0.94 else dice.choice((500, 999, 1500, 4000, 9999))
        else:
            price = max(-200, min(60, level * 0.85 - dice.gammavariate(1.3, 35))) if dice.random() < 0.86 else 0
        return round(price) * 100 if dice.random() < 0.5 else round(price * 10) * 10

    def draw_plants(self, zone):
        """The plants of a zone: what each offers in a quarter hour, as its kind and rows (up, cents, least, greatest)."""
        dice = self.dice
        left = int(min(150, max(20, dice.lognormvariate(math.log(45), 0.5))))
        while left > 0:
            is_up, provider = dice.random() < 0.58, f"{zone}-{dice.randint(1, 9)}"
            cents, size, draw = self.draw_price(zone, is_up), dice.choice(SIZES), dice.random()
            if dice.random() >= self.share:
                rows = [(is_up, cents + step * 50, 0, dice.choice((1, 2, 5, 10, 20, 30, 50))) for step in range(dice.choice((1, 1, 1, 2, 3)))]
                kind = "plain"
            elif draw < 0.62:
                kind, rows = "block", [(is_up, cents, size, size)]
            elif draw < 0.80:
                kind, rows = "block", [(is_up, cents, max(1, int(size * dice.uniform(0.2, 0.8))), size)]
            elif draw < 0.91:
                parts = dice.randint(2, 5)
                sizes = [max(1, size * (part + 1) // parts) for part in range(parts)]
                kind, rows = "group", [(is_up, cents + (1 if is_up else -1) * 3000 // own, own, own) for own in sizes]
            else:
                children = [(is_up, cents + dice.randint(-1500, 2500), 0, dice.choice((5, 10, 20, 30))) for _ in range(dice.randint(1, 3))]
                kind, rows = "parent", [(is_up, cents, size, size), *children]
            yield zone, provider, kind, rows
            left -= len(rows)

    def draw_quarter(self, quarter):
        """The bids of a quarter hour and their links, no more than a market may have."""
        dice, offers, links, gates = self.dice, [], [], 0
        for zone, provider, kind, rows in dice.sample(self.plants, len(self.plants)):
            own = 0 if kind == "plain" else len(rows)
            if dice.random() < 0.06 or gates + own > MOST_GATES or len(offers) + len(rows) > MOST_BIDS:
                continue
            gates += own
            usage = "both" if dice.random() < 0.75 else "scheduled"
            names = [f"{quarter}-{len(offers) + number}" for number in range(len(rows))]
            for name, (is_up, cents, least, greatest) in zip(names, rows):
                offers.append(Offer(name, provider, zone, quarter, "up" if is_up else "down", euro(cents), least, greatest, usage))
            if kind == "group":
                links += [("group", names[0], name) for name in names]
            if kind == "parent":
                links += [("child", name, names[0]) for name in names[1:]]
        return offers, links

    def draw_limit(self, pair):
        """What is left of a border's limit one way."""
        most, draw = self.rooms[pair], self.dice.random()
        return 0 if draw < 0.30 else self.dice.randint(1, 50) if draw < 0.42 else most if draw < 0.55 else self.dice.randint(50, most)

    def draw_demands(self):
        """The demands of a run: (zone, MW, price or nothing)."""
        dice, found = self.dice, []
        mood = dice.gauss(0.1, 0.5)
        for zone in self.zones:
            if dice.random() < 0.45:
                continue
            is_up = dice.random() < 0.5 + mood / 2
            mw = int(min(600, dice.expovariate(1 / 110))) * (1 if is_up else -1)
            found.append((zone, mw, ""))
            if dice.random() < 0.2:
                price = self.levels[zone] * (dice.uniform(1, 2) if is_up else dice.uniform(-0.2, 0.9))
                found.append((zone, dice.choice((20, 50, 100, 200)) * (1 if is_up else -1), euro(round(price * 100))))
        return found


def pages(seed, share, quarters):
    """The market files of a day, each as its lines."""
    day = Day(seed, share)
    found = {
        "day.csv": ["date,rule", '2025-03-12,"CET-1CEST,M3.5.0,M10.5.0/3"'],
        "zones.csv": ["zone,operator", *(f"{zone},{zone[:2]}" for zone in day.zones)],
        "borders.csv": ["from,to", *map(",".join, day.borders)],
        "bids.csv": ["id,provider,zone,quarter,direction,price,least,greatest,kind"],
        "links.csv": ["kind,first,second"],
        "runs.csv": ["run,quarter,kind,reference"],
        "demands.csv": ["run,zone,mw,price"],
        "limits.csv": ["run,from,to,limit,back"],
    }
    for run in range(1, quarters + 1):
        offers, links = day.draw_quarter(run)
        found["bids.csv"] += [",".join(map(str, offer)) for offer in offers]
        found["links.csv"] += map(",".join, links)
        found["runs.csv"].append(f"{run},{run},scheduled,{euro(round(day.level * 100))}")
        found["limits.csv"] += [f"{run},{a},{b},{day.draw_limit((a, b))},{day.draw_limit((a, b))}" for a, b in day.borders]
        found["demands.csv"] += [f"{run},{zone},{mw},{price}" for zone, mw, price in day.draw_demands()]
    return found


def write(folder, found):
    """Writes market files."""
    path = pathlib.Path(folder)
    path.mkdir(parents=True, exist_ok=True)
    for name, lines in found.items():
        (path / name).write_text("\n".join(lines) + "\n")


def printed(program, word, folder, nodes):
    """What a program prints of a folder's day, and how many seconds it takes."""
    began = time.monotonic()
    done = subprocess.run([program, word, folder, "--nodes", str(nodes)], stdout=subprocess.PIPE, check=False)
    if done.returncode not in (0, 1):
        raise SystemExit(f"real: {program} ends with {done.returncode} on {folder}: {done.stdout[:200]!r}")
    return done.stdout.decode(), time.monotonic() - began


def gaps(text):
    """The gap of each run that has one, as a part of its welfare. A welfare is printed in quarter-cents."""
    found = re.findall(r"^run .* within (\d+)\.(\d{4})\nwelfare (\d+)$", text, re.M)
    return [(int(whole) * 10_000 + int(part)) / 25 / max(1, int(welfare)) for whole, part, welfare in found]


def firsts(text):
    """The welfare of each run of which the first activation is shown."""
    return dict(re.findall(r"^run (\d+) .* first\nwelfare (\d+)$", text, re.M))


def solved(solver, folder, seconds, known):
    """The processor seconds in which a solver ends the only run of a folder, or nothing where it doesn't, or ends below the optimum."""
    words = [PYTHON, TOP / "bench/milp.py", solver, folder, "--seconds", str(seconds), "--times"]
    text = subprocess.run(words, stdout=subprocess.PIPE, check=True).stdout.decode()
    found = re.search(r"^run 1 welfare (\d+) seconds ([\d.]+)$", text, re.M)
    if not found:
        return None
    own, first = int(found[1]), int(known.get("1", found[1]))
    if own > first:
        raise SystemExit(f"real: {solver} has {own} of {folder}, and the first activation {first}")
    return float(found[2]) if own == first else None


def cleared(program, folder, seconds, *options):
    """The processor seconds in which a program ends the only run of a folder, or nothing where it doesn't, and its text."""
    text = pathlib.Path(folder) / "text"
    spent = clock.run_once([program, "clear", folder, "--nodes", "50000", *options], str(text))
    return spent.processor if spent.status == 0 and spent.processor <= seconds else None, text.read_text()


def beside(share, asked):
    """A row of the table of one run a folder: what each program and solver ends, and in which time."""
    spent = {name: {} for name in ("reach", "clear", *asked.solvers)}
    with tempfile.TemporaryDirectory() as room:
        for seed in range(1, asked.seeds + 1):
            folder = f"{room}/{seed}"
            write(folder, pages(seed, share, 1))
            spent["reach"][seed], text = cleared(asked.reach, folder, asked.seconds)
            spent["clear"][seed], _ = cleared(asked.mari, folder, asked.seconds, "--workers", "1")
            for solver in asked.solvers:
                spent[solver][seed] = solved(solver, folder, asked.seconds, firsts(text))
    own, cells = spent.pop("reach"), []
    for times in spent.values():
        ended = {seed: took for seed, took in times.items() if took is not None}
        less = sum(own[seed] is not None and own[seed] < took for seed, took in ended.items())
        cells += [str(len(ended)), f"{sum(ended.values()):.1f}", str(less)]
    ended = [took for took in own.values() if took is not None]
    return f"| {share} % | {asked.seeds} | {len(ended)} | {sum(ended):.1f} | " + " | ".join(cells) + " |"


def measure(share, asked):
    """A row of the table."""
    runs, published, split, first, far, items, times = 0, 0, 0, 0, [], 0, [0.0, 0.0]
    with tempfile.TemporaryDirectory() as room:
        for seed in range(1, asked.seeds + 1):
            folder = f"{room}/{seed}"
            write(folder, pages(seed, share, asked.quarters))
            own, seconds = printed(asked.mari, "clear", folder, asked.nodes)
            other, more = printed(asked.reach, "clear", folder, asked.nodes)
            split += len(re.findall(r"^run .* published$", printed(asked.mari, "split", folder, asked.nodes)[0], re.M))
            times = [times[0] + seconds, times[1] + more]
            runs += asked.quarters
            published += len(re.findall(r"^run .* published$", own, re.M))
            first += len(re.findall(r"^run .* first$", other, re.M))
            items += sum(map(int, re.findall(r"^tree (\d+)$", other, re.M)))
            far += gaps(other)
    gap = f"{statistics.median(far):.5%}, {max(far):.5%}" if far else ""
    shares = f"{published / runs:.0%} | {split / runs:.0%} | {times[0]:.1f} | {first / runs:.0%}"
    return f"| {share} % | {runs} | {shares} | {gap} | {items / runs:.0f} | {times[1]:.1f} |"


def main():
    words = argparse.ArgumentParser(description=__doc__, formatter_class=argparse.RawDescriptionHelpFormatter)
    words.add_argument("--seeds", type=int, default=4)
    words.add_argument("--quarters", type=int, default=12)
    words.add_argument("--nodes", type=int, default=10_000)
    words.add_argument("--shares", default="5,15,30,60")
    words.add_argument("mari", nargs="?", default=str(TOP / "release/mari"))
    words.add_argument("--reach", default=str(TOP / "release/mari_reach"))
    words.add_argument("--solvers", type=lambda text: text.split(","), default=[])
    words.add_argument("--seconds", type=int, default=15)
    words.add_argument("--folder")
    words.add_argument("--seed", type=int, default=1)
    words.add_argument("--share", type=int, default=30)
    asked = words.parse_args()
    if asked.folder:
        write(asked.folder, pages(asked.seed, asked.share, asked.quarters))
        return
    if asked.solvers:
        heads = "".join(f" {name} ends | s | `reach` faster |" for name in ("`clear`", *asked.solvers))
        print("| indivisible | runs | `reach` ends | s |" + heads)
    else:
        print("| indivisible | runs | `clear` publishes | `split` | `clear`, s | `reach` first | gap: median, greatest | items a run | `reach`, s |")
    print("|---" * (7 + 3 * len(asked.solvers) if asked.solvers else 9) + "|")
    for share in map(int, asked.shares.split(",")):
        print((beside if asked.solvers else measure)(share, asked), flush=True)


if __name__ == "__main__":
    main()
