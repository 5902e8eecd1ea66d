"""A day as great as days may be: market files and a publication that have the form of a day's.

Nothing is cleared: prices, flows and quantities are drawn at random, and the trees are any trees over the gated bids.
"""
import os
import random

QUARTERS = 96
BRANCH = "branch"


def price(cents):
    return f"{cents // 100}.{cents % 100:02d}"


def tree_of(draw, gates, most, zones):
    """Items in preorder of a tree of at most `most` nodes, no deeper than there are gates."""
    items, waiting, left = [], [0], most - 1
    while waiting:
        depth = waiting.pop()
        if depth < gates and left >= 2 and (draw.random() < 0.55 or left > most // 2):
            items.append(BRANCH)
            waiting += [depth + 1, depth + 1]
            left -= 2
        else:
            items.append(" ".join(["bound", *[price(draw.randrange(2000, 12000))] * zones]))
    return items


def borders_of(zones):
    """A grid with its diagonals, as a list of at most 256."""
    side = max(1, round(zones ** 0.5))
    found = []
    for a in range(zones):
        for b in (a + 1, a + side, a + side + 1, a + side - 1):
            near = abs(a % side - b % side) <= 1
            if b < zones and near and (a, b) not in found:
                found.append((a, b))
    return found[:256]


class Great:
    def __init__(self, folder, runs, zones, bids):
        self.draw = random.Random(3)
        self.folder, self.runs, self.count = folder, runs, bids
        self.zones = [f"Z{at:02d}" for at in range(1, zones + 1)]
        self.borders = borders_of(zones)
        self.providers = [f"Provider-{at}" for at in range(1, 201)]
        os.makedirs(folder, exist_ok=True)

    def write(self, name, lines):
        with open(os.path.join(self.folder, name), "w", encoding="ascii") as page:
            page.writelines(line + "\n" for line in lines)

    def quarter_of(self, run):
        return (run - 1) * QUARTERS // max(self.runs, QUARTERS) + 1

    def kind_of(self, run):
        first = run == 1 or self.quarter_of(run - 1) != self.quarter_of(run)
        return "scheduled" if first else "direct"

    def files(self):
        zones = self.zones
        self.write("day.csv", ["date,rule", "2026-11-27,CET-1"])
        self.write("zones.csv", ["zone,operator", *(f"{z},TSO-{z}" for z in zones)])
        self.write("borders.csv", ["from,to,limit,back",
                                   *(f"{zones[a]},{zones[b]},90000,90000" for a, b in self.borders)])
        self.write("links.csv", ["kind,first,second"])
        self.write("runs.csv", ["run,quarter,kind,reference", *(
            f"{run},{self.quarter_of(run)},{self.kind_of(run)},60.00"
            for run in range(1, self.runs + 1))])
        self.write("demands.csv", ["run,zone,mw,price", *(
            f"{run},{zone},{self.draw.randrange(-30, 60)}," for run in range(1, self.runs + 1)
            for zone in zones[::2])])
        self.write("bids.csv", ["id,provider,zone,quarter,direction,price,least,greatest,kind",
                                *self.bids()])

    def bids(self):
        draw = self.draw
        for quarter in range(1, self.quarter_of(self.runs) + 1):
            for at in range(self.count):
                up = draw.random() < 0.6
                least = 9999 if at % 80 == 0 else 0
                yield (f"q{quarter}-{at},{draw.choice(self.providers)},{draw.choice(self.zones)},"
                       f"{quarter},{'up' if up else 'down'},{draw.randrange(20, 160)}."
                       f"{draw.randrange(10, 100)},{least},9999,both")

    def prices(self, run):
        middle = 7000 + 3000 * ((run * 7 % 200) / 200 - 0.5)
        areas = [self.draw.gauss(middle, 900) for _ in range(6)]
        side = max(1, round(len(self.zones) ** 0.5))
        return [round(areas[(at % side) // 3 + 3 * (at // side // 4)]) for at in
                range(len(self.zones))]

    def block(self, run):
        draw, quarter = self.draw, self.quarter_of(run)
        prices = self.prices(run)
        areas = {price: at for at, price in reversed(list(enumerate(prices, start=1)))}
        most = 50_000 if run == 7 else draw.choice([1, 1, 9, 31, 90, 2000])
        tree = tree_of(draw, (self.count + 79) // 80, most, 1)
        yield f"run {run} {quarter} {self.kind_of(run)} published"
        yield f"welfare {draw.randrange(10 ** 12)}"
        for zone, cents in zip(self.zones, prices):
            yield f"zone {zone} {price(cents)} {price(cents)} {price(cents)} {areas[cents]}"
        for a, b in self.borders:
            yield f"border {self.zones[a]} {self.zones[b]} {draw.randrange(-300, 301)} {draw.randrange(10 ** 6)}.0000"
        for at in range(self.count):
            mw = draw.randrange(9) if at % 3 == 0 and at % 80 else 0
            yield f"bid q{quarter}-{at} {mw}"
        for at in range(len(self.zones[::2])):
            yield f"demand {at + 1} {draw.randrange(0, 30)}"
        yield f"tree {len(tree)}"
        yield from tree
        yield from self.ledger("")
        yield f"end {run}"

    def ledger(self, prefix):
        for zone in self.zones:
            yield f"{prefix}operator TSO-{zone} 0.0100 0.0025 0.0075"
        for name in self.providers:
            yield f"{prefix}provider {name} {self.draw.randrange(10 ** 7)}.0000"

    def publication(self):
        yield f"mari 1 2026-11-27 {QUARTERS} 50000"
        without = [run for run in range(1, self.runs + 1) if run % 97 == 5]
        for run in range(1, self.runs + 1):
            if run in without:
                yield f"run {run} {self.quarter_of(run)} {self.kind_of(run)} unpublished 50000"
            else:
                yield from self.block(run)
        yield from self.ledger("total-")
        yield f"done {self.runs - len(without)} {len(without)}"


def make(folder, runs=1000, zones=64, bids=4096):
    """Writes the market files and the publication into a folder."""
    day = Great(folder, runs, zones, bids)
    day.files()
    day.write("publication.txt", day.publication())
