"""Random folders for the tests, and ways to damage their files."""

import itertools
import random
from decimal import Decimal

from mari import Bid, Border, Demand, Folder, Limit, Link, Run, Zone

RULES = ["UTC0", "CET-1CEST,M3.5.0,M10.5.0/3", "EET-2EEST,M3.5.0/3,M10.5.0/4", "<-03>3", "AEST-10AEDT,M10.1.0,M4.1.0/3"]
DATES = ["2025-03-12", "2025-03-30", "2025-10-26", "2024-02-29", "2025-12-31"]
RUNS = [["scheduled"], ["direct"], ["scheduled", "direct"], ["scheduled", "direct", "direct"]]


def random_folder(chance: random.Random) -> Folder:
    """A small accepted folder with gates, groups, parents, links, direct runs and limits of either form."""
    names = ["North", "South", "East", "West"][: chance.randint(1, 4)]
    folder = Folder(chance.choice(DATES), chance.choice(RULES))
    folder.zones = [Zone(name, f"T{chance.randint(1, 3)}") for name in names]
    pairs = [pair for pair in itertools.combinations(names, 2) if chance.random() < 0.7]
    folder.borders = [Border(a, b, chance.randint(0, 25), chance.randint(0, 25)) for a, b in pairs]
    for quarter in range(1, chance.randint(2, 5)):
        folder.bids += [_bid(chance, f"b{quarter}-{at}", quarter, names) for at in range(chance.randint(1, 9))]
        for kind in chance.choice(RUNS):
            folder.runs.append(Run(len(folder.runs) + 1, quarter, kind, Decimal(chance.randint(-5, 90))))
            folder.demands += [_demand(chance, len(folder.runs), names) for _ in range(chance.randint(0, 4))]
    chance.shuffle(folder.bids)
    folder.links = _links(chance, folder.bids)
    if chance.random() < 0.4:
        every = itertools.product(folder.runs, pairs)
        stated = [(run.run, *pair) for run, pair in every if chance.random() < 0.8]
        folder.limits = [Limit(*one, chance.randint(0, 25), chance.randint(0, 25)) for one in stated]
        folder.borders = [Border(*pair) for pair in pairs]
    return folder


def _bid(chance, name, quarter, zones):
    greatest = chance.randint(1, 30)
    return Bid(
        name,
        f"P{chance.randint(1, 3)}",
        chance.choice(zones),
        quarter,
        chance.choice(["up", "up", "down"]),
        Decimal(chance.randint(-1000, 12000)) / 100,
        chance.choice([0, 0, 0, 1, greatest, chance.randint(1, greatest)]),
        greatest,
        chance.choice(["both", "both", "scheduled"]),
    )


def _demand(chance, run, zones):
    price = Decimal(chance.randint(1, 130)) if chance.random() < 0.4 else None
    return Demand(run, chance.choice(zones), chance.randint(-20, 40), price)


def _links(chance, bids):
    """Links that are accepted, drawn from all pairs of bids."""
    links, kinds = [], {1: ["needs", "bars", "technical"], 2: ["needs", "bars"]}
    for place, bid in enumerate(bids):
        earlier = [other for other in bids[:place] if other.quarter == bid.quarter]
        if earlier and chance.random() < 0.25:
            links.append(Link("child", bid.id, chance.choice(earlier).id))
        if chance.random() < 0.3:
            links.append(Link("group", f"{chance.choice('gh')}{bid.quarter}", bid.id))
        for other in bids:
            kind = chance.choice(kinds.get(bid.quarter - other.quarter, [""]))
            if kind and chance.random() < 0.12:
                links.append(Link(kind, bid.id, other.id))
    chance.shuffle(links)
    return links


MARKS = [b"", b" ", b",", b";", b"\t", b'"', b'""', b"\r", b"\n", b"\r\n", b"\0", b"\xff", b"\xc3\xa9", b"\xef\xbb\xbf"]

NUMBERS = "- -0 +1 007 0 1 2 97 9999 10000 99999 100000 11111111111111111111111 -99999999999999999999 120.0 1.234 1e3"
PRICES = "60,00 1,300.00 .5 5. 99999.00 99999.01 -99999.01 12.5_MW 24:00 \u22125 50 -0.05"
WORDS = "both scheduled direct Both up Up down group child needs bars technical North South north b1-0 b1-1 b2-0 g1"
DAYS = "2025-02-29 2025-3-12 0000-01-01 9999-12-31 9999-12-30 Europe/Oslo UTC AAA0BBB-0:10,M3.5.0,M10.5.0"
CLOCKS = "AAA-1BBB,J60,300/-2:30 CET-1CEST,M3.5.0,M10.5.0/3 <+05>-5:30<+06>,59,J365/167"

FIELDS = [text.replace("_", " ").encode() for text in f"{NUMBERS} {PRICES} {WORDS} {DAYS} {CLOCKS}".split(" ")]
FIELDS += [b"x" * 17, *MARKS]


def damaged(chance: random.Random, page: bytes) -> bytes:
    """A page with a field, a line or some bytes changed."""
    lines = page.split(b"\n")
    at, other = chance.randrange(len(lines)), chance.randrange(len(lines))
    way = chance.choice(["field", "field", "field", "bytes", "bytes", "double", "lose", "exchange"])
    if way == "bytes":
        place = chance.randrange(len(page) + 1)
        return page[:place] + chance.choice(FIELDS) + page[place + chance.choice([0, 0, 1, 3]) :]
    if way == "double":
        lines.insert(other, lines[at])
    elif way == "lose":
        del lines[at]
    elif way == "exchange":
        lines[at], lines[other] = lines[other], lines[at]
    else:
        fields = lines[at].split(b",")
        field = chance.choice(FIELDS)
        quoted = b'"' + field + b'"' if b"," in field and chance.random() < 0.8 else field
        fields[chance.randrange(len(fields))] = quoted
        lines[at] = b",".join(fields)
    return b"\n".join(lines)
