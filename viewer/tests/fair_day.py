"""Writes the market files of an invented, believable day: `fair_day.py FOLDER [QUARTERS]`.

Sixteen zones, a scheduled run for each quarter hour and direct runs after some of them. Zones have the names of real
ones, and everything else is drawn at random.
"""
import math
import os
import random
import sys

ZONES = {"DE-50H": "50Hertz", "DE-AMP": "Amprion", "DE-TTG": "TenneT-DE", "DE-TNG": "TransnetBW",
         "AT": "APG", "BE": "Elia", "CH": "Swissgrid", "CZ": "CEPS", "ES": "REE", "FR": "RTE",
         "HU": "MAVIR", "NL": "TenneT-NL", "PL": "PSE", "PT": "REN", "SI": "ELES", "SK": "SEPS"}
BORDERS = [("DE-50H", "DE-AMP", 140), ("DE-50H", "DE-TTG", 160), ("DE-AMP", "DE-TTG", 180),
           ("DE-AMP", "DE-TNG", 180), ("DE-TTG", "DE-TNG", 90), ("DE-TTG", "AT", 60),
           ("DE-TNG", "AT", 40), ("DE-TNG", "CH", 50), ("DE-TNG", "FR", 45), ("DE-AMP", "FR", 50),
           ("DE-AMP", "NL", 70), ("DE-TTG", "NL", 40), ("DE-AMP", "BE", 35), ("BE", "NL", 45),
           ("BE", "FR", 50), ("FR", "CH", 60), ("FR", "ES", 55), ("ES", "PT", 80),
           ("CH", "AT", 40), ("AT", "CZ", 35), ("AT", "HU", 30), ("AT", "SI", 40),
           ("CZ", "DE-50H", 40), ("CZ", "DE-TTG", 40), ("CZ", "SK", 60), ("CZ", "PL", 35),
           ("PL", "DE-50H", 40), ("PL", "SK", 30), ("SK", "HU", 60), ("SI", "HU", 25)]
LEVEL = {"ES": -14, "PT": -12, "FR": -8, "PL": 12, "HU": 15, "SI": 9, "CH": 6, "NL": 3}
PROVIDERS = ["Aare-Hydro", "Alpenkraft", "Biogas-Nord", "Cascade-CCGT", "Donau-Speicher",
             "E-Fleet", "Flexwerk", "Gasturbine-9", "Heatpool", "Iberflex", "Kavernen-KW",
             "Loire-STEP", "Moldau-PSP", "Nordwind", "Odra-Power", "Papierwerk", "Rhein-Alu",
             "Solarpool", "Stahl-DSM", "Tatra-Hydro"]


def level(quarter):
    """EUR/MWh over the day: a morning and an evening peak, a valley of sun."""
    hour = quarter / 4
    return (62 + 34 * math.exp(-((hour - 8) / 1.8) ** 2) + 58 * math.exp(-((hour - 19) / 2) ** 2)
            - 44 * math.exp(-((hour - 13) / 2.4) ** 2))


def bids_of(draw, quarter):
    rows, number = [], 0
    for zone in ZONES:
        middle = level(quarter) + LEVEL.get(zone, 0)
        for _ in range(draw.randint(8, 12)):
            number += 1
            up = draw.random() < 0.6
            price = middle + (draw.gammavariate(2, 17) - 6 if up else -draw.gammavariate(2, 15))
            greatest = draw.choice([5, 8, 10, 10, 12, 15, 20, 20, 25, 30, 40])
            x = draw.random()
            least = greatest if x < 0.06 else greatest // 2 if x < 0.09 else 0
            rows.append([f"q{quarter}-{zone}-{number}", draw.choice(PROVIDERS), zone, quarter,
                         "up" if up else "down", f"{price:.2f}", least, greatest,
                         "both" if draw.random() < 0.7 else "scheduled"])
    draw.shuffle(rows)
    return rows


def links_of(draw, rows, earlier):
    links, plain = [], [row for row in rows if row[6] == 0]
    for number in range(2):
        pair = draw.sample(plain, 2)
        same = draw.choice([row for row in rows if row[6] > 0] or plain)
        members = {row[0]: row for row in pair[:1] + [same]}
        links += [f"group,g{rows[0][3]}-{number},{name}" for name in members
                  if not any(line.endswith("," + name) for line in links)]
    first, second = sorted(draw.sample(range(len(rows)), 2))
    links.append(f"child,{rows[second][0]},{rows[first][0]}")
    for kind in ("needs", "bars", "technical"):
        if earlier:
            links.append(f"{kind},{draw.choice(plain)[0]},{draw.choice(earlier)[0]}")
    return links


def demands_of(draw, run, quarter, state, share):
    rows = []
    for zone in ZONES:
        state[zone] = 0.8 * state.get(zone, 0) + draw.gauss(0, 13)
        mw = round(share * (state[zone] + 9 * math.sin(quarter / 11)))
        if mw:
            priced = draw.random() < 0.15
            price = f"{level(quarter) + (90 if mw > 0 else -90):.2f}" if priced else ""
            rows.append(f"{run},{zone},{mw},{price}")
    return rows


def write(folder, name, head, rows):
    with open(os.path.join(folder, name), "w", encoding="ascii") as page:
        page.write("".join(f"{row}\n" for row in [head, *rows]))


def make(folder, quarters=96, seed=7):
    draw, state = random.Random(seed), {}
    bids, links, runs, demands, earlier = [], [], [], [], []
    for quarter in range(1, quarters + 1):
        rows = bids_of(draw, quarter)
        links += links_of(draw, rows, earlier)
        bids += rows
        earlier = rows
        direct = 0 if draw.random() < 0.72 else draw.choice([1, 1, 2])
        for place in range(1 + direct):
            kind = "direct" if place else "scheduled"
            runs.append(f"{len(runs) + 1},{quarter},{kind},{level(quarter):.2f}")
            demands += demands_of(draw, len(runs), quarter, state, 0.35 if place else 1)
    os.makedirs(folder, exist_ok=True)
    write(folder, "day.csv", "date,rule", ['2026-11-27,"CET-1CEST,M3.5.0,M10.5.0/3"'])
    write(folder, "zones.csv", "zone,operator", [f"{a},{b}" for a, b in ZONES.items()])
    write(folder, "borders.csv", "from,to,limit,back",
          [f"{a},{b},{mw // 3},{max(5, mw // 3 - 4)}" for a, b, mw in BORDERS])
    write(folder, "bids.csv", "id,provider,zone,quarter,direction,price,least,greatest,kind",
          [",".join(map(str, row)) for row in bids])
    write(folder, "links.csv", "kind,first,second", sorted(set(links), key=links.index))
    write(folder, "runs.csv", "run,quarter,kind,reference", runs)
    write(folder, "demands.csv", "run,zone,mw,price", demands)


if __name__ == "__main__":
    make(sys.argv[1], int(sys.argv[2]) if len(sys.argv) > 2 else 96)
