#!/usr/bin/env python3
"""Times of `mari blocks` on joint markets at the limits, beside `mari clear` of one run of that size.

usage: python3 bench/joint.py [PROGRAM [NODES]]

PROGRAM is the built program, by default crates/mari_app/out/mari_app, and NODES the budget, by default 10,000. A folder
has 16 zones, 64 borders and four quarters with 1,024 bids each: together 64 zones, 256 borders, 4,096 bids, 512 gates
and 512 demands. It is measured

- without blocks, with 512 gated bids; beside it the same market as the one run of a folder of 64 zones;
- the same where all but four gated bids of each quarter are too dear to run, so that the search ends within NODES;
- with 64 blocks of four bids, one of each quarter, and 448 gated bids in none.

For each it prints the items of the tree, the processor seconds within one node, which are those of reading the folder and
making the market, and those within NODES, by one worker, and peak memory; and whether both forms of a market come to
the same welfare and bids, where both are published. It is no test: nothing fails where a machine is slow or busy. It
ends with 1 where two forms differ, or aren't both published.
"""

import os
import pathlib
import re
import subprocess
import sys
import tempfile

import clock
import folders

TOP = pathlib.Path(__file__).resolve().parent.parent
QUARTERS = 4
ZONES, BORDERS, BIDS, DEMANDS = 16, 64, 1024, 128
# of eight gates of `folders.market` these are in no group, and neither child nor parent
FREE = (0, 5, 6, 7)


def quarters(gates):
    """The pages of a folder of four quarters, with this number of gated bids in each."""
    return folders.market(ZONES, BORDERS, BIDS, gates, demands=DEMANDS, runs=QUARTERS)


def as_one_run(pages):
    """The same market as one run: a zone for each zone and quarter, and a border likewise."""
    whole = folders.empty_pages()
    for quarter in range(1, QUARTERS + 1):
        whole["zones.csv"] += [(f"Q{quarter}{zone}", operator) for zone, operator in pages["zones.csv"]]
        whole["borders.csv"] += [(f"Q{quarter}{a}", f"Q{quarter}{b}", *limits) for a, b, *limits in pages["borders.csv"]]
    whole["bids.csv"] = [(name, provider, f"Q{quarter}{zone}", 1, *rest) for name, provider, zone, quarter, *rest in pages["bids.csv"]]
    whole["links.csv"] = pages["links.csv"]
    whole["runs.csv"] = [(1, 1, *pages["runs.csv"][0][2:])]
    whole["demands.csv"] = [(1, f"Q{run}{zone}", *rest) for run, zone, *rest in pages["demands.csv"]]
    return whole


def with_dear_gates(pages, kept):
    """The same where each quarter's gated bids but the first ones are too dear to run."""
    seen = {quarter: 0 for quarter in range(1, QUARTERS + 1)}
    bids = []
    for name, provider, zone, quarter, direction, price, least, *rest in pages["bids.csv"]:
        seen[quarter] += least > 0
        if least > 0 and seen[quarter] > kept:
            price = "900.00" if direction == "up" else "-900.00"
        bids.append((name, provider, zone, quarter, direction, price, least, *rest))
    return pages | {"bids.csv": bids}


def blocks_of(pages, count):
    """`count` blocks of a gated bid of each quarter that is in no group, and neither child nor parent."""
    gated = {quarter: [] for quarter in range(1, QUARTERS + 1)}
    for name, _, _, quarter, _, _, least, _, _ in pages["bids.csv"]:
        if least > 0:
            gated[quarter].append(name)
    free = [[name for place, name in enumerate(names) if place % 8 in FREE] for names in gated.values()]
    return [(f"k{block}", names[block]) for block in range(count) for names in free]


def write(folder, pages, blocks=()):
    """Writes the pages, and the page of blocks."""
    folders.write(folder, pages)
    lines = ["block,bid"] + [",".join(record) for record in blocks]
    pathlib.Path(folder, "blocks.csv").write_text("\n".join(lines) + "\n", encoding="ascii")
    return folder


def printed(words):
    """What the program prints by these words."""
    return subprocess.run(words, stdout=subprocess.PIPE, stdin=subprocess.DEVNULL, check=False).stdout.decode()


def measure(name, program, words, nodes):
    """Prints the row of a call, and gives what it prints."""
    command = [program, *words, "--workers", "1", "--nodes"]
    made, whole = (clock.least_of(5, [*command, str(budget)], statuses=(0, 1)) for budget in (1, nodes))
    text = printed([*command, str(nodes)])
    items = next(iter(re.findall(r"^tree (\d+)$", text, re.M)), "unpublished")
    print(f"| {name} | {items} | {made.processor:.3f} | {whole.processor:.2f} | {whole.memory:.0f} |", flush=True)
    return text


def both_forms(name, program, pages, nodes, room):
    """Prints the rows of four quarters and of the same market as one run, and gives the welfare and bids of each."""
    joint, one = write(f"{room}/joint", pages), write(f"{room}/one", as_one_run(pages))
    texts = [
        measure(name, program, ["blocks", joint, "1", str(QUARTERS)], nodes),
        measure("the same as one run", program, ["clear", one], nodes),
    ]
    return [re.findall(r"^(?:welfare|bid) .*$", text, re.M) for text in texts]


def main():
    program = os.path.abspath(sys.argv[1]) if len(sys.argv) > 1 else str(TOP / "crates/mari_app/out/mari_app")
    nodes = int(sys.argv[2]) if len(sys.argv) > 2 else 10_000
    print(clock.machine(), "\n")
    print(f"| market | items of the tree | within one node, processor s | within {nodes:,} nodes | MB |")
    print("|---|---|---|---|---|")
    with tempfile.TemporaryDirectory() as room:
        both_forms("four quarter hours, 512 gated bids", program, quarters(128), nodes, room)
        few = with_dear_gates(quarters(128), 4)
        first, second = both_forms("four quarter hours, 16 of 512 gated bids near the margin", program, few, nodes, room)
        tied = quarters(176)
        blocks = write(f"{room}/blocks", tied, blocks_of(tied, 64))
        measure("four quarter hours, 64 blocks of four and 448 gated bids", program, ["blocks", blocks, "1", str(QUARTERS)], nodes)
    is_right = first and first == second
    print("\nwelfare and bids of both forms", "agree" if is_right else "differ, or one isn't published")
    return 0 if is_right else 1


if __name__ == "__main__":
    sys.exit(main())
