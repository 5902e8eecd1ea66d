#!/usr/bin/env python3
"""Instructions that the test of a tree takes for each leaf, in both forms, by valgrind.

usage: python3 bench/leaves.py [MARI] [REACH]

MARI and REACH are the built programs, by default the shipped ones. Of the first form it counts what `mari check` tests the
tree with: the walk through it, and the table of the market by which it reads dual values. Of the second form it counts the
test that `reach clear` does of each tree before it prints it (`mari_reach::trees::check_tree`), which makes its tables too.
A count is the same for the same program and folder, whatever else the machine does. It is no test: nothing fails where a
count is high.

Both forms publish each market, with a tree of some hundred leaves or more. The ratio is what the second form's test takes,
to what the first form's takes on as many leaves: its table once, and its walk for each of them.
"""

import argparse
import os
import shutil
import tempfile

import counts
import field
import folders

LEAVES = ("none", "bound", "cut", "conflict")
LARGE = field.GATED_30
SHAPES = {
    "300 bids, 80 gates": field.GATED_30 | {"bids": 300, "gates": 80, "load": 30, "seed": 65},
    "600 bids, 80 gates": field.GATED_30 | {"bids": 600, "gates": 80, "size": 10, "load": 0, "seed": 377},
    "1,000 bids, 120 gates": field.GATED_30 | {"bids": 1000, "gates": 120, "size": 10, "seed": 255},
    "2,000 bids, 40 gates": field.GATED_30 | {"gates": 40, "seed": 5},
    "2,000 bids, 80 gates": field.GATED_30 | {"gates": 80, "seed": 592},
    "2,000 bids, 100 gates": field.GATED_30 | {"gates": 100, "load": 0, "seed": 628},
}


def leaves_of(text):
    """How many leaves a publication has."""
    return sum(line.split(" ", 1)[0] in LEAVES for line in text.splitlines())


def first(counter, folder):
    """The leaves of the first form, what the walk through them takes, and the table before."""
    _, text, _ = counter.clear(folder)
    with open(os.path.join(folder, "publication.txt"), "w", encoding="ascii") as out:
        out.write(text)
    _, _, profile = counter.count([counter.mari, "check", folder])
    walk, table = (counter.of_function(profile, f"mari_proofs::{name}")[0] for name in ("trees::walk", "table::DualTable::of"))
    return leaves_of(text), walk, table


def second(counter, reach, folder):
    """The leaves of the second form, and what their test takes."""
    _, text, profile = counter.count([reach, "clear", folder])
    return leaves_of(text), counter.of_function(profile, "mari_reach::trees::check_tree")[0]


def table(counter, reach):
    print(field.header("the test of a tree, 30 zones", "leaves of the first form", "instructions of a leaf", "of its table", "leaves of the second form", "instructions a leaf", "ratio"))
    for name, shape in SHAPES.items():
        folder = counter.folder(folders.market(**shape))
        leaves, walk, made = first(counter, folder)
        more, taken = second(counter, reach, folder)
        ratio = taken / (made + walk / leaves * more)
        print(field.row(name, f"{leaves:,}", f"{walk / leaves:,.0f}", f"{made:,}", more, f"{taken / more:,.0f}", f"{ratio:.2f}"), flush=True)


def main():
    release = field.HERE.parent / "release"
    parser = argparse.ArgumentParser(description=__doc__, formatter_class=argparse.RawDescriptionHelpFormatter)
    parser.add_argument("mari", nargs="?", default=str(release / "mari"))
    parser.add_argument("reach", nargs="?", default=str(release / "mari_reach"))
    words = parser.parse_args()
    scratch = tempfile.mkdtemp()
    try:
        table(counts.Counter(scratch, words.mari), words.reach)
    finally:
        shutil.rmtree(scratch)


if __name__ == "__main__":
    main()
