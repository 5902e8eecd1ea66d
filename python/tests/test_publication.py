"""The printed text of a day, read into rows."""

import json
import random
import tempfile
import unittest
from decimal import Decimal
from pathlib import Path

from mari import Day, Item, MariText, Publication, iter_blocks
from mari.publication import read_split
from mari.units import cents, energy_money, euros, price_of, quarter_cents

from tests.days import random_folder
from tests.program import PROGRAM, needs_program

EXAMPLES = Path(__file__).resolve().parents[2] / "examples"
TEXT = (EXAMPLES / "two-zones" / "publication.txt").read_text()


FOUND_AT = {10: 12}
"""Where a fault is found that isn't found in its own line: the tree of line 10 lacks its second item in line 12."""


def feed_item(item):
    """An item of a certificate as the feed has it."""
    prices = [cents(price) for price in item.prices]
    if item.kind == "cut":
        return {"cut": item.zones, "side": item.side}
    if item.kind == "conflict":
        return {"at": prices, "conflict": item.zones, "flows": item.flows, "mws": item.mws}
    return {"bound": prices} if item.kind == "bound" else item.kind


class TestPublication(unittest.TestCase):
    def test_two_zones(self):
        day = Publication.read(EXAMPLES / "two-zones")
        self.assertEqual((day.date, day.quarters, day.budget, day.unpublished), ("2025-03-12", 96, 10000, []))
        block = day.block(1)
        self.assertEqual(block.welfare, Decimal("1999280.0000"))
        self.assertEqual(block.zones[1], ("B", Decimal("60.00"), Decimal("60.00"), Decimal("60.00"), 2))
        self.assertEqual(block.borders, [("A", "B", 50, Decimal("500.0000"))])
        self.assertEqual(block.bids, [("a1", 50), ("b1", 30)])
        self.assertEqual((block.demands, block.tree), ([80], [Item("bound", ("20.00 60.00",))]))
        self.assertEqual(block.providers, day.providers)
        self.assertEqual(list(iter_blocks(TEXT.splitlines(keepends=True))), day.blocks)

    def test_an_island_that_was_given_up(self):
        lines = ["split 1 2025-03-12 96 10\n", "run 1 2 direct unpublished 3 7\n", "done 0 1\n"]
        [block] = read_split(lines)
        self.assertEqual((block.quarter, block.kind, block.island, block.nodes), (2, "direct", 3, 7))

    def test_unserved_and_times(self):
        [row] = Day.read(EXAMPLES / "two-zones").demands()
        found = (row.time, row.asked, row.met, row.price, row.unserved)
        self.assertEqual(found, ("00:00", 80, 80, Decimal("60.00"), 0))

    def test_faults(self):
        lines = TEXT.splitlines(keepends=True)
        damage = {6: "border A B 50 500.0001\n", 12: "operator TA -250.0000 250.0000 -0500.0000\n"}
        damage |= {4: "zone A 20.00 20.00 20\n", 7: "bid a1 050\n", 16: "end 2\n"}
        damage |= {11: "bound 20.00  60.00\n", 5: "zone B -0.00 -0.00 -0.00 2\n", 10: "tree 2\n"}
        for line, changed in damage.items():
            with self.subTest(line=line):
                text = "".join([*lines[: line - 1], changed, *lines[line:]])
                with self.assertRaises(MariText) as caught:
                    Publication.of_text(text)
                self.assertEqual(caught.exception.line, FOUND_AT.get(line, line))
        for text in ("", TEXT[:-1], "".join(lines[:-1]), TEXT + "done 1 0\n", TEXT.replace("done 1 0", "done 2 0")):
            self.assertRaises(MariText, Publication.of_text, text)

    @needs_program
    def test_numbers_are_those_of_the_feed(self):
        chance = random.Random(3)
        for _ in range(25):
            with tempfile.TemporaryDirectory() as scratch:
                random_folder(chance).write(scratch)
                day = PROGRAM.clear(scratch, nodes=chance.choice([1, 200]))
                _, *blocks, totals = PROGRAM.feed(scratch)
            self.assertEqual(json.loads(json.dumps(blocks)), blocks)
            for block, wanted in zip(day.blocks, blocks, strict=True):
                heading = (block.run, block.quarter, block.kind)
                self.assertEqual(heading, (wanted["run"], wanted["quarter"], wanted["kind"]))
                self.assertEqual(block.nodes, wanted.get("nodes"))
                if not block.published:
                    continue
                self.assertEqual(quarter_cents(block.welfare), wanted["welfare"])
                keys = ("price", "least", "greatest")
                for zone, found in zip(block.zones, wanted["zones"], strict=True):
                    self.assertEqual([cents(getattr(zone, key)) for key in keys], [found[key] for key in keys])
                bids = [{"id": row.bid, "mw": row.mw} for row in block.bids]
                self.assertEqual(bids, wanted["bids"])
                self.assertEqual(block.demands, wanted["demands"])
                self.assertEqual([feed_item(item) for item in block.tree], wanted["tree"])
                flows = [(row.from_zone, row.to_zone, row.mw, quarter_cents(row.rent)) for row in block.borders]
                keys = ("from", "to", "flow", "rent")
                self.assertEqual(flows, [tuple(row[key] for key in keys) for row in wanted["borders"]])
            money = [(row.provider, quarter_cents(row.amount)) for row in day.providers]
            self.assertEqual(money, [(row["name"], row["amount"]) for row in totals["providers"]])


class TestUnits(unittest.TestCase):
    def test_prices(self):
        self.assertEqual(price_of(20.1), Decimal("20.10"))
        self.assertEqual(str(price_of("-0.0")), "0.00")
        for bad in (20.125, "20.001", float("nan"), "inf"):
            self.assertRaises((ValueError, ArithmeticError), price_of, bad)

    def test_money(self):
        self.assertEqual(euros(1), Decimal("0.0025"))
        self.assertEqual(quarter_cents(euros(4 * 10**18)), 4 * 10**18)
        self.assertEqual(energy_money(Decimal("0.01"), 1), Decimal("0.0025"))


if __name__ == "__main__":
    unittest.main()
