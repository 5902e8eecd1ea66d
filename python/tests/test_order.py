"""Another order of bids.csv: the same market, with smaller trees."""

import random
import tempfile
import unittest
from decimal import Decimal
from pathlib import Path

from mari import Bid, Demand, Folder, Link, Run, Zone, ordered

from tests.days import random_folder
from tests.program import PROGRAM, needs_program, said


def hard_market(chance):
    """A run whose gates' prices lie amid the margin: 40 gated bids of one zone, in groups of two."""
    folder = Folder("2025-03-12", "UTC0", [Zone("A", "T")], runs=[Run(1, 1, "scheduled", Decimal(50))])
    for at in range(40):
        greatest = chance.randint(5, 25)
        price = Decimal(chance.randint(3000, 7000)) / 100
        folder.bids.append(Bid(f"b{at}", "P", "A", 1, "up", price, greatest, greatest))
        folder.links.append(Link("group", f"g{at // 2}", f"b{at}"))
    folder.demands = [Demand(1, "A", 200), Demand(1, "A", 40, Decimal(55))]
    return folder


@needs_program
class TestOrder(unittest.TestCase):
    def test_the_same_market(self):
        """The same rows, plain bids where they were, and where both are published the first run's welfare."""
        chance = random.Random(11)
        for _ in range(40):
            folder = random_folder(chance)
            made = ordered(folder, PROGRAM)
            made.check()
            self.assertEqual(sorted(made.bids), sorted(folder.bids))
            self.assertEqual(made.changed(bids=folder.bids), folder)
            gates = {bid.id for bid in folder.bids if bid.least} | {link.first for link in folder.links}
            gates |= {link.second for link in folder.links}
            plain = [place for place, bid in enumerate(folder.bids) if bid.id not in gates]
            self.assertEqual([made.bids[place] for place in plain], [folder.bids[place] for place in plain])
            old, new = (PROGRAM.clear(one, nodes=50_000).blocks[0] for one in (folder, made))
            self.assertTrue(old.published and new.published)
            self.assertEqual(old.welfare, new.welfare)

    def test_the_order(self):
        """At the relaxed price 20.00 `half` runs 10 of its 20 MW, and two of a group run: they come before the rest."""
        offers = {"near": ("25", 5), "far": ("90", 5), "half": ("20", 20), "one": ("5", 4), "two": ("6", 4)}
        folder = Folder("2025-03-12", "UTC0", [Zone("A", "T")], runs=[Run(1, 1, "scheduled", Decimal(50))])
        for name, (price, mw) in offers.items():
            folder.bids.append(Bid(name, "P", "A", 1, "up", Decimal(price), mw, mw))
        folder.links = [Link("group", "g", "one"), Link("group", "g", "two")]
        folder.demands = [Demand(1, "A", 18)]
        self.assertEqual([bid.id for bid in ordered(folder, PROGRAM).bids], ["one", "two", "half", "far", "near"])

    def test_trees_are_smaller(self):
        chance, sizes = random.Random(4), [0, 0]
        for _ in range(6):
            folder = hard_market(chance)
            for place, one in enumerate((folder, ordered(folder, PROGRAM))):
                block = PROGRAM.clear(one, nodes=5000, workers=1).blocks[0]
                sizes[place] += len(block.tree) if block.published else 5000
        self.assertLess(2 * sizes[1], sizes[0])

    def test_the_command_keeps_what_is_published(self):
        with tempfile.TemporaryDirectory() as scratch:
            old, new = Path(scratch, "old"), Path(scratch, "new")
            hard_market(random.Random(1)).write(old)
            self.assertEqual(said("order", str(old), str(old))[0], 2)
            code, out, _ = said("order", str(old), str(new))
            self.assertEqual(code, 0)
            self.assertIn("Among equal optima the order of bids.csv decides", out)
            PROGRAM.clear(new)
            self.assertEqual(said("order", str(old), str(new))[0], 2)


if __name__ == "__main__":
    unittest.main()
