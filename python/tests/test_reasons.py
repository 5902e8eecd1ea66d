"""Reasons agree with what is printed: who is offered, who runs, what is paid, and what the certificate shows."""

import os
import random
import tempfile
import unittest
from collections import Counter, defaultdict
from decimal import Decimal
from pathlib import Path

import mari
import mari.availability
from mari import Bid, Day, Folder, Link, MariOtherFolder, Program, Run, State, Zone

from tests.days import random_folder
from tests.program import PROGRAM, needs_program

COUNT = int(os.environ.get("MARI_DAYS", "60"))
EXAMPLES = Path(__file__).resolve().parents[2] / "examples"


class Agreement(unittest.TestCase):
    """Compares the reasons of a day with its publication."""

    def compare(self, day):
        by_run = defaultdict(list)
        for why in day.reasons():
            by_run[why.run].append(why)
        bids = {bid.id: bid for bid in day.folder.bids}
        for run, block in zip(day.folder.runs, day.publication.blocks):
            found = by_run.pop(run.run, [])
            of_quarter = [bid.id for bid in day.folder.bids if bid.quarter == run.quarter]
            self.assertEqual([why.bid for why in found], of_quarter)
            offered = [why for why in found if why.state is not State.WITHHELD]
            if not block.published:
                self.assertEqual({why.state for why in offered} - {State.NOT_PUBLISHED}, set())
                continue
            self.assertEqual([(why.bid, why.mw) for why in offered], [tuple(row) for row in block.bids])
            self.compare_prices(block, offered, bids)
            self.compare_money(block, found, bids)
        for why in by_run.pop(0, []):
            self.assertIs(why.state, State.NO_RUN)
        self.assertEqual(by_run, {})

    def compare_prices(self, block, offered, bids):
        """The states are those that consistent prices allow: a plain bid in the money runs whole."""
        linked = mari.availability.Offers(self.day.folder).gated
        for why in offered:
            bid = bids[why.bid]
            self.assertEqual(why.margin, (block.price(bid.zone) - bid.price) * bid.sign)
            if why.state is State.ACTIVATED:
                self.assertGreaterEqual(why.margin, 0)
                if why.mw < why.left:
                    self.assertEqual(why.margin, 0)
            elif why.state is State.REJECTED:
                self.assertGreater(why.margin, 0)
                self.assertIn(why.bid, linked)
                self.assertIn(why.rule, ("group", "parent", "indivisible"))
                if why.rule == "indivisible":
                    self.assertRegex(why.text, "[Tt]he certificate")
            else:
                self.assertLessEqual(why.margin, 0)

    def compare_money(self, block, found, bids):
        pay = defaultdict(Decimal)
        for why in found:
            pay[bids[why.bid].provider] += why.pay
        for provider, amount in block.providers:
            self.assertEqual(pay.pop(provider), amount)
        self.assertEqual({provider for provider, amount in pay.items() if amount}, set())


@needs_program
class TestReasons(Agreement):
    def test_random_days(self):
        chance, states = random.Random(99), Counter()
        for number in range(COUNT):
            folder = random_folder(chance)
            nodes = chance.choice([None, None, None, 1, 3])
            with self.subTest(number=number), tempfile.TemporaryDirectory() as scratch:
                folder.write(scratch)
                publication = PROGRAM.clear(scratch, nodes=nodes, workers=1)
                self.day = Day(Folder.read(scratch), publication)
                self.compare(self.day)
                self.assertEqual(Day.read(scratch).publication, publication)
                for why in self.day.reasons():
                    leaf = why.text.rpartition("certificate's ")[2].rstrip(")") if "certificate's" in why.text else ""
                    states[(why.state.value, why.rule, leaf)] += 1
        for state in (State.ACTIVATED, State.OUT_OF_THE_MONEY, State.REJECTED, State.WITHHELD):
            self.assertTrue(any(found[0] == state.value for found in states), state)
        if os.environ.get("MARI_DAYS"):
            for found, count in sorted(states.items()):
                print(count, *found)

    def test_examples(self):
        for path in sorted(EXAMPLES.glob("*/day.csv")):
            with self.subTest(example=path.parent.name):
                folder = Folder.read(path.parent)
                folder.blocks = None
                self.day = Day(folder, PROGRAM.clear(folder))
                self.compare(self.day)

    def test_paradox_bid_is_a_conflict(self):
        day = mari.clear(Folder.read(EXAMPLES / "paradox-bid"))
        why = next(why for why in day.reasons() if why.bid == "i1")
        self.assertEqual((why.state, why.margin), (State.REJECTED, Decimal("99979.00")))
        self.assertIn("conflict", why.text)
        [row] = day.unserved()
        self.assertEqual((row.unserved, row.asked), (10, 50))
        self.assertTrue(any(line.startswith("UNSERVED at the cap: 10 MW") for line in day.summary()))

    def test_a_publication_that_is_not_consistent(self):
        """Reasons are given of a text that `check` would find invalid too."""
        day = Day.read(EXAMPLES / "two-zones")
        day.publication.blocks[0].bids = [mari.Activation("a1", 0), mari.Activation("b1", 0)]
        zones = day.publication.blocks[0].zones
        day.publication.blocks[0].zones = [row._replace(price=Decimal(99)) for row in zones]
        self.assertEqual([why.rule for why in day.reasons()], ["none", "none"])

    def test_links_of_a_day(self):
        day = mari.clear(Folder.read(EXAMPLES / "linked-day"))
        rules = {(why.bid, why.rule, why.by) for why in day.reasons() if why.state is State.WITHHELD}
        self.assertIn(("w", "technical", ("y",)), rules)
        self.assertIn(("z", "bars", ("y",)), rules)

    def test_a_long_chain_of_parents(self):
        """512 bids, each the child of the one before; the first is for scheduled runs alone, and the run is direct."""
        kinds = ["scheduled"] + ["both"] * 511
        bids = [Bid(f"b{at}", "P", "A", 1, "up", Decimal(20), 0, 9, kind) for at, kind in enumerate(kinds)]
        links = [Link("child", f"b{at}", f"b{at - 1}") for at in range(1, 512)]
        run = Run(1, 1, "direct", Decimal(20))
        day = mari.clear(Folder("2025-03-12", "UTC0", [Zone("A", "T")], bids=bids, links=links, runs=[run]))
        found = [*day.reasons()]
        self.assertEqual([why.rule for why in found], ["kind"] + ["parent"] * 511)
        text = "it is for scheduled runs alone, and this run is direct"
        self.assertEqual(found[511].text, f"its parent b510 isn't offered, since b0 above it isn't: {text}")

    def test_another_folder(self):
        day = mari.clear(Folder.read(EXAMPLES / "two-zones"))
        with self.assertRaises(MariOtherFolder):
            Day(Folder.read(EXAMPLES / "linked-day"), day.publication)
        day.folder.bids[0] = day.folder.bids[0]._replace(id="a2")
        with self.assertRaises(MariOtherFolder):
            list(day.reasons())


@needs_program
class TestProgram(unittest.TestCase):
    def test_calls(self):
        program = Program()
        with tempfile.TemporaryDirectory() as scratch:
            folder = Folder.read(EXAMPLES / "two-zones")
            folder.write(scratch)
            with self.assertRaises(mari.MariMissing):
                program.check(scratch)
            program.clear(scratch)
            self.assertEqual(program.check(scratch), (1, 0))
            self.assertEqual([sorted(line) for line in program.feed(scratch)][0], ["budget", "date", "quarters"])
            [worth] = program.value(scratch, 40)
            self.assertEqual((worth.gain, worth.rise), (Decimal("300.0000"), Decimal("400.0000")))
            text = Path(scratch, "publication.txt")
            text.write_text(text.read_text().replace("bid a1 50", "bid a1 51"))
            with self.assertRaises(mari.MariInvalid) as caught:
                program.check(scratch)
            self.assertEqual((caught.exception.run, caught.exception.name), (1, "Infeasible"))
            text.write_text(text.read_text().replace("bid a1 51", "bid a1 051"))
            with self.assertRaises(mari.MariText) as bad:
                program.check(scratch)
            self.assertEqual(bad.exception.line, 7)
            for wrong in ({"nodes": 0}, {"nodes": 60_000}, {"workers": 17}):
                self.assertRaisesRegex(mari.MariRange, next(iter(wrong)), program.clear, scratch, **wrong)
            with self.assertRaises(mari.MariEnded) as ended:
                program.migrate(scratch, "zones")
            self.assertEqual(ended.exception.exit_code, 2)

    def test_ended_by_a_signal(self):
        with tempfile.TemporaryDirectory() as scratch:
            killed = Path(scratch, "killed")
            killed.write_text("#!/bin/sh\necho bid q9b19\nkill -9 $$\n")
            killed.chmod(0o755)
            with self.assertRaises(mari.MariEnded) as ended:
                Program(killed).clear(scratch)
        self.assertEqual(str(ended.exception), "ended by signal 9")

    def test_blocks_and_split(self):
        program = Program()
        joint = program.blocks(EXAMPLES / "thermal-plant", 1, 4)
        self.assertTrue(joint.published)
        self.assertEqual([quarter.quarter for quarter in joint.quarters], [1, 2, 3, 4])
        self.assertEqual({item.kind for item in joint.tree} - {"branch", "bound", "cut", "conflict"}, set())
        [block] = program.split(EXAMPLES / "two-islands")
        whole = program.clear(EXAMPLES / "two-islands", save=False).block(1)
        self.assertEqual((block.welfare, block.bids), (whole.welfare, whole.bids))
        self.assertEqual([island.zones for island in block.islands], [["A"], ["B"]])
        self.assertEqual(sum(island.welfare for island in block.islands), block.welfare)

    def test_refused_blocks(self):
        folder = Folder.read(EXAMPLES / "thermal-plant")
        with tempfile.TemporaryDirectory() as scratch:
            folder.write(scratch)
            with self.assertRaises(mari.MariRefused) as caught:
                Program().blocks(scratch, 1, 3)
        error = caught.exception
        self.assertEqual((error.check, error.field, error.value), ("Quarter", "bid", "s4"))

    def test_checks_of_blocks_alone(self):
        folder = Folder.read(EXAMPLES / "thermal-plant")
        with self.assertRaises(mari.MariRefused) as caught:
            Program().blocks(folder, 1, 5)
        error = caught.exception
        self.assertEqual((error.check, error.field, error.value), ("NoScheduled", "quarter", "5"))
        self.assertIn("has no scheduled run", str(caught.exception))


if __name__ == "__main__":
    unittest.main()
