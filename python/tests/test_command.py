"""`python -m mari`, lint, and frames where pandas is there."""

import csv
import tempfile
import unittest
from decimal import Decimal
from pathlib import Path

import mari
from mari import Bid, Border, Demand, Folder, Limit, Link, Run, Zone
from mari.lint import findings

from tests.program import needs_program, said

try:
    import pandas as pd
except ImportError:
    pd = None

EXAMPLES = Path(__file__).resolve().parents[2] / "examples"


@needs_program
class TestUnserved(unittest.TestCase):
    def test_what_counts(self):
        """An elastic demand above its price isn't unserved; those at any price are, of either sign."""
        folder = Folder("2025-03-12", "UTC0", [Zone("A", "T"), Zone("B", "T")])
        folder.bids = [Bid("u", "P", "A", 1, "up", Decimal(50), 0, 10)]
        folder.bids.append(Bid("d", "P", "B", 1, "down", Decimal(20), 0, 5))
        folder.runs = [Run(1, 1, "scheduled", Decimal(30))]
        folder.demands = [Demand(1, "A", 12), Demand(1, "A", 8, Decimal(40))]
        folder.demands += [Demand(1, "B", -9), Demand(1, "B", -4, Decimal(30))]
        day = mari.clear(folder)
        found = [(row.asked, row.met, row.unserved) for row in day.demands()]
        self.assertEqual(found, [(12, 10, 2), (8, 0, 0), (-9, 5, 4), (-4, 0, 0)])
        folder.demands[0] = folder.demands[0]._replace(price=Decimal(99_999))
        self.assertEqual([row.unserved for row in mari.clear(folder).demands()], [2, 0, 4, 0])
        self.assertEqual(len(day.unserved()), 2)
        self.assertIn("UNSERVED at the cap: 6 MW of 2 inelastic demands (sum over runs):", day.summary())


@needs_program
class TestCommand(unittest.TestCase):
    def at(self, example):
        scratch = tempfile.TemporaryDirectory()
        self.addCleanup(scratch.cleanup)
        Folder.read(EXAMPLES / example).write(scratch.name)
        return scratch.name

    def test_summary(self):
        code, out, _ = said("summary", self.at("paradox-bid"))
        self.assertEqual(code, 1)
        self.assertIn("UNSERVED at the cap: 10 MW of 1 inelastic demands", out)
        self.assertEqual(said("summary", self.at("two-zones"))[0], 0)

    def test_explain(self):
        folder = self.at("paradox-bid")
        code, out, _ = said("explain", folder)
        self.assertEqual(code, 0)
        self.assertIn("UNSERVED in zone Z: 10 of 50 MW", out)
        self.assertIn("i1: rejected in the money", out)
        self.assertNotIn("p1", out)
        self.assertIn("and 1 more, activated", out)
        self.assertIn("p1: activated: 40 MW at 99999.00", said("explain", folder, "p1")[1])
        self.assertEqual(said("explain", folder, "p9")[0], 2)

    def test_explain_of_a_provider(self):
        """Only its bids, and unserved demand of their quarter hours alone."""
        folder = self.at("direct-run")
        bids = Path(folder, "bids.csv")
        bids.write_text(bids.read_text() + "later,Far,Z,2,up,20.00,0,5,both\n")
        lines = said("explain", folder, "Far")[1].splitlines()
        self.assertEqual(lines, ["quarter 2 (00:15): later: no run: its quarter hour has no run in runs.csv"])
        self.assertIn("UNSERVED in zone Z: 20 of 50 MW", said("explain", folder)[1])

    def test_nodes_and_a_stale_publication(self):
        folder = self.at("paradox-bid")
        self.assertEqual(said("summary", folder, "--nodes", "0")[0], 2)
        code, out, _ = said("summary", folder, "--nodes", "2")
        self.assertEqual(code, 1)
        self.assertIn("NOT PUBLISHED: runs 1", out)
        self.assertIn("run not published", said("explain", folder)[1])
        self.assertIn("1 of 1 runs published", said("summary", folder, "--nodes", "3")[1])
        runs = Path(folder, "runs.csv")
        runs.write_text(runs.read_text().replace("scheduled", "direct"))
        code, _, err = said("summary", folder)
        self.assertEqual(code, 7)
        self.assertIn("clear the folder again", err)

    def test_csv(self):
        with tempfile.TemporaryDirectory() as out:
            self.assertEqual(said("csv", self.at("two-zones"), out)[0], 0)
            with Path(out, "prices.csv").open(newline="") as file:
                rows = list(csv.DictReader(file))
        self.assertEqual([row["price"] for row in rows], ["20.00", "60.00"])
        self.assertEqual(rows[0]["time"], "2025-03-12T00:00+01:00")

    def test_refused(self):
        folder = self.at("two-zones")
        demands = Path(folder, "demands.csv")
        demands.write_text("run,zone,mw,price\n1,b,80,\n")
        code, _, err = said("summary", folder)
        self.assertEqual(code, 3)
        self.assertIn("demands.csv line 2, field zone: 'b' isn't a zone of zones.csv: write B", err)
        code, out, _ = said("lint", folder)
        self.assertEqual(code, 1)
        self.assertIn("refused: 'b' isn't a zone", out)
        self.assertEqual(said("summary", str(Path(folder, "nothere")))[0], 8)


class TestLint(unittest.TestCase):
    def test_findings(self):
        bids = [Bid(f"b{at}", "P", "A", 1, "up", Decimal(20 + at), 0, 10) for at in range(9)]
        bids.append(Bid("far", "P", "A", 1, "up", Decimal(6000), 0, 10))
        bids.append(Bid("lone", "P", "A", 9, "up", Decimal(20), 0, 10))
        folder = Folder(
            "2025-03-12",
            zones=[Zone("A", "T"), Zone("B", "T"), Zone("C", "T")],
            borders=[Border("A", "B")],
            bids=bids,
            links=[Link("group", "g", "b1")],
            runs=[Run(1, 1, "scheduled", Decimal(20)), Run(2, 2, "scheduled", Decimal(20))],
            demands=[Demand(1, "A", 5)],
            limits=[Limit(1, "A", "B", 5, 5)],
        )
        folder.check()
        found = {(one.file, one.line) for one in findings(folder)}
        wanted = {("bids.csv", 11), ("bids.csv", 12), ("runs.csv", 3), ("borders.csv", 2), ("links.csv", 2)}
        wanted |= {("zones.csv", 3), ("zones.csv", 4)}
        self.assertEqual(found, wanted)

    def test_forms(self):
        with tempfile.TemporaryDirectory() as scratch:
            Folder.read(EXAMPLES / "two-zones").write(scratch)
            self.assertEqual(mari.lint(scratch), [])
            zones = Path(scratch, "zones.csv")
            zones.write_bytes(b"\xef\xbb\xbf" + zones.read_bytes())
            self.assertIn("byte order mark", mari.lint(scratch)[0].text)
            zones.write_bytes(zones.read_bytes().replace(b",", b";"))
            self.assertIn("semicolons", str(mari.lint(scratch)[-1]))


@unittest.skipIf(pd is None, "pandas isn't installed")
class TestFrames(unittest.TestCase):
    def test_there_and_back(self):
        for path in sorted(EXAMPLES.glob("*/day.csv")):
            with self.subTest(example=path.parent.name):
                folder = Folder.read(path.parent)
                self.assertEqual(Folder.from_frames(folder.date, folder.frames(), folder.rule), folder)

    def test_floats_and_empty_prices(self):
        frames = {
            "zones": pd.DataFrame({"zone": ["A"], "operator": ["T"]}),
            "runs": pd.DataFrame({"run": [1], "quarter": [1.0], "kind": "scheduled", "reference": [40.1]}),
            "demands": pd.DataFrame({"run": [1, 1], "zone": "A", "mw": [5.0, -5.0], "price": [float("nan"), 12.5]}),
        }
        folder = Folder.from_frames("2025-03-12", frames)
        folder.check()
        self.assertEqual([demand.price for demand in folder.demands], [None, Decimal("12.50")])
        frames["zones"] = pd.DataFrame({"zone": ["A", None], "operator": "T"})
        with self.assertRaises(mari.MariRefused) as empty:
            Folder.from_frames("2025-03-12", frames)
        self.assertEqual((empty.exception.file, empty.exception.line, empty.exception.field), ("zones.csv", 3, "zone"))
        del frames["zones"]
        frames["demands"].loc[1, "mw"] = 5.5
        with self.assertRaises(mari.MariRefused) as caught:
            Folder.from_frames("2025-03-12", frames)
        self.assertEqual((caught.exception.line, caught.exception.field, caught.exception.value), (3, "mw", "5.5"))

    @needs_program
    def test_day(self):
        frames = mari.clear(Folder.read(EXAMPLES / "eight-zones")).frames()
        prices = frames["prices"]
        self.assertEqual(prices["price"].dtype, float)
        self.assertEqual(len(prices), 8)
        self.assertEqual(str(prices["time"].dt.tz), "UTC")

    @needs_program
    def test_a_day_of_year_0(self):
        folder = Folder.read(EXAMPLES / "two-zones")
        folder.date = "0000-01-01"
        prices = mari.clear(folder).frames()["prices"]
        self.assertEqual(list(prices["local"]), ["0000-01-01T00:00+01:00"] * 2)
        self.assertTrue(prices["time"].isna().all())


if __name__ == "__main__":
    unittest.main()
