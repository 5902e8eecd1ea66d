"""Days of the second form: their text, the program that prints it, and what is said of them."""

import csv
import os
import random
import subprocess
import sys
import tempfile
import unittest
from decimal import Decimal
from pathlib import Path
from unittest import mock

import mari
from mari import Day, Folder, Item, MariText, Program, Publication, Reach, State
from mari.certificate import Decision, reach_leaves
from mari.units import quarter_cents

from tests.days import random_folder
from tests.program import CHECKER, REACH, needs_reach, said
from tests.test_reasons import Agreement

sys.path.append(str(CHECKER))

from lines import refusal_of  # noqa: E402

EXAMPLES = CHECKER.parent

TEXT = """\
mari 2 2025-03-12 96 10
run 1 1 scheduled first
welfare 399956000
zone Z 99999.00 99999.00 99999.00 1
bid p1 40
bid i1 0
demand 1 40
tree 3
branch i1
bound 99999.00
cut out 1
operator T 0.0000 0.0000 0.0000
provider P 999990.0000
end 1
run 2 1 direct within 12.5025
welfare 0
zone Z 20.00 -99999.00 99999.00 1
tree 3
price Z -5.00
none
bound 20.00
operator T 0.0000 0.0000 0.0000
end 2
total-operator T 0.0000 0.0000 0.0000
total-provider P 999990.0000
done 1 1
"""
"""The first run is the example of docs/REACH.md; the second is one that no market has."""

DAMAGE = {
    1: ["mari 3 2025-03-12 96 10", "mari 1 2025-03-12 96 10"],
    2: ["run 1 1 scheduled published", "run 1 1 scheduled first 0.0000", "run 1 1 scheduled unpublished 3"],
    6: ["bid i1"],
    8: ["tree 2", "tree 4", "tree 0", "tree -1"],
    9: ["branch", "branch i1 i1", "branch i.1", "branch "],
    10: ["bound 99999.0", "conflict 1", "none 1", "leaf"],
    15: ["run 2 1 direct within", "run 2 1 direct within 1.0000 x"],
    19: ["price Z", "price z.1 5.00", "price Z 5.00 x"],
    20: ["none ", "none 1", "nothing"],
    23: ["end 1"],
    26: ["done 2 0", "done 2 1", "done 1"],
}
DAMAGE[15] += [f"run 2 1 direct within {gap}" for gap in "-0.0025 0.0001 0 10000000000000000.0025".split()]
DAMAGE[19] += [f"price Z {price}" for price in "1.5 99999.01 -99999.50 100000.00 -0.00".split()]


class TestText(unittest.TestCase):
    def test_what_it_says(self):
        day = Publication.of_text(TEXT)
        self.assertEqual((day.form, day.budget, day.unpublished, day.within), (2, 10, [], [2]))
        first, second = day.blocks
        self.assertEqual((first.published, first.first, first.gap), (True, True, None))
        self.assertEqual((second.published, second.first, second.gap), (True, False, Decimal("12.5025")))
        self.assertEqual(quarter_cents(second.gap), 5001)
        self.assertEqual([item.kind for item in first.tree], ["branch", "bound", "cut"])
        branch, bound, cut = first.tree
        self.assertEqual((branch.bid, bound.prices, cut.zones), ("i1", [Decimal("99999.00")], [1]))
        price, none, _ = second.tree
        self.assertEqual((price.zone, price.price, none), ("Z", Decimal("-5.00"), Item("none")))
        self.assertEqual((price.bid, none.price), ("", None))
        self.assertEqual([item.is_leaf for item in second.tree], [False, True, True])

    def test_leaves(self):
        """Closed first, then open; at most the price first, then above it."""
        i1 = [Decision("i1", "", None, side) for side in (False, True)]
        first, second = (block.tree for block in Publication.of_text(TEXT).blocks)
        self.assertEqual([leaf.decisions for leaf in reach_leaves(first)], [(i1[0],), (i1[1],)])
        self.assertEqual([leaf.may_open("i1") for leaf in reach_leaves(first)], [False, True])
        below, above = reach_leaves([second[0], first[0], first[1], first[2], second[1]])[1:]
        price = [Decision("", "Z", Decimal("-5.00"), side) for side in (False, True)]
        self.assertEqual((below.decisions, above.decisions), ((price[0], i1[1]), (price[1],)))
        self.assertIsNone(reach_leaves(first[:2]))
        self.assertIsNone(reach_leaves([*first, first[1]]))

    def refused(self, text):
        """The line at which a text is refused by this package and by examples/checker."""
        with self.assertRaises(MariText) as caught:
            Publication.of_text(text)
        self.assertEqual(str(caught.exception.line), refusal_of(text).split(" ")[0], caught.exception)

    def test_damage_is_refused_at_its_line(self):
        self.assertIsNone(refusal_of(TEXT))
        lines = TEXT.splitlines(keepends=True)
        for line, changes in DAMAGE.items():
            for changed in changes:
                with self.subTest(line=line, changed=changed):
                    self.refused("".join([*lines[: line - 1], changed + "\n", *lines[line:]]))
        for place in range(len(lines)):
            with self.subTest(cut=place):
                self.refused("".join(lines[:place]))
                self.refused("".join(lines[: place + 1])[:-1])
        self.refused(TEXT + "none\n")

    def test_no_form_has_the_lines_of_the_other(self):
        old = (EXAMPLES / "two-zones" / "publication.txt").read_text()
        self.refused(old.replace("mari 1", "mari 2"))
        self.refused(old.replace("published", "first"))
        self.refused(old.replace("tree 1\nbound 20.00 60.00", "tree 1\nnone"))


class TestFinding(unittest.TestCase):
    def test_the_environment_names_each_program(self):
        with mock.patch.dict(os.environ, {"MARI": "/one/mari", "REACH": "/other/reach"}):
            self.assertEqual((Program().path, Reach().path), (Path("/one/mari"), Path("/other/reach")))


@needs_reach
class TestReach(Agreement):
    def test_random_days(self):
        """The answer of examples/checker counts what is read, and the reasons are those of the text."""
        chance, kinds, gaps = random.Random(12), set(), 0
        for number in range(12):
            folder = random_folder(chance)
            with self.subTest(number=number), tempfile.TemporaryDirectory() as scratch:
                folder.write(scratch)
                publication = REACH.clear(scratch, nodes=chance.choice([1, 3, 10_000]))
                words = [sys.executable, str(CHECKER / "check.py"), scratch]
                answer = subprocess.run(words, capture_output=True, text=True, check=False).stdout
                first = sum(block.first for block in publication.blocks)
                self.assertEqual(answer, f"valid {first} {len(publication.within)}\n")
                self.assertEqual(REACH.check(scratch), (first, len(publication.within)))
                self.day = Day.read(scratch)
                self.assertEqual(self.day.publication, publication)
                self.compare(self.day)
            kinds |= {item.kind for block in publication.blocks for item in block.tree}
            gaps += len(publication.within)
        self.assertLessEqual({"branch", "bound"}, kinds)
        self.assertGreater(gaps, 0)

    def test_faults(self):
        with tempfile.TemporaryDirectory() as scratch:
            Folder.read(EXAMPLES / "paradox-bid").write(scratch)
            self.assertRaises(mari.MariRange, REACH.clear, scratch, nodes=0)
            REACH.clear(scratch)
            text = Path(scratch, "publication.txt")
            made = text.read_text()
            self.assertEqual(mari.form_of(scratch), 2)
            for old, new, kind, number in (
                ("scheduled first", "scheduled within 0.0000", mari.MariText, 17),
                ("branch i1", "branch p1", mari.MariInvalid, 9),
                ("cut out 1", "cut in 1", mari.MariInvalid, 10),
                ("branch i1", "branch", mari.MariText, 9),
            ):
                text.write_text(made.replace(old, new))
                with self.subTest(new=new), self.assertRaises(kind) as caught:
                    REACH.check(scratch)
                self.assertEqual(getattr(caught.exception, "fault", None) or caught.exception.line, number)

    def test_reasons(self):
        folder = Folder.read(EXAMPLES / "paradox-bid")
        for nodes, words in (
            (None, "The certificate rules out every choice with it: its leaves show no balance (1)."),
            (1, "The certificate shows that no choice with it is better by more than 249947.5000 euro."),
        ):
            day = mari.reach(folder, nodes=nodes)
            [why] = [why for why in day.reasons() if why.state is State.REJECTED]
            self.assertTrue(why.text.endswith(f"but it runs 20 MW at least or not at all. {words}"), why.text)

    def test_command(self):
        with tempfile.TemporaryDirectory() as scratch:
            Folder.read(EXAMPLES / "paradox-bid").write(scratch)
            code, out, _ = said("summary", scratch, "--reach", "--nodes", "2")
            self.assertEqual(code, 1)
            self.assertIn("WITHIN A GAP of the best: runs 1: at most 249947.5000 euro each, 249947.5000 in all", out)
            self.assertIn("UNSERVED at the cap: 10 MW", out)
            self.assertIn("i1: rejected in the money", said("explain", scratch)[1])
            self.assertEqual(said("csv", scratch, scratch)[0], 0)
            with Path(scratch, "runs.csv").open(newline="") as file:
                [row] = csv.DictReader(file)
        self.assertEqual((row["published"], row["gap"]), ("True", "249947.5000"))

    def test_the_form_of_a_folder(self):
        """A text of the first form becomes one of the second where that is asked for, and that stays one."""
        with tempfile.TemporaryDirectory() as scratch:
            Folder.read(EXAMPLES / "two-zones").write(scratch)
            Path(scratch, "publication.txt").write_bytes((EXAMPLES / "two-zones" / "publication.txt").read_bytes())
            self.assertIn("1 of 1 runs published", said("summary", scratch)[1])
            for words in (["--reach"], [], ["--nodes", "50"]):
                self.assertIn("1 of 1 runs have the first activation", said("summary", scratch, *words)[1])
            self.assertEqual((mari.form_of(scratch), Publication.read(scratch).budget), (2, 50))


if __name__ == "__main__":
    unittest.main()
