"""The package refuses what the program refuses: the same file, line and check, and it names the field."""

import itertools
import os
import random
import tempfile
import unittest
from decimal import Decimal
from pathlib import Path

from mari import (
    Bid,
    Block,
    Border,
    Demand,
    Folder,
    Link,
    MariMissing,
    MariRefused,
    Run,
    Zone,
    problems,
)
from mari.checks import CHECKS
from mari.joint import joint_problems

from tests.days import damaged, random_folder
from tests.program import PROGRAM, needs_program

LATER_FILES = {"limits.csv", "blocks.csv", "positions.csv"}
OF_NO_FIELD = {"BadHeader", "BadRow", "NoZone", "NotOneRecord", "TooManyGates"}
COUNT = int(os.environ.get("MARI_DAMAGED", "300"))


BASE = {
    "day.csv": b"date,rule\n2025-03-12,UTC0\n",
    "zones.csv": b"zone,operator\nA,TA\nB,TB\n",
    "borders.csv": b"from,to,limit,back\nA,B,50,50\n",
    "bids.csv": b"id,provider,zone,quarter,direction,price,least,greatest,kind\n"
    b"a,P,A,1,up,20,0,9,both\nb,P,A,1,up,20,0,9,both\nc,P,A,2,up,20,0,9,both\nd,P,A,5,up,20,0,9,both\n"
    b"t,P,A,3,up,20,0,9,both\n",
    "links.csv": b"kind,first,second\nchild,b,a\ngroup,g,c\nneeds,c,a\n",
    "runs.csv": b"run,quarter,kind,reference\n1,1,scheduled,40.00\n",
    "demands.csv": b"run,zone,mw,price\n",
}

EACH = [
    ("zones.csv", "".join(f"Z{at},T\n" for at in range(63)), "zone"),
    ("zones.csv", "C,T U\n", "operator"),
    ("zones.csv", "A,T\n", "zone"),
    ("zones.csv", "C,T,\n", ""),
    ("borders.csv", "A,C,1,1\n", "to"),
    ("borders.csv", "C,A,1,1\n", "from"),
    ("borders.csv", "A,A,1,1\n", "to"),
    ("borders.csv", "B,A,x,1\n", "from"),
    ("bids.csv", "e,P,A,1,up,20,0,9,direct\n", "kind"),
    ("bids.csv", f"{'e' * 17},P,A,1,up,20,0,9,both\n", "id"),
    ("bids.csv", "a,P,C,99,up,20,0,0,both\n", "id"),
    ("bids.csv", "e,P,C,99,up,20,0,0,both\n", "zone"),
    ("bids.csv", "e,P,A,97,up,20,0,0,both\n", "quarter"),
    ("bids.csv", "e,P,A,96,up,99999.01,0,9,both\n", "price"),
    ("bids.csv", "e,P,A,96,up,-99999.01,0,9,both\n", "price"),
    ("bids.csv", "e,P,A,96,up,20,10000,9,both\n", "least"),
    ("bids.csv", "e,P,A,96,up,20,-1,9,both\n", "least"),
    ("bids.csv", "e,P,A,96,up,20,10000,10000,both\n", "greatest"),
    ("bids.csv", "e,P,A,96,up,20,10,9,both\n", "least"),
    ("bids.csv", "".join(f"x{at},P,A,1,up,20,0,9,both\n" for at in range(4095)), "quarter"),
    ("links.csv", "Child,b,a\n", "kind"),
    ("links.csv", "group,,nobody\n", "first"),
    ("links.csv", "group,h,nobody\n", "second"),
    ("links.csv", "bars,nobody,a\n", "first"),
    ("links.csv", "group,g,a\n", "second"),
    ("links.csv", "child,c,a\n", "second"),
    ("links.csv", "needs,d,c\n", "second"),
    ("links.csv", "technical,d,c\n", "second"),
    ("links.csv", "technical,t,a\n", "second"),
    ("links.csv", "child,a,b\n", "second"),
    ("links.csv", "child,d,d\n", "second"),
    ("links.csv", "group,h,c\n", "second"),
    ("links.csv", "child,b,a\n", "first"),
    ("links.csv", "bars,c,a\nneeds,c,a\n", "first"),
    ("bids.csv", "".join(f"x{at},P,A,1,up,20,1,9,both\n" for at in range(511)), ""),
    ("runs.csv", "2,1,Direct,40\n", "kind"),
    ("runs.csv", "3,2,scheduled,40\n", "run"),
    ("runs.csv", "2,0,scheduled,40\n", "quarter"),
    ("runs.csv", f"2,{'9' * 40},scheduled,40\n", "quarter"),
    ("runs.csv", "2,1,scheduled,40\n", "kind"),
    ("runs.csv", "2,97,direct,40\n", "quarter"),
    ("runs.csv", "2,1,direct,100000\n", "reference"),
    ("runs.csv", "".join(f"{at},1,direct,40\n" for at in range(2, 1002)), "run"),
    ("demands.csv", "1,A,80.5,\n", "mw"),
    ("demands.csv", "1,A,80, \n", "price"),
    ("demands.csv", "2,C,80,\n", "run"),
    ("demands.csv", "1,C,100000,\n", "zone"),
    ("demands.csv", "1,A,100000,\n", "mw"),
    ("demands.csv", "1,A,1,100000\n", "price"),
    ("demands.csv", "1,A,1,\n" * 513, "run"),
    ("borders.csv", "from,to,limit,back\nA,B,50.5,1", "limit"),
]

MANY_ZONES = "zone,operator\n" + "".join(f"Z{at},T\n" for at in range(24))
MANY_BORDERS = "from,to,limit,back\n" + "".join(f"Z{a},Z{b},1,1\n" for a in range(24) for b in range(a))

OF_LIMITS = [
    ("1.0,A,B,1,1\n", "run"),
    ("1,A,B,1,x\n", "back"),
    ("2,A,C,100000,1\n", "run"),
    ("1,B,A,100000,1\n", "from"),
    ("1,A,B,1,1\n1,A,B,100000,1\n", "run"),
    ("1,A,B,100000,1\n", "limit"),
    ("1,A,B,1,-1\n", "back"),
]

OF_BLOCKS = [
    ("k k,a\n", "BadField", "block"),
    ("k,x\n", "UnknownBid", "bid"),
    ("k,d\n", "Quarter", "bid"),
    ("k,f\nl,f\n", "Repeated", "bid"),
    ("k,a\n", "Linked", "bid"),
    ("k,b\n", "Linked", "bid"),
    ("k,c\n", "Quarter", "bid"),
]


def more_zones(folder, most, more):
    folder.zones = [Zone(f"Z{at}", "T") for at in range(most // 2 + more - 1)] + folder.zones


def more_borders(folder, most, more):
    folder.zones += [Zone(f"Z{at}", "T") for at in range(23)]
    pairs = itertools.combinations([zone.zone for zone in folder.zones], 2)
    folder.borders = [Border(*pair, 1, 1) for pair in itertools.islice(pairs, most // 2 + more)]


def more_bids(folder, most, more):
    """Beside them a bid that needs one of quarter 1, and a block with it: they aren't available."""
    bids = [Bid(f"b{at}", "P", "A", 2 + at % 2, "up", Decimal(20), 0, 9) for at in range(most + more)]
    folder.bids += [*bids, Bid("needy", "P", "A", 2, "up", Decimal(20), 0, 9)]
    folder.bids.append(Bid("mate", "P", "A", 3, "up", Decimal(20), 0, 9))
    folder.links = [Link("needs", "needy", "early")]
    folder.blocks = [Block("k", "needy"), Block("k", "mate")]


def more_gates(folder, most, more):
    """A block of two bids has one gate."""
    bids = [Bid(f"b{at}", "P", "A", 2 + at % 2, "up", Decimal(20), 0, 9) for at in range(2)]
    bids += [Bid(f"g{at}", "P", "A", 2 + at % 2, "up", Decimal(20), 5, 9) for at in range(most + more - 1)]
    folder.bids += bids
    folder.blocks = [Block("k", "b0"), Block("k", "b1")]


def more_demands(folder, most, more):
    folder.demands = [Demand(2 + at % 2, "A", 1) for at in range(most + more)] + [Demand(1, "A", 1)]


SIZES = [
    ("zones", 64, more_zones),
    ("borders", 256, more_borders),
    ("bids", 4096, more_bids),
    ("gates", 512, more_gates),
    ("demands", 512, more_demands),
]


def said_by_program(path):
    """What the program says of a folder's form: its words, or none where it accepts it."""
    ended = PROGRAM.run("migrate", str(path), "limits")
    words = ended.stdout.decode("ascii").split()
    return words if ended.returncode else None


def said_by_package(path):
    try:
        Folder.read(path)
    except MariRefused as refused:
        return ["refused", refused.file, str(refused.line), str(refused.number), refused.check]
    except MariMissing as missing:
        return ["missing", missing.file]
    return None


@needs_program
class TestAgainstProgram(unittest.TestCase):
    def test_damaged_files(self):
        chance = random.Random(20250312)
        refused = without_field = 0
        for number in range(COUNT):
            pages = random_folder(chance).pages()
            for _ in range(chance.choice([1, 1, 1, 2])):
                name = chance.choice(list(pages))
                pages[name] = damaged(chance, pages[name])
            with tempfile.TemporaryDirectory() as scratch:
                for name, page in pages.items():
                    (Path(scratch) / name).write_bytes(page)
                wanted = said_by_program(scratch)
                if wanted and wanted[3:] == ["17", "AlreadyTwo"]:
                    wanted = None
                with self.subTest(number=number, wanted=wanted):
                    self.assertEqual(said_by_package(scratch), wanted)
                    if wanted and wanted[0] == "refused":
                        refused += 1
                        first = problems(scratch)[0]
                        self.assertEqual([first.file, str(first.line), str(first.number)], wanted[1:4])
                        if not first.field:
                            without_field += 1
                            self.assertIn(first.check, OF_NO_FIELD)
        self.assertGreater(refused, COUNT // 4)
        if os.environ.get("MARI_DAMAGED"):
            print(f"damaged: {COUNT} folders, {refused} refused, {without_field} of them for no single field")

    def test_each_check(self):
        """Every check of every market file but the calendar's, each by the least change that fails it."""
        seen = set()
        for file, text, field in EACH:
            pages = Folder.of_pages(BASE).pages()
            page = pages[file]
            pages[file] = page + text.encode() if text.endswith("\n") else text.encode()
            with self.subTest(file=file, text=text[-60:]), tempfile.TemporaryDirectory() as scratch:
                for name, bytes_ in pages.items():
                    (Path(scratch) / name).write_bytes(bytes_)
                wanted = said_by_program(scratch)
                self.assertIsNotNone(wanted)
                self.assertEqual(said_by_package(scratch), wanted)
                self.assertEqual(problems(scratch)[0].field, field)
                seen.add((wanted[1], wanted[4]))
        own = {(file, name) for file, names in CHECKS.items() for name in names}
        later = {("borders.csv", "AlreadyTwo"), ("links.csv", "AcrossQuarters"), ("runs.csv", "NoScheduled")}
        left = {one for one in own - seen - later if one[0] not in ("day.csv", *LATER_FILES)}
        self.assertEqual(left, {("zones.csv", "NoZone"), ("borders.csv", "TooManyBorders")})

    def refused_so(self, pages, file, field):
        """Program and package refuse these pages for the same file, line and check, and the field is this one."""
        with tempfile.TemporaryDirectory() as scratch:
            for name, page in pages.items():
                (Path(scratch) / name).write_bytes(page)
            wanted = said_by_program(scratch)
            self.assertEqual(wanted[:2], ["refused", file])
            self.assertEqual(said_by_package(scratch), wanted)
            self.assertEqual(problems(scratch)[0].field, field)
        return wanted[4]

    def test_many_borders_and_no_zone(self):
        pages = {**BASE, "zones.csv": MANY_ZONES.encode(), "borders.csv": MANY_BORDERS.encode()}
        self.assertEqual(self.refused_so(pages, "borders.csv", "from"), "TooManyBorders")
        pages = {**BASE, "zones.csv": b"zone,operator\n"}
        self.assertEqual(self.refused_so(pages, "zones.csv", ""), "NoZone")

    def test_as_much_as_may_be(self):
        """Files that are as long as they may be are accepted by both."""
        pages = {**BASE, "zones.csv": MANY_ZONES.encode()}
        pages["zones.csv"] += "".join(f"Y{at},T\n" for at in range(38)).encode() + b"A,T\nB,T\n"
        pages["borders.csv"] = b"".join(line + b"\n" for line in MANY_BORDERS.encode().splitlines()[:257])
        pages["bids.csv"] += "".join(f"x{at},P,A,1,up,20,{int(at < 510)},9,both\n" for at in range(4094)).encode()
        pages["runs.csv"] += "".join(f"{at},1,direct,40\n" for at in range(2, 1001)).encode()
        pages["demands.csv"] += b"1,A,1,\n" * 512
        with tempfile.TemporaryDirectory() as scratch:
            for name, page in pages.items():
                (Path(scratch) / name).write_bytes(page)
            self.assertIsNone(said_by_program(scratch))
            self.assertIsNone(said_by_package(scratch))

    def test_limits(self):
        seen = set()
        for text, field in OF_LIMITS:
            with self.subTest(text=text):
                pages = {**BASE, "borders.csv": b"from,to\nA,B\n"}
                pages["limits.csv"] = b"run,from,to,limit,back\n" + text.encode()
                seen.add(self.refused_so(pages, "limits.csv", field))
        self.assertEqual(seen, set(CHECKS["limits.csv"]))

    def test_blocks(self):
        for text, check, field in OF_BLOCKS:
            with self.subTest(text=text), tempfile.TemporaryDirectory() as scratch:
                for name, page in BASE.items():
                    more = b"f,P,A,1,up,20,0,9,both\n" if name == "bids.csv" else b""
                    (Path(scratch) / name).write_bytes(page + more)
                (Path(scratch) / "blocks.csv").write_text("block,bid\n" + text)
                with self.assertRaises(MariRefused) as caught:
                    PROGRAM.blocks(scratch, 1, 1)
                self.assertEqual((caught.exception.check, caught.exception.field), (check, field))

    def test_links_across_quarters(self):
        """The program names line 1 of the file; the package adds the line that fails the check."""
        folder = Folder.of_pages(BASE)
        folder.runs.append(Run(2, 2, "scheduled", Decimal(40)))
        folder.blocks = []
        with self.assertRaises(MariRefused) as caught:
            PROGRAM.blocks(folder, 1, 2)
        error = caught.exception
        self.assertEqual((error.check, error.line, error.at), ("AcrossQuarters", 1, 4))
        self.assertEqual((error.field, error.value), ("second", "a"))

    def test_the_size_of_a_joint_market(self):
        """Quarters 2 and 3 with as much as one market may have are taken, and with one more are refused."""
        for what, most, grow in SIZES:
            for more in (0, 1):
                folder = Folder("2025-03-12", "UTC0", [Zone("A", "T")], blocks=[])
                folder.runs = [Run(at, at, "scheduled", Decimal(40)) for at in (1, 2, 3)]
                folder.bids = [Bid("early", "P", "A", 1, "up", Decimal(20), 0, 9)]
                grow(folder, most, more)
                with self.subTest(what=what, more=more):
                    if not more:
                        PROGRAM.blocks(folder, 2, 3, nodes=1)
                        page = folder.pages()["blocks.csv"]
                        self.assertEqual([*joint_problems(folder, page, 2, 3)], [])
                        continue
                    with self.assertRaises(MariRefused) as caught:
                        PROGRAM.blocks(folder, 2, 3, nodes=1)
                    self.assertEqual(caught.exception.check, "TooLarge")
                    self.assertIn(f"{what}, and {most} are the most", caught.exception.reason)

    def test_limits_of_runs(self):
        """A border without a line in a run carries nothing in it."""
        pages = {**BASE, "borders.csv": b"from,to\nA,B\n", "runs.csv": BASE["runs.csv"] + b"2,1,direct,40\n"}
        pages["limits.csv"] = b"run,from,to,limit,back\n1,A,B,7,8\n"
        self.assertEqual(Folder.of_pages(pages).limits_by_run(), {1: [(7, 8)], 2: [(0, 0)]})
        self.assertEqual(Folder.of_pages(BASE).limits_by_run(), {1: [(50, 50)]})

    def test_random_folders_are_accepted(self):
        chance = random.Random(7)
        for _ in range(20):
            with tempfile.TemporaryDirectory() as scratch:
                folder = random_folder(chance)
                folder.write(scratch)
                said = said_by_program(scratch)
                self.assertIn(said, (None, ["refused", "borders.csv", "1", "17", "AlreadyTwo"]))
                self.assertEqual(Folder.read(scratch).pages(), folder.pages())

    def test_refusal_of_the_program_has_field_and_hint(self):
        with tempfile.TemporaryDirectory() as scratch:
            random_folder(random.Random(1)).write(scratch)
            bids = Path(scratch) / "bids.csv"
            bids.write_text(bids.read_text() + 'x1,P1,North,1,up,"60,00",0,10,both\n')
            line = bids.read_text().count("\n")
            with self.assertRaises(MariRefused) as caught:
                PROGRAM.clear(scratch)
            error = caught.exception
            self.assertEqual((error.file, error.line, error.check), ("bids.csv", line, "BadField"))
            self.assertEqual((error.field, error.value), ("price", "60,00"))
            self.assertIn("write 60.00", error.hint)


if __name__ == "__main__":
    unittest.main()
