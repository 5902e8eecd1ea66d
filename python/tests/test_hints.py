"""What is said of a bad field, header or record, and what to write instead."""

import tempfile
import unittest
from pathlib import Path

from mari import Folder, MariError, MariFileError, MariRefused, problems


class TestProblems(unittest.TestCase):
    def pages(self, **changed):
        made = {
            "day.csv": b"date,rule\n2025-03-12,UTC0\n",
            "zones.csv": b"zone,operator\nA,TA\nB,TB\n",
            "borders.csv": b"from,to,limit,back\nA,B,50,50\n",
            "bids.csv": b"id,provider,zone,quarter,direction,price,least,greatest,kind\n",
            "links.csv": b"kind,first,second\n",
            "runs.csv": b"run,quarter,kind,reference\n1,1,scheduled,40.00\n",
            "demands.csv": b"run,zone,mw,price\n",
        }
        made.update({f"{name}.csv": page for name, page in changed.items()})
        return made

    def refused(self, **changed):
        with self.assertRaises(MariRefused) as caught:
            Folder.of_pages(self.pages(**changed))
        return caught.exception

    def bid(self, **changed):
        fields = {"id": "x", "provider": "P", "zone": "A", "quarter": "1", "direction": "up", "price": "20"}
        fields |= {"least": "0", "greatest": "5", "kind": "both"} | changed
        page = ",".join(fields) + "\n" + ",".join(f'"{value}"' for value in fields.values()) + "\n"
        return self.refused(bids=page.encode())

    def test_hints(self):
        for field, value, hint in (
            ("price", "60,00", "write 60.00"),
            ("price", "1,300.00", "write 1300.00"),
            ("price", "1.300,00", "write 1300.00"),
            ("price", "1.3E+02", "write 130.00"),
            ("price", "\u221260", "write -60"),
            ("price", "60.00 ", "write 60.00"),
            ("price", "20.125", "two decimals"),
            ("greatest", "120.0", "write 120,"),
            ("greatest", "12.5", "write whole MW"),
            ("greatest", "10 MW", "write 10, without a unit"),
            ("quarter", "24:00", "number of the quarter hour"),
            ("kind", "Both", "write both"),
            ("direction", "Up ", "write up"),
            ("id", "", "1 to 16"),
            ("id", "1b4e28ba-2fa1-11d2", "18 characters"),
            ("provider", "\u00d8st", "'\\xd8'"),
        ):
            with self.subTest(value=value):
                error = self.bid(**{field: value})
                self.assertEqual((error.field, error.value), (field, value))
                self.assertIn(hint, str(error))

    def test_headers(self):
        head = b"zone,operator\n"
        for page, hint in (
            (head.replace(b",", b";"), "semicolons"),
            (head.replace(b",", b"\t"), "tabs"),
            (head.decode().encode("utf-16"), "UTF-16"),
            (b"sep=,\n" + head, "take the line"),
            (b"zone, operator\n", "without blanks"),
            (b"operator,zone\n", "order"),
            (b"Zone,Operator\n", "capital"),
            (b"A,TA\n", "missing"),
            (b"zone,operator,\n", "comma at the end"),
            (b"", "empty"),
        ):
            with self.subTest(page=page):
                self.assertIn(hint, str(self.refused(zones=page)))

    def test_rows(self):
        for changed, hint in (
            ({"day": b"date,rule\n2025-03-12,CET-1CEST,M3.5.0,M10.5.0/3\n"}, '2025-03-12,"CET-1CEST,M3.5.0,M10.5.0/3"'),
            ({"zones": b"zone,operator\n  \nA,TA\n"}, "blanks"),
            ({"zones": b"zone,operator\n# all zones\nA,TA\n"}, "comments"),
            ({"zones": b'zone,operator\n"A,TA\nB,TB\n'}, "isn't closed"),
            ({"demands": b"run,zone,mw,price\n1,A,80,60,00\n"}, "decimal comma"),
            ({"demands": b"run,zone,mw,price\n1,A,80,nan\n"}, "left empty"),
            ({"zones": b"zone,operator\nA,\xd8st\n"}, "'\\xd8st' isn't UTF-8"),
        ):
            with self.subTest(hint=hint):
                self.assertIn(hint, str(self.refused(**changed)))

    def test_positions(self):
        """positions.csv is this package's: each zone of zones.csv has one."""
        pages = self.pages(positions=b"zone,x,y\nA,-4.5,52\nB,3,48.25\n")
        folder = Folder.of_pages(pages)
        self.assertEqual(folder.positions, [("A", -4.5, 52.0), ("B", 3.0, 48.25)])
        self.assertEqual(Folder.of_pages(folder.pages()), folder)
        for page, check, value in (
            ("A,1;5,2\nB,1,1\n", "BadField", "1;5"),
            ("A,1,2\nC,1,1\n", "UnknownZone", "C"),
            ("A,1,2\nA,1,1\n", "Repeated", "A"),
            ("A,1,2\n", "NoPosition", "B"),
        ):
            error = self.refused(positions=f"zone,x,y\n{page}".encode())
            self.assertEqual((error.file, error.check, error.value), ("positions.csv", check, value))

    def test_all_problems_of_a_file(self):
        with tempfile.TemporaryDirectory() as scratch:
            demands = b"run,zone,mw,price\n" + b'1,A,10,"60,00"\n' * 3000
            for name, page in self.pages(demands=demands).items():
                (Path(scratch) / name).write_bytes(page)
            found = problems(scratch)
        self.assertEqual([one.line for one in found], list(range(2, 3002)))
        self.assertEqual({(one.field, one.hint) for one in found}, {("price", "write 60.00, with a decimal point")})

    def test_missing(self):
        pages = self.pages()
        del pages["links.csv"]
        with self.assertRaises(MariFileError) as caught:
            Folder.of_pages(pages)
        self.assertEqual(caught.exception.file, "links.csv")
        self.assertIsInstance(caught.exception, MariError)


if __name__ == "__main__":
    unittest.main()
