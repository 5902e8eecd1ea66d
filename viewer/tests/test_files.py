"""What is made of files, sound and damaged. Needs the programs, for `./view` d3 too, and no browser."""
import contextlib
import io
import json
import os
import subprocess
import unittest
from unittest import mock

from days import PROGRAM, REACH, TOP, Days, change, script

from making.day_parts import DayParts
from making.page import D3, Page, json_text
from mari import Day, Folder, MariError, Program, iter_parts
from mari.publication import open_text

show = script("show")
NO_D3 = not os.path.isfile(D3)


def made(folder):
    """(summary, parts by name)."""
    day, found = DayParts(Folder.read(folder)), {}
    with open_text(folder) as lines:
        for part in iter_parts(lines):
            found.update(day.take(part))
    return day.summary(), found


class FileTest(unittest.TestCase):
    @classmethod
    def setUpClass(cls):
        cls.days = Days()
        cls.addClassCleanup(cls.days.close)

    def made(self, name):
        return made(self.days.day(name))


class Sound(FileTest):
    def test_two_zones(self):
        summary, found = self.made("two-zones")
        self.assertEqual(summary["runs"], [{
            "run": 1, "quarter": 1, "kind": "scheduled", "reference": 4000, "asked": [80, 0],
            "price": [2000, 6000], "welfare": "799712000", "rent": "200000",
            "activated": [80, 0], "served": [80, 0], "unserved": 0, "rejected": 0}])
        self.assertEqual(found["run-1"]["borders"], {"flow": [50], "rent": ["200000"], "limit": [50], "back": [50]})

    def test_a_direct_run_finds_what_is_left(self):
        _, found = self.made("direct-run")
        first, second = found["run-1"]["bids"], found["run-2"]["bids"]
        self.assertEqual(second["left"][0], first["left"][0] - first["mw"][0])

    def test_limits_of_a_run(self):
        _, found = self.made("limits-per-run")
        limits = [found[f"run-{run}"]["borders"]["limit"] for run in (1, 2)]
        self.assertNotEqual(*limits)

    def test_a_direct_run_has_the_room_that_flows_left(self):
        """The scheduled run fills 50 MW to B: none is left there, and 100 MW back. The next quarter begins anew."""
        folder = self.days.market("two-zones")
        change(folder, "runs.csv", "1,1,scheduled,40.00", "1,1,scheduled,40.00\n2,1,direct,40.00\n3,2,scheduled,40.00")
        change(folder, "demands.csv", "1,B,80,", "1,B,80,\n2,B,5,")
        Program(PROGRAM).clear(folder)
        _, found = made(folder)
        room = [[found[f"run-{run}"]["borders"][way] for way in ("limit", "back")] for run in (1, 2, 3)]
        self.assertEqual(room, [[[50], [50]], [[0], [100]], [[50], [50]]])

    def test_rejected_in_the_money(self):
        summary, found = self.made("paradox-bid")
        self.assertEqual(summary["runs"][0]["rejected"], 1)
        self.assertEqual(summary["runs"][0]["unserved"], 10)
        self.assertEqual(summary["states"][found["run-1"]["reasons"]["state"][1]], "rejected in the money")
        self.assertEqual(found["run-1"]["tree"], {"items": "Box", "zones": {2: [1]}, "bounds": {1: [9999900, 9999900]}})

    def test_money_is_text(self):
        _, found = self.made("fair")
        runs = [part for name, part in found.items() if name.startswith("run-")]
        rents = [rent for part in runs for rent in part["borders"].get("rent", [])]
        self.assertEqual({type(rent) for rent in rents}, {str})

    def test_the_words_are_those_of_explain(self):
        folder = self.days.day("fair")
        _, found = made(folder)
        words = [text for name, part in found.items() if name.startswith("run-") for text in part["reasons"]["text"]]
        self.assertEqual(words, [why.text for why in Day.read(folder).reasons()])

    def test_the_pay_of_bids_is_what_the_ledger_says(self):
        folder = self.days.day("fair")
        _, found = made(folder)
        for line in Program(PROGRAM).feed(folder)[1:-1]:
            part = found[f"run-{line['run']}"]
            providers, paid = found[f"quarter-{line['quarter']}"]["provider"], {}
            for place, pay in zip(part["bids"]["place"], part["bids"]["pay"]):
                paid[providers[place]] = paid.get(providers[place], 0) + int(pay)
            for row in line.get("providers", ()):
                self.assertEqual(paid[row["name"]], row["amount"])

    def test_bids_without_a_run(self):
        folder = self.days.market("two-zones")
        change(folder, "bids.csv", "b1,P2,B,1", "c1,P2,B,7,up,60.00,0,100,both\nb1,P2,B,1")
        Program(PROGRAM).clear(folder)
        _, found = made(folder)
        self.assertEqual(found["without-run"]["name"], ["c1"])

    def test_positions(self):
        folder = self.days.day("two-zones")
        self.assertIsNone(made(folder)[0]["positions"])
        with open(os.path.join(folder, "positions.csv"), "w", encoding="ascii") as page:
            page.write("zone,x,y\nB,10,51.5\nA,4,52\n")
        self.assertEqual(made(folder)[0]["positions"], [[4, 52], [10, 51.5]])

    def test_json_ends_no_script(self):
        text = json_text({"</script>": ["<!--", "&", "\u2028"]})
        self.assertFalse(set(text) & set("<>&\u2028"))
        self.assertEqual(json.loads(text), {"</script>": ["<!--", "&", "\u2028"]})


class Second(FileTest):
    """Days of the second form."""

    def test_a_tree_has_its_decisions(self):
        """Of docs/REACH.md: i1 closed, and then open. The other day's run is within a gap of one quarter-cent."""
        summary, found = made(self.days.day("paradox-bid", reach=True))
        self.assertEqual((summary["form"], summary["runs"][0]["gap"]), (2, None))
        self.assertEqual(found["run-1"]["tree"], {
            "items": "Bou", "zones": {2: [1]}, "bounds": {1: [9999900, 9999900]}, "gates": {0: "i1"}, "prices": {}})
        folder = self.days.day("two-zones", reach=True)
        change(folder, "publication.txt", "scheduled first", "scheduled within 0.0025")
        change(folder, "publication.txt", "done 1 0", "done 0 1")
        change(folder, "publication.txt", "tree 1\n", "tree 5\nprice B 59.99\nnone\nbranch b1\nnone\n")
        summary, found = made(folder)
        self.assertEqual(summary["runs"][0]["gap"], "1")
        self.assertEqual(found["run-1"]["tree"], {
            "items": "PnBno", "zones": {}, "bounds": {4: [2000, 6000]}, "gates": {2: "b1"}, "prices": {0: [1, 5999]}})

    def test_the_first_form_has_no_gaps(self):
        summary, found = self.made("paradox-bid")
        self.assertEqual(summary["form"], 1)
        self.assertNotIn("gap", summary["runs"][0])
        self.assertNotIn("gates", found["run-1"]["tree"])

    def test_the_words_are_those_of_explain(self):
        folder = self.days.day("fair", reach=True)
        summary, found = made(folder)
        words = [text for name, part in found.items() if name.startswith("run-") for text in part["reasons"]["text"]]
        self.assertEqual(words, [why.text for why in Day.read(folder).reasons()])
        with open(os.path.join(folder, "publication.txt"), encoding="ascii") as text:
            gaps = [line.split()[5] for line in text if line.startswith("run ") and " within " in line]
        self.assertEqual([int(run["gap"]) for run in summary["runs"] if run["gap"]],
                         [int(gap.replace(".", "")) // 25 for gap in gaps])

    def test_faults(self):
        folder = self.days.day("paradox-bid", reach=True)
        change(folder, "publication.txt", "branch i1", "branch <i>")
        with self.assertRaises(MariError) as caught:
            made(folder)
        self.assertEqual(str(caught.exception), "publication.txt line 9: should be the line branch")


@unittest.skipIf(NO_D3, "d3 isn't installed")
class View(FileTest):
    """`./view` of either form."""

    def view(self, *words):
        environment = {**os.environ, "MARI": PROGRAM, "REACH": REACH}
        done = subprocess.run([os.path.join(TOP, "view"), *words], env=environment, capture_output=True, check=False)
        return done.returncode, done.stdout.decode().strip(), done.stderr.decode().strip()

    def test_reach_clears_and_checks(self):
        folder = self.days.market("paradox-bid")
        page = os.path.join(folder, "day.html")
        self.assertEqual(self.view(folder, "--reach", "--nodes", "2"), (0, page, ""))
        with open(os.path.join(folder, "publication.txt"), encoding="ascii") as text:
            self.assertEqual(next(text), "mari 2 2025-03-12 96 2\n")
        self.assertEqual(self.view(folder), (0, page, ""))
        change(folder, "publication.txt", "bid p1 40", "bid p1 39")
        code, _, said = self.view(folder)
        self.assertEqual(code, 7)
        self.assertIn("publication.txt isn't the day of the folder's market files: invalid 1 ", said)

    def test_words(self):
        folder = self.days.market("paradox-bid")
        usage = (2, "", "usage: ./view FOLDER [--reach [--nodes N]]")
        for words in (["--reach"], [folder, "--nodes", "2"], [folder, "--reach", "--nodes"],
                      [folder, "--reach", "--nodes", "0"], [folder, "--reach", "--nodes", "50001"], [folder, "more"]):
            self.assertEqual(self.view(*words), usage, words)
        self.assertEqual(self.view("--nodes=050000", "--reach", folder)[0], 0)


class Damage(FileTest):
    def fault(self, folder):
        with self.assertRaises(MariError) as caught:
            made(folder)
        return str(caught.exception)

    def test_publications(self):
        for old, new, said in (
                ("welfare 49994500", "welfare 49994500.5", "line 3: '49994500.5' isn't a whole number"),
                ("welfare 49994500\n", "", "line 3: should be the line welfare"),
                ("end 2", "end 3", "should be end 2"),
                ("run 2 1 direct", "run 3 1 direct", "should be end 3"),
                ("bid u 10", "bid zz 10", "run 3 has the bid zz, which isn't of its quarter hour"),
                ("bid u 10", "bid <u> 10", "names a bid by what is no name"),
                ("run 2 1 direct", "run 2 1 scheduled", "run 2 has another quarter hour or kind"),
                ("mari 1 2025-03-12", "mari 1 2025-03-13", "is of another day than day.csv"),
                ("bound 70.00", "leaf 70.00", "should be an item of the certificate")):
            with self.subTest(new=new):
                folder = self.days.day("linked-day")
                change(folder, "publication.txt", old, new)
                self.assertIn(said, self.fault(folder))

    def test_a_run_that_is_missing(self):
        folder = self.days.day("linked-day")
        with open(os.path.join(folder, "publication.txt"), encoding="ascii") as page:
            text = page.read()
        last = text[text.index("run 4 "):text.index("total-operator")]
        change(folder, "publication.txt", last, "")
        change(folder, "publication.txt", "done 4 0", "done 3 0")
        self.assertIn("has the totals, but runs are missing", self.fault(folder))

    def test_market_files(self):
        for file, old, new, said in (
                ("zones.csv", "zone,operator", "zone", "zones.csv line 1: the first record isn't zone,operator"),
                ("bids.csv", "y,P,Z", "y,P,Q", "'Q' isn't a zone of zones.csv"),
                ("bids.csv", "10.00,0,10", "ten,0,10", "bids.csv line 2, field price: 'ten' isn't a price"),
                ("runs.csv", "1,1,sch", "7,1,sch", "runs.csv line 2, field run: '7' isn't the next run")):
            with self.subTest(file=file, new=new):
                folder = self.days.day("linked-day")
                change(folder, file, old, new)
                self.assertIn(said, self.fault(folder))

    def test_cut_publications(self):
        folder = self.days.day("linked-day")
        path = os.path.join(folder, "publication.txt")
        with open(path, encoding="ascii") as page:
            text = page.read()
        for size in [*range(0, len(text), 37), len(text) - 1]:
            with open(path, "w", encoding="ascii") as page:
                page.write(text[:size])
            self.fault(folder)


class Showing(FileTest):
    def test_the_runs_before_a_fault_are_shown(self):
        folder = self.days.day("linked-day")
        change(folder, "publication.txt", "run 3 2 scheduled published", "run 3 2 scheduled")
        written = []
        fault = show.show(folder, Page(written.append, "d3"))
        self.assertIn("isn't the heading of a run", fault)
        text = "".join(written)
        self.assertIn('id="run-2"', text)
        self.assertIn(json_text(fault), text)

    def test_d3_is_missed_in_one_line(self):
        folder = self.days.day("two-zones")
        said = io.StringIO()
        with mock.patch.object(show, "D3", os.path.join(folder, "d3.min.js")), contextlib.redirect_stderr(said):
            self.assertEqual(show.main([folder]), 4)
        self.assertRegex(said.getvalue(), r"\Ashow: .*/d3.min.js isn't there: install Debian's package node-d3\n\Z")


if __name__ == "__main__":
    unittest.main()
