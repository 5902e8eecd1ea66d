"""What a person reads off a page in chromium, opened from a file, and what can't harm it."""
import os
import re
import subprocess
import unittest

from days import TOP, change, PROGRAM, REACH
from hostile_day import NAMES, renamed
from page_test import PageTest, open_browser
from pictures import take_pictures

from making.day_parts import DayParts
from making.page import D3, Page
from mari import Day, Publication

from selenium.webdriver.common.keys import Keys

setUpModule = open_browser


class Reading(PageTest):
    def test_prices_and_borders(self):
        self.show("two-zones")
        self.assertEqual(self.figures()["Price in A"], "20.00 EUR/MWh")
        self.assertEqual(self.cells("#network"),
                         [["A \u2192 B", "50", "50", "100 %", "40.00", "500.0000"]])
        prices = [text.text for text in self.browser.all(".zones .price")]
        self.assertEqual(prices, ["20.00", "60.00"])
        self.key(Keys.ARROW_DOWN)
        self.assertEqual(self.figures()["Price in B"], "60.00 EUR/MWh")
        self.assertEqual(self.cells("#merit-order")[0][:8],
                         ["b1", "P2", "activated in part", "up", "60.00", "100", "30", "450.0000"])
        self.assertEqual(self.browser.text("#merit-order tr.below"), "30 of 100 MW at 60.00, so P2 gets 450.0000 euro")
        self.assertIn("Demand 80 MW, served 80 MW = up 30 \u2212 down 0 + net import 50 MW",
                      self.browser.text("#merit-order .balance"))

    def test_the_certificate_is_drawn(self):
        self.show("paradox-bid")
        leaves = [leaf.get_attribute("textContent") for leaf in self.browser.all("#certificate path.leaf title")]
        self.assertEqual(leaves, ["bound at depth 1, potentials from 99,999.00 to 99,999.00 EUR/MWh; open: none",
                                  "conflict at depth 1, zones Z; open: i1"])
        self.assertIn("Depth\n1", self.browser.text("#certificate dl"))

    def test_unpublished_runs(self):
        self.show("fair", "#run=2&zone=AT")
        self.assertEqual(self.browser.text("#count"), "14 published, 2 unpublished, 1 with demand unserved")
        self.assertEqual(self.figures()["Run"], "unpublished after 59 nodes")
        self.assertIn("Run 2 is unpublished", self.browser.text("#certificate"))
        self.assertEqual(len(self.browser.all("rect.unpublished")), 2)
        states = [row[2] for row in self.cells("#merit-order")]
        self.assertIn("run not published", states)
        self.assertGreater(len(self.browser.all("#merit-order path.block")), 0)

    def test_a_rejected_bid_leads_to_its_zone(self):
        self.show("fair", "#run=14&zone=PT")
        bid = self.browser.one("#rejected li button")
        zone = re.match(r"q\d+-(.*)-\d+$", bid.text)[1]
        self.assertNotEqual(zone, "PT")
        bid.click()
        self.assertIn(f"Price in {zone}", self.figures())

    def test_unserved_demand(self):
        """10 of 50 MW at any price aren't met, though an indivisible bid of 20 MW stands by."""
        self.show("paradox-bid")
        self.assertEqual(self.figures()["Unserved at the cap"], "10 MW, inelastic")
        self.assertEqual(len(self.browser.all("#figures .alarm")), 1)
        self.assertEqual(self.browser.text("#count"), "1 published, 1 with demand unserved")
        self.assertEqual(len(self.browser.all("#day-chart .lack")), 1)
        self.show("two-zones")
        self.assertEqual(self.figures()["Unserved at the cap"], "0 MW, inelastic")
        self.assertEqual(len(self.browser.all("#figures .alarm")), 0)

    def test_the_trees_fit_the_gated_bids(self):
        for reach in (False, True):
            self.show("fair", reach=reach)
            self.assertEqual(self.wrong_trees(), [])

    def wrong_trees(self):
        """The runs of the page whose trees have other gates."""
        return self.browser.driver.execute_async_script("""
          const done = arguments[arguments.length - 1];
          (async () => {
            const wrong = [];
            for (const { run } of parts_module.summary().runs) {
              const view = await run_module.runView(parts_module.summary(), run);
              if (view.run && !view.nodes) wrong.push(run);
            }
            return wrong;
          })().then(done, (fault) => done(String(fault)));""")

    def test_money_is_exact(self):
        self.show("two-zones")
        cases = {"1": "0.0025", "-1": "\u22120.0025", "0": "0.0000", "400": "1.0000",
                 "4000000000000000000": "10,000,000,000,000,000.0000",
                 "9223372036854775807": "23,058,430,092,136,939.5175",
                 "-123456789": "\u2212308,641.9725"}
        for quarters, text in cases.items():
            self.assertEqual(self.browser.run("return numbers_module.euros(BigInt(arguments[0]))",
                                              quarters), text)
        self.assertEqual(self.browser.run("return numbers_module.price(-5)"), "\u22120.05")


class Second(PageTest):
    """Days of the second form."""

    def titles(self, selector):
        return [title.get_attribute("textContent") for title in self.browser.all(f"{selector} title")]

    def test_gaps(self):
        blocks = Publication.read(self.days.day("fair", reach=True)).blocks
        gaps = [(block.run, f"{block.gap:,}") for block in blocks if block.gap is not None]
        run, gap = gaps[0]
        self.show("fair", f"#run={run}", reach=True)
        self.assertIn(f"Welfare, within {gap} EUR of the best", self.figures())
        self.assertIn(f", within {gap} EUR of the best", self.browser.text("#day-chart .reading"))
        self.assertIn(f"that nothing is better by more than {gap} EUR", self.browser.text("#certificate h2"))
        self.assertTrue(self.browser.text("#count").startswith(f"{16 - len(gaps)} first, {len(gaps)} within a gap"))
        self.assertEqual(self.titles("#day-chart circle.gap"), [
            f"Run {run}: no admissible activation is better by more than {gap} EUR" for run, gap in gaps])
        self.browser.run("location.hash = arguments[0]", f"#run={run - 1}")
        self.browser.drawn(run - 1)
        self.assertIn("Welfare, first", self.figures())

    def test_the_certificate_is_drawn(self):
        self.show("paradox-bid", reach=True)
        self.assertEqual(self.titles("#certificate .branches circle"), [
            "branch at the gate of i1: left closed, right open"])
        self.assertEqual(self.titles("#certificate path.leaf"), [
            "bound at depth 1, potentials from 99,999.00 to 99,999.00 EUR/MWh; i1 closed",
            "cut out at depth 1, zones Z; i1 open"])
        self.assertEqual(self.published(), ["left"])

    def published(self):
        """Which side of each branch the published gates and prices take, from the root."""
        ways = [way.get_attribute("d") for way in self.browser.all("#certificate path.way")]
        ends = [[float(number) for number in re.findall(r"[0-9.]+", way)] for way in ways]
        return ["left" if end[2] < end[0] else "right" for end in ends]

    def test_a_branch_at_a_price(self):
        """The price of B is 60.00 and b1 runs: above 59.99, and its gate would be open."""
        folder = self.days.market("two-zones")
        change(folder, "bids.csv", "60.00,0,100", "60.00,1,100")
        with open(os.path.join(folder, "publication.txt"), "wb") as publication:
            subprocess.run([REACH, "clear", folder], stdout=publication, check=True)
        with open(os.path.join(folder, "publication.txt"), encoding="ascii") as text:
            tree = re.search("tree [0-9]+\n(?:.*\n)*?(?=operator)", text.read())[0]
        change(folder, "publication.txt", tree, "tree 5\nprice B 59.99\nnone\nbranch b1\nnone\nbound 20.00 60.00\n")
        self.browser.open(self.days.page(folder)[0])
        self.assertEqual(self.titles("#certificate .branches circle"), [
            "branch at the price B 59.99: left at most that, right above it",
            "branch at the gate of b1: left closed, right open"])
        self.assertEqual(self.titles("#certificate path.leaf"), [
            "none at depth 1; B at most 59.99", "none at depth 2; B above 59.99, b1 closed",
            "bound at depth 2, potentials from 20.00 to 60.00 EUR/MWh; B above 59.99, b1 open"])
        self.assertEqual(self.published(), ["right", "right"])
        self.assertEqual([name.text for name in self.browser.all("#certificate .branches text")], ["B 59.99", "b1"])


class Causes(PageTest):
    """Why bids stay out, in days of two zones: A offers 100 MW at 20.00, B 100 MW at 60.00, and 50 MW flow to B."""

    def reason(self, bids, links, demand):
        """What is said of bid b2, with these bids more in zone B."""
        folder = self.days.market("two-zones")
        records = [f"{name},P3,B,1,up,{offer},both" for name, offer in bids.items()]
        change(folder, "bids.csv", "b1,", "\n".join([*records, "b1,"]))
        change(folder, "links.csv", "kind,first,second\n", "\n".join(["kind,first,second", *links, ""]))
        change(folder, "demands.csv", "1,B,80,", f"1,B,{demand},")
        with open(os.path.join(folder, "publication.txt"), "wb") as publication:
            subprocess.run([PROGRAM, "clear", folder], stdout=publication, check=True)
        self.browser.open(self.days.page(folder)[0])
        said = next(line.text for line in self.browser.all("#rejected li") if line.text.startswith("b2 "))
        [why] = [why.text for why in Day.read(folder).reasons() if why.bid == "b2"]
        self.assertTrue(said.endswith(why), (said, why))
        return said

    def test_no_consistent_prices(self):
        self.assertEqual(
            self.reason({"b2": "45.00,30,30"}, [], 60),
            "b2 of P3, up at 45.00: at the price 60.00 of B it would gain 15.00 euro per MWh, 112.5000 euro in all, "
            "but it runs 30 MW at least or not at all. With it, and every other gated bid as it is, there are no "
            "consistent prices: the price can't fall from B to A, but orders need a higher one in B than others allow in A "
            "(the certificate's conflict).")

    def test_no_greater_welfare(self):
        bids = {"b2": "59.00,30,30", "b3": "70.00,5,5"}
        self.assertIn("there is no greater welfare (the certificate's bound).", self.reason(bids, [], 60))

    def test_no_balance(self):
        self.assertIn("there is no balance: A, B couldn't send out what they would have too much",
                      self.reason({"b2": "45.00,200,200"}, [], 60))

    def test_its_group(self):
        bids = {"b3": "45.00,0,100", "b2": "46.00,0,100"}
        self.assertTrue(self.reason(bids, ["group,g,b3", "group,g,b2"], 170).endswith(
            "but of its group g at most one bid runs, and b3 does"))

    def test_its_parent(self):
        bids = {"b3": "500.00,0,10", "b2": "45.00,0,100"}
        self.assertTrue(self.reason(bids, ["child,b2,b3"], 80).endswith(
            "but it runs only where its parent b3 does, which isn't activated"))


class Harm(PageTest):
    def show_hostile(self):
        """Opens the page of a day with hostile names, which is made past the check of files and text."""
        folder = self.days.day("two-zones")
        found = Day.read(folder)
        path = os.path.join(folder, "day.html")
        with open(D3, encoding="utf-8") as d3, open(path, "w", encoding="utf-8", newline="\n") as text:
            page, day = Page(text.write, d3.read()), DayParts(renamed(found.folder))
            page.start()
            for part in (found.publication, *found.publication.blocks, found.publication):
                for name, value in day.take(renamed(part)):
                    page.part(name, value)
            page.end(day.summary())
        self.browser.open(path)

    def test_hostile_names_stay_text(self):
        self.show_hostile()
        self.assertIsNone(self.browser.run("return window.hit || null"))
        self.assertEqual(self.browser.run("return document.querySelectorAll('img,i>i,b>b').length"), 0)
        names = [name.get_attribute("textContent") for name in self.browser.all("#zone option")]
        self.assertEqual(names, [NAMES["A"], NAMES["B"]])
        cut = [name.get_attribute("textContent")[:15] for name in self.browser.all(".zones .name")]
        self.assertEqual(cut, [NAMES["A"][:15], NAMES["B"][:15]])
        self.assertEqual(len(self.cells("#ledger .operators")), 2)
        self.assertEqual(self.browser.run("return document.querySelector('.operators td').textContent"), NAMES["TA"])
        self.key(Keys.ARROW_DOWN)
        self.assertEqual(self.browser.run("return new URLSearchParams(location.hash.slice(1)).get('zone')"), NAMES["B"])
        self.assertEqual(self.cells("#merit-order")[0][0], "constructor")

    def test_a_hostile_publication_is_refused(self):
        folder = self.days.day("two-zones")
        change(folder, "publication.txt", "bid a1 50", f"bid {NAMES['B'].replace(' ', '')} 50")
        path, code, _ = self.days.page(folder)
        self.browser.open(path, wait=False)
        self.assertEqual(code, 3)
        self.assertEqual(self.browser.text("#fault"),
                         "The day is damaged. publication.txt line 7: names a bid by what is no name.")
        self.assertIsNone(self.browser.run("return window.hit || null"))

    def test_damage_is_said_and_the_rest_shown(self):
        folder = self.days.day("fair")
        change(folder, "publication.txt", "\nend 6\n", "\nend <b>6\n")
        path, code, _ = self.days.page(folder)
        self.browser.open(path)
        self.assertEqual(code, 3)
        self.assertRegex(self.browser.text("#fault"), r"The day is damaged\. publication\.txt line [0-9]+: '<b>6' "
                         r"isn't a whole number\. The 5 of 16 runs before it are shown\.")
        self.assertEqual(self.browser.text("#of"), "of 5")

    def test_a_page_without_a_day(self):
        folder = self.days.day("fair")
        os.remove(os.path.join(folder, "zones.csv"))
        path, _, _ = self.days.page(folder)
        self.browser.open(path, wait=False)
        self.assertIn("The day is damaged. zones.csv is missing", self.browser.text("#fault"))
        self.assertFalse(self.browser.one("main").is_displayed())

    def test_a_page_that_was_cut(self):
        path, _, _ = self.days.page(self.days.day("fair"))
        with open(path, encoding="utf-8", newline="") as page:
            text = page.read()
        with open(path, "w", encoding="utf-8", newline="") as page:
            page.write(re.sub(r'id="run-4">....', 'id="run-4">!!!!', text))
        self.browser.open(path, "#run=4", wait=False)
        self.assertIn("run-4 can't be read", self.browser.wait_for("#fault"))

    def test_nothing_leaves_the_page(self):
        self.show("two-zones")
        self.assertEqual(self.browser.run(
            "return performance.getEntriesByType('resource').filter("
            "(entry) => !/^(data|blob):/.test(entry.name)).length"), 0)
        self.assertIn("default-src 'none'", self.browser.run(
            "return document.querySelector('meta[http-equiv]').content"))


class Whole(PageTest):
    def view(self, folder):
        return subprocess.run([os.path.join(TOP, "view"), folder], env={**os.environ, "MARI": PROGRAM},
                              capture_output=True, check=False)

    def test_a_folder_is_viewed(self):
        folder = self.days.market("eight-zones")
        for _ in range(2):      # cleared at first, and then as it is
            done = self.view(folder)
            self.assertEqual((done.returncode, done.stderr), (0, b""))
            self.browser.open(done.stdout.decode().strip())
            self.assertEqual(self.browser.text("#count"), "1 published")

    def test_a_day_of_other_files_is_not_viewed(self):
        folder = self.days.market("eight-zones")
        self.view(folder)
        change(folder, "demands.csv", "1,DK,60,", "1,DK,61,")
        done = self.view(folder)
        self.assertEqual(done.returncode, 7)
        self.assertIn(b"publication.txt isn't the day of the folder's market files: invalid 1 ", done.stderr)

    def test_pictures_are_light_and_dark(self):
        light, dark = (os.path.getsize(path) for path in take_pictures(self.days, self.days.empty()))
        self.assertGreater(min(light, dark), 50_000)
        self.assertNotEqual(light, dark)


if __name__ == "__main__":
    unittest.main()
