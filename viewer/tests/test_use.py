"""How a page in chromium is used: picked, searched, saved, and drawn in whatever room there is."""
import os
import subprocess
import time
import unittest

from days import change, PROGRAM
from page_test import PageTest, open_browser

from selenium.webdriver.common.keys import Keys

setUpModule = open_browser


class Picking(PageTest):
    def test_keys_and_address(self):
        self.show("fair", "#run=3&zone=FR")
        self.key(Keys.ARROW_RIGHT, Keys.ARROW_DOWN)
        self.browser.drawn(4)
        self.assertEqual(self.browser.text("#when"), "quarter 4, 00:45\u201301:00, scheduled")
        self.assertTrue(self.browser.driver.current_url.endswith("#run=4&zone=HU"))
        self.key(Keys.END)
        self.browser.drawn(16)
        self.assertEqual(self.browser.text("#when"), "quarter 12, 02:45\u201303:00, direct")
        self.browser.run("location.hash = '#run=5&zone=PL'")
        self.browser.drawn(5)
        self.assertIn("Price in PL", self.figures())

    def test_a_click_in_the_day(self):
        self.show("fair", "#run=1&zone=FR")
        for number in (11, 6, 10, 9, 12):
            spot = self.browser.run("""
              const at = Array.from(document.querySelectorAll("#day-chart .bars.money.scheduled,"
                + "#day-chart .bars.money.direct"))[0].ownerSVGElement.getBoundingClientRect();
              const slots = strokes_module.slotsOf(parts_module.summary().runs);
              const slot = slots[arguments[0] - 1];
              const left = 74, right = at.width - 20;
              return [at.left + left + (slot.start + slot.end) / 2 / 12 * (right - left),
                at.top + 60];""", number)
            for kind in ("mousePressed", "mouseReleased"):
                self.browser.command("Input.dispatchMouseEvent", type=kind, x=spot[0], y=spot[1],
                                     button="left", clickCount=1)
            self.browser.drawn(number)
            self.assertEqual(self.browser.one("#run").get_attribute("value"), str(number))

    def test_a_click_on_a_zone(self):
        self.show("fair")
        zones = self.browser.all(".zones g")
        [zone for zone in zones if "\nES" in "\n" + zone.text][0].click()
        self.assertIn("Price in ES", self.figures())
        self.assertIn("ES,", self.browser.text("#merit-order h2"))

    def test_the_ledger_is_sorted(self):
        self.show("fair")
        head = [h for h in self.browser.all("#ledger .operators th button") if "Net" in h.text][0]
        nets = lambda: [float(row[3].replace(",", "").replace("\u2212", "-"))   # noqa: E731
                        for row in self.cells("#ledger .operators")]
        head.click()
        self.assertEqual(nets(), sorted(nets(), reverse=True))
        head.click()
        self.assertEqual(nets(), sorted(nets()))
        self.assertAlmostEqual(sum(nets()), 0)
        run = nets()
        self.browser.one("#ledger input[value=day]").click()
        self.assertNotEqual(nets(), run)
        self.assertEqual(self.browser.one("#ledger .operators th[aria-sort]").text[:3], "Net")

    def test_layout_is_the_same_in_each_run(self):
        places = lambda: [zone.get_attribute("transform")                       # noqa: E731
                          for zone in self.browser.all(".zones g")]
        self.show("fair", "#run=1")
        first = places()
        self.show("fair", "#run=9")
        self.assertEqual(places(), first)


class Finding(PageTest):
    def look(self, text):
        """The rows that are found for a text."""
        box = self.browser.one("#find input")
        box.clear()
        box.send_keys(text + Keys.ENTER)
        self.browser.settled("#found .reading", "looking")
        return self.cells("#found")

    def test_a_bid_that_was_withheld(self):
        self.show("linked-day")
        self.assertEqual([row[:3] for row in self.look("w")], [["w", "P", "3"]])
        self.assertEqual(self.browser.text("#found tr.below"),
                         "y was activated in a direct run, which bars it (technical)")
        self.browser.one("#found tbody tr").click()
        self.browser.drawn(3)
        self.assertIn("Z, 1 bids, and 1 withheld", self.browser.text("#merit-order h2"))
        self.assertEqual([row[2] for row in self.cells("#merit-order")], ["activated in part", "withheld"])

    def test_a_provider(self):
        self.show("linked-day")
        rows = self.look("Q")
        self.assertEqual([row[0] for row in rows], ["u"])
        self.assertIn("Q: 1 rows, paid 175.0000 EUR", self.browser.text("#found .reading"))

    def test_a_bid_without_a_run(self):
        folder = self.days.market("two-zones")
        change(folder, "bids.csv", "b1,P2,B,1", "c1,P2,B,7,up,60.00,0,100,both\nb1,P2,B,1")
        with open(os.path.join(folder, "publication.txt"), "wb") as publication:
            subprocess.run([PROGRAM, "clear", folder], stdout=publication, check=True)
        self.browser.open(self.days.page(folder)[0])
        self.assertEqual([row[:6] for row in self.look("c1")], [["c1", "P2", "", "01:30", "B", "no run"]])
        self.assertEqual(self.browser.text("#found tr.below"), "its quarter hour has no run in runs.csv")

    def test_a_part_of_a_name_and_none(self):
        self.show("eight-zones")
        self.assertGreater(len(self.look("u")), 1)
        self.assertEqual([row[0] for row in self.look("u2")], ["u2"])
        self.assertEqual(self.look("nobody"), [])
        self.assertIn("no bid or provider is called nobody", self.browser.text("#found .reading"))


class Saving(PageTest):
    def test_numbers_of_a_file(self):
        """The page's marks between thousands and its minus are no part of a number in a file."""
        self.show("two-zones")
        self.assertEqual(self.browser.run("return csv_module.plain('\u22121,026,000.5125')"), "-1026000.5125")
        self.assertEqual(self.browser.run("return csv_module.csvText([['a,b', 'c\"d', 5]])"), '"a,b","c""d",5\n')

    def test_csv_of_the_prices_and_of_a_table(self):
        folder = self.days.empty()
        self.show("two-zones")
        self.browser.command("Browser.setDownloadBehavior", behavior="allow", downloadPath=folder)
        self.browser.one("#day-chart .csv").click()
        self.assertEqual(self.saved(folder, "prices.csv"), "run,quarter,time,kind,zone,price\n"
                         "1,1,00:00,scheduled,A,20.00\n1,1,00:00,scheduled,B,60.00\n")
        self.browser.one("#ledger .operators .csv").click()
        self.assertEqual(self.saved(folder, "operators.csv"), "Operator,Pays EUR,Part of rents EUR,Net EUR\n"
                         "TA,-250.0000,250.0000,-500.0000\nTB,750.0000,250.0000,500.0000\n")

    def saved(self, folder, name):
        path = os.path.join(folder, name)
        for _ in range(500):
            if os.path.exists(path) and os.path.getsize(path):
                break
            time.sleep(0.02)
        with open(path, encoding="utf-8", newline="") as file:
            return file.read()


class Drawing(PageTest):
    def width(self, selector):
        return self.browser.run("return document.querySelector(arguments[0]).getBBox().width", selector)

    def test_runs_of_one_quarter_hour_are_as_wide_as_it(self):
        """A quarter hour with a scheduled and a direct run: both fill the picture, and the direct one stands on top."""
        self.show("direct-run")
        lines = [self.width(f"#day-chart .chosen path.{kind}") for kind in ("scheduled", "direct")]
        bars = [self.width(f"#day-chart .bars.up.{kind}") for kind in ("scheduled", "direct")]
        frame = self.browser.run("return document.querySelector('#day-chart svg').viewBox.baseVal.width") - 94
        for wide in (*lines, *bars):
            self.assertAlmostEqual(wide, frame, delta=2)
        top, bottom = [self.browser.run("const box = document.querySelector(arguments[0]).getBBox();"
                                        "return [box.y, box.y + box.height]", f"#day-chart .bars.up.{kind}")
                       for kind in ("direct", "scheduled")]
        self.assertAlmostEqual(top[1], bottom[0], delta=0.2)

    def test_a_price_at_the_cap_does_not_set_the_axis(self):
        """The direct run's price is the cap, and the scheduled one's 50.00: the axis is of usual prices."""
        self.show("direct-run")
        self.assertIn("in 1 runs beyond the axis, as far as 99,999.00", self.browser.text("#day-chart svg"))
        self.assertIn("from violet 40.00 to yellow 60.00", self.browser.text("#day-chart svg"))

    def test_few_zones_are_named(self):
        """Eight rows of colours have room for their names; of sixteen the selected one is named."""
        self.show("eight-zones", "#zone=DE")
        self.assertEqual([name.text for name in self.browser.all(".zone-names text")],
                         ["NO", "SE", "DK", "DE", "PL", "CZ", "AT", "CH"])
        self.show("fair", "#run=1&zone=FR")
        self.assertEqual([name.text for name in self.browser.all(".zone-names text")], ["FR"])

    def test_positions_of_zones(self):
        """North is up and east to the right."""
        folder = self.days.day("eight-zones")
        spots = {"NO": (10, 60), "SE": (16, 61), "DK": (10, 56), "DE": (10, 51), "PL": (19, 52), "CZ": (15, 50),
                 "AT": (14, 47.5), "CH": (8, 47)}
        with open(os.path.join(folder, "positions.csv"), "w", encoding="ascii") as page:
            page.write("".join(["zone,x,y\n", *(f"{zone},{x},{y}\n" for zone, (x, y) in spots.items())]))
        self.browser.open(self.days.page(folder)[0])
        drawn = {zone.text.split("\n")[0]: zone.location for zone in self.browser.all(".zones g")}
        self.assertEqual(sorted(drawn, key=lambda zone: -drawn[zone]["y"]),
                         sorted(spots, key=lambda zone: spots[zone][1]))
        self.assertEqual(max(drawn, key=lambda zone: drawn[zone]["x"]), "PL")

    def test_a_narrow_page(self):
        """Nothing reaches beyond it but what scrolls within its own box."""
        self.browser.command("Emulation.setDeviceMetricsOverride", width=500, height=800, deviceScaleFactor=1,
                             mobile=False)
        self.addCleanup(self.browser.command, "Emulation.setDeviceMetricsOverride", width=1280, height=800,
                        deviceScaleFactor=1, mobile=False)
        self.show("fair", "#run=14&zone=PT")
        self.assertEqual(self.browser.run("""
          return [...document.querySelectorAll("section, dl, .rows, svg, h2, .legend, .pair > div")].filter((part) =>
            part.getBoundingClientRect().right > 500).map((part) => part.className || part.id)"""), [])
        self.assertEqual(self.browser.run("return document.documentElement.scrollWidth"), 500)


class Manners(PageTest):
    def contrast(self, dark):
        self.browser.command("Emulation.setEmulatedMedia", features=[
            {"name": "prefers-color-scheme", "value": "dark" if dark else "light"}])
        return self.browser.run("""
          const light = (text) => {
            const part = text.match(/[0-9.]+/g).slice(0, 3).map((v) => {
              const s = v / 255; return s <= 0.03928 ? s / 12.92 : ((s + 0.055) / 1.055) ** 2.4; });
            return 0.2126 * part[0] + 0.7152 * part[1] + 0.0722 * part[2]; };
          const ground = light(getComputedStyle(document.querySelector("section")).backgroundColor);
          const least = {};
          for (const [name, key] of [["td", "color"], [".reading", "color"], ["#when", "color"],
              [".axis text", "fill"], [".reasons button", "color"], [".bars.up", "fill"],
              [".bars.down", "fill"], [".chosen .direct", "stroke"]]) {
            const found = document.querySelector(name);
            if (!found) continue;
            const ink = light(getComputedStyle(found)[key]);
            least[name] = (Math.max(ink, ground) + 0.05) / (Math.min(ink, ground) + 0.05);
          }
          return least;""")

    def test_contrast(self):
        self.show("fair", "#run=14")
        for dark in (True, False):
            for name, ratio in self.contrast(dark).items():
                drawn = name.startswith((".bars", ".chosen"))
                self.assertGreaterEqual(ratio, 3 if drawn else 4.5, (name, dark))

    def test_names_and_roles(self):
        self.show("fair")
        self.assertEqual(self.browser.run("""
          const named = (e) => e.getAttribute("aria-label") || e.textContent.trim()
            || e.querySelector("title");
          return [...document.querySelectorAll("svg, button, section, .rows")].filter((e) =>
            !(e.getAttribute("aria-labelledby") || named(e))).length
            + [...document.querySelectorAll("svg:not([role])")].length
            + [...document.querySelectorAll("th:not([scope])")].length
            + [...document.querySelectorAll("input, select")].filter((e) => !e.labels.length).length
            """), 0)
        self.assertIn("Run 1, quarter 1", self.browser.one("#spoken").get_attribute("textContent"))

    def test_what_has_less_room_is_drawn_smaller(self):
        self.show("fair")
        self.assertEqual(self.browser.run("""
          return [...document.querySelectorAll("section")].filter((panel) => {
            panel.style.width = "320px";
            return panel.querySelector("svg")?.getBoundingClientRect().right > panel.getBoundingClientRect().right;
          }).map((panel) => panel.id)"""), [])

    def test_print(self):
        self.show("fair")
        made = self.browser.command("Page.printToPDF", printBackground=True)["data"]
        self.assertGreater(len(made), 20_000)


if __name__ == "__main__":
    unittest.main()
