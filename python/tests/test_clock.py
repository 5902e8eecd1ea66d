"""The day's clock against the program, and local times against the standard library's time zones."""

import os
import random
import tempfile
import unittest
from datetime import datetime, timedelta, timezone
from zoneinfo import ZoneInfo, ZoneInfoNotFoundError

from mari import ClockError, DayClock, Folder, MariRefused, Zone
from mari.clock import day_number, year_of

from tests.program import PROGRAM, needs_program

COUNT = int(os.environ.get("MARI_CLOCKS", "200"))
RULE = "CET-1CEST,M3.5.0,M10.5.0/3"

CORNERS = [
    ("2025-03-12", "AAA24"),
    ("2025-03-12", "AAA25"),
    ("2025-03-12", "AAA0BBB-25,M3.5.0,M10.5.0"),
    ("2025-03-12", "AAA0BBB,M3.5.0/167,M10.5.0"),
    ("2025-03-12", "AAA0BBB,M3.5.0/168,M10.5.0"),
    ("2024-02-29", "AAA0BBB,J60,J300"),
    ("2024-03-01", "AAA0BBB,J60,J300"),
    ("2023-03-01", "AAA0BBB,J60,J300"),
    ("2024-02-29", "AAA0BBB,59,300"),
    ("2023-12-31", "AAA0BBB,365,100"),
    ("2025-03-30", "AAA-1BBB0,M10.5.0,M3.5.0/0"),
    ("2025-03-29", "AAA-1BBB0,M10.5.0,M3.5.0/0"),
    ("2025-10-25", "AAA-1BBB0,M10.5.0/0:30,M3.5.0"),
    ("2025-10-26", "AAA-1BBB0,M10.5.0/0:30,M3.5.0"),
    ("2025-03-30", "AAA0BBB,M3.5.0/0,M10.5.0"),
    ("2025-03-30", "AAA0BBB,M3.5.0/-1,M10.5.0"),
    ("2025-10-26", "AAA0BBB,M3.5.0,M10.5.0/0:30"),
    ("2025-06-01", "AAA0BBB0,M3.5.0,M10.5.0"),
    ("2025-01-01", "AAA0BBB,J1/0,J365/25"),
    ("2025-12-31", "AAA0BBB,M10.1.0,M1.1.0/-48"),
]


def random_rule(chance):
    def time(most):
        text = chance.choice(["", "", "-", "+"]) + str(chance.randint(0, most))
        return text + chance.choice(["", "", ":00", ":15", ":30", ":45", ":59:59", ":7"])

    def change():
        days = [f"M{chance.randint(0, 13)}.{chance.randint(1, 5)}.{chance.randint(0, 6)}"] * 4
        days += [f"J{chance.randint(0, 366)}", f"{chance.randint(0, 366)}"]
        return chance.choice(days) + chance.choice(["", f"/{time(4)}", f"/{time(170)}"])

    rule = chance.choice(["CET", "<+01>", "AB", "<x>", "LongName"]) + time(chance.choice([3, 12, 25]))
    if chance.random() < 0.8:
        rule += chance.choice(["CEST", "<-02>"]) + chance.choice(["", "", time(3), time(25)])
        rule += chance.choice([",", ",", ",", ""]) + change() + chance.choice([",", ",", ",", ""]) + change()
    return rule


class TestClock(unittest.TestCase):
    @needs_program
    def test_random_rules_against_the_program(self):
        chance, found = random.Random(5), 0
        days = ["0000-01-01", "9999-12-30", "9999-12-31", "2025-03-30", "2024-12-31"]
        for number in range(-len(CORNERS), COUNT):
            year, month, day = chance.randint(0, 9999), chance.randint(1, 12), chance.randint(1, 28)
            date = chance.choice([*days, f"{year:04d}-{month:02d}-{day:02d}", f"2025-{month:02d}-{day:02d}"])
            rule = chance.choice([RULE, random_rule(chance), random_rule(chance)])
            if number < 0:
                date, rule = CORNERS[number]
            with self.subTest(number=number, date=date, rule=rule), tempfile.TemporaryDirectory() as scratch:
                Folder(date, rule, [Zone("A", "T")]).write(scratch, check=False)
                printed = PROGRAM.run("clear", scratch).stdout.decode().split()
                try:
                    quarters = Folder.read(scratch).clock().quarters
                except MariRefused as refused:
                    wanted = ["refused", "day.csv", str(refused.line), str(refused.number), refused.check]
                    self.assertEqual(printed, wanted)
                else:
                    self.assertEqual(printed[:4], ["mari", "1", date, str(quarters)])
                    found += 1
        self.assertGreater(found, COUNT // 4)

    def test_local_times(self):
        for date, quarters in (("2025-03-12", 96), ("2025-03-30", 92), ("2025-10-26", 100)):
            day = DayClock.of(date, RULE)
            self.assertEqual(day.quarters, quarters)
            try:
                zone = ZoneInfo("Europe/Brussels")
            except ZoneInfoNotFoundError:
                self.skipTest("no time zones are installed")
            start = datetime.fromisoformat(date).replace(tzinfo=zone).astimezone(timezone.utc)
            for quarter in range(1, quarters + 2):
                wanted = (start + timedelta(minutes=15 * (quarter - 1))).astimezone(zone)
                self.assertEqual(day.begin(quarter).isoformat(), wanted.isoformat())
                self.assertEqual(day.text(quarter), wanted.strftime("%H:%M"))
                self.assertEqual(day.stamp(quarter), wanted.isoformat(timespec="minutes"))

    def test_stamps_of_years_that_python_has_not(self):
        first = DayClock.of("0000-02-29", RULE)
        self.assertEqual((first.stamp(1), first.stamp(97)), ("0000-02-29T00:00+01:00", "0000-03-01T00:00+01:00"))
        self.assertEqual(DayClock.of("2025-03-12", "LMT0:17:30").stamp(1), "2025-03-12T00:00-00:17:30")

    def test_days_and_years(self):
        for number in range(-800_000, 3_000_000, 9_973):
            year = year_of(number)
            self.assertTrue(day_number(year, 1, 1) <= number < day_number(year + 1, 1, 1))
        self.assertEqual(day_number(1970, 1, 1), 0)
        self.assertEqual(day_number(2025, 3, 12), (datetime(2025, 3, 12) - datetime(1970, 1, 1)).days)

    def test_faults(self):
        for date, rule, check in (
            ("2025-02-29", RULE, "BadDate"),
            ("2025-03-12", "Europe/Brussels", "BadZoneText"),
            ("9999-12-31", "UTC0", "OutOfRange"),
            ("2025-03-30", "AAA0BBB-0:10,M3.5.0,M10.5.0", "NotWholeQuarters"),
        ):
            with self.assertRaises(ClockError) as caught:
                DayClock.of(date, rule)
            self.assertEqual(caught.exception.check, check)


if __name__ == "__main__":
    unittest.main()
