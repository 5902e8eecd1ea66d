"""The clock of a day: a POSIX rule such as `CET-1CEST,M3.5.0,M10.5.0/3`, its midnights and its quarter hours.

Days are counted in whole numbers since 1 January 1970, since the market files may state years that Python's `datetime`
hasn't. The standard library reads such rules only by changing the clock of the whole process (`time.tzset`).
"""

from __future__ import annotations

import re
from dataclasses import dataclass
from datetime import datetime, timedelta, timezone

from mari.units import MOST_QUARTERS

QUARTER = 900
"""The seconds of a quarter of an hour."""

_DAY = 86_400
_LAST_INSTANT, _FIRST_INSTANT = 253_402_207_200, -377_705_023_201
_DATE = re.compile(r"([0-9]{4})-([0-9]{2})-([0-9]{2})")
_NAME = r"(?:<[A-Za-z0-9+-]{3,15}>|[A-Za-z]{3,15})"
_TIME = r"[+-]?[0-9]{1,%d}(?::[0-5][0-9](?::[0-5][0-9])?)?"
_RULE = re.compile(
    rf"{_NAME}(?P<standard>{_TIME % 2})"
    rf"(?:{_NAME}(?P<summer>{_TIME % 2})?,(?P<start>[^,]*),(?P<end>[^,]*))?",
)
_CHANGE = re.compile(
    r"(?:J(?P<julian>[0-9]{1,3})|(?P<place>[0-9]{1,3})|M(?P<month>[0-9]{1,2})\.(?P<week>[1-5])\.(?P<weekday>[0-6]))"
    rf"(?:/(?P<time>{_TIME % 3}))?",
)


class ClockError(ValueError):
    """A date or a rule gives no day. `check` is the program's name for it, `field` the column of day.csv."""

    def __init__(self, check: str, field: str, reason: str) -> None:
        """Keeps the three."""
        super().__init__(reason)
        self.check, self.field, self.reason = check, field, reason


def is_leap(year: int) -> bool:
    """Whether a year has 366 days."""
    return year % 4 == 0 and (year % 100 != 0 or year % 400 == 0)


def month_days(year: int, month: int) -> int:
    """How many days a month has."""
    return 28 + is_leap(year) if month == 2 else 30 + (month + month // 8) % 2


def day_number(year: int, month: int, day: int) -> int:
    """The days from 1 January 1970 to a date."""
    shifted = year - (month <= 2)
    era, of_era = divmod(shifted, 400)
    of_year = (153 * ((month + 9) % 12) + 2) // 5 + day - 1
    return era * 146_097 + of_era * 365 + of_era // 4 - of_era // 100 + of_year - 719_468


def year_of(day: int) -> int:
    """The year of a day number."""
    year = 1970 + day * 400 // 146_097
    while day_number(year, 1, 1) > day:
        year -= 1
    while day_number(year + 1, 1, 1) <= day:
        year += 1
    return year


def read_date(text: str) -> int | None:
    """The day number of `YYYY-MM-DD`, where the calendar has that day."""
    found = _DATE.fullmatch(text)
    if not found:
        return None
    year, month, day = map(int, found.groups())
    if not (1 <= month <= 12 and 1 <= day <= month_days(year, month)):
        return None
    return day_number(year, month, day)


def _seconds(text: str, most_hours: int) -> int | None:
    """The seconds of `[+-]h[:mm[:ss]]`."""
    sign = -1 if text.startswith("-") else 1
    hours, *rest = (int(part) for part in text.lstrip("+-").split(":"))
    if hours > most_hours:
        return None
    return sign * (hours * 3600 + sum(part * size for part, size in zip(rest, (60, 1))))


@dataclass(frozen=True)
class Change:
    """When in a year the clock changes: on day `day` of `kind` J, n or M, at `time` seconds after its midnight."""

    kind: str
    day: tuple[int, ...]
    time: int

    def moment(self, year: int, ahead: int) -> int:
        """When it comes, in seconds on UTC's clock for a clock that is `ahead`; within the year."""
        first = day_number(year, 1, 1)
        days = 365 + is_leap(year)
        last = (first + days) * _DAY - 1
        if self.kind == "n" and self.day[0] >= days:
            return last
        if self.kind == "M":
            day = self._weekday(year)
        elif self.kind == "J":
            day = first + self.day[0] - 1 + (is_leap(year) and self.day[0] >= 60)
        else:
            day = first + self.day[0]
        return min(max(first * _DAY, day * _DAY + self.time - ahead), last)

    def _weekday(self, year: int) -> int:
        """The day number of `Mm.w.d`; week 5 is the last."""
        month, week, weekday = self.day
        if week == 5:
            last = day_number(year, month, month_days(year, month))
            return last - (last + 4 - weekday) % 7
        first = day_number(year, month, 1)
        return first + (weekday - (first + 4)) % 7 + 7 * (week - 1)


def _read_change(text: str) -> Change | None:
    found = _CHANGE.fullmatch(text)
    if not found:
        return None
    time = 7200 if found["time"] is None else _seconds(found["time"], 167)
    day: tuple[int, ...]
    if found["julian"]:
        kind, day, fits = "J", (int(found["julian"]),), 1 <= int(found["julian"]) <= 365
    elif found["place"]:
        kind, day, fits = "n", (int(found["place"]),), int(found["place"]) <= 365
    else:
        month = int(found["month"])
        kind, day, fits = "M", (month, int(found["week"]), int(found["weekday"])), 1 <= month <= 12
    return Change(kind, day, time) if fits and time is not None else None


@dataclass(frozen=True)
class Clock:
    """A clock `standard` seconds ahead of UTC, and `summer` seconds from `start` to `end` of each year."""

    standard: int
    summer: int = 0
    start: Change | None = None
    end: Change | None = None

    @classmethod
    def read(cls, rule: str) -> Clock:
        """The clock of a POSIX rule; `ClockError` where it is none."""
        found = _RULE.fullmatch(rule)
        bad = ClockError("BadZoneText", "rule", "isn't a POSIX rule of a clock")
        if not found:
            raise bad
        west = _seconds(found["standard"], 24)
        if west is None:
            raise bad
        if found["start"] is None:
            return cls(-west)
        summer = -west + 3600
        if found["summer"] is not None:
            summer_west = _seconds(found["summer"], 24)
            if summer_west is None:
                raise bad
            summer = -summer_west
        start, end = _read_change(found["start"]), _read_change(found["end"])
        if start is None or end is None:
            raise bad
        return cls(-west, summer, start, end)

    def ahead_at(self, instant: int) -> int:
        """The seconds by which it is ahead of UTC at an instant, in seconds since 1970 began in UTC."""
        if self.start is None or self.end is None:
            return self.standard
        year = year_of(instant // _DAY)
        start, end = self.start.moment(year, self.standard), self.end.moment(year, self.summer)
        first, last = day_number(year, 1, 1) * _DAY, day_number(year + 1, 1, 1) * _DAY - 1
        if start == first and not first <= end + self.standard <= last:
            end = last
        return self.summer if _within(start, end, instant) else self.standard

    def midnight(self, day: int) -> int:
        """The instant at which a day begins. One that is skipped or shown twice is that before the change."""
        if self.start is None or self.end is None:
            return day * _DAY - self.standard
        year, at = year_of(day), day * _DAY
        start, end = self.start.moment(year, 0), self.end.moment(year, 0)
        shift = self.summer - self.standard
        inside = _within(start, end, at)
        if shift > 0:
            summer = inside and not start <= at < start + shift
        else:
            summer = shift < 0 and (inside or (not start + shift <= at < start and end <= at < end - shift))
        return at - (self.summer if summer else self.standard)


def _within(start: int, end: int, at: int) -> bool:
    """Whether a moment lies from start to end, which may run across the new year."""
    return start <= at < end if start <= end else not end <= at < start


@dataclass(frozen=True)
class DayClock:
    """A day on its clock: `quarters` quarter hours from the instant `start`, in seconds since 1970 began in UTC."""

    date: str
    clock: Clock
    start: int
    quarters: int

    @classmethod
    def of(cls, date: str, rule: str) -> DayClock:
        """The day of a date and a rule, as day.csv states them; `ClockError` where there is none."""
        day = read_date(date)
        if day is None:
            raise ClockError("BadDate", "date", "isn't a day of the calendar written as YYYY-MM-DD")
        clock = Clock.read(rule)
        if day >= day_number(9999, 12, 31):
            raise ClockError("OutOfRange", "date", "is beyond the calendar, which ends on 30 December 9999")
        start, end = clock.midnight(day), clock.midnight(day + 1)
        if not (_FIRST_INSTANT <= start <= _LAST_INSTANT and _FIRST_INSTANT <= end <= _LAST_INSTANT):
            raise ClockError("OutOfRange", "date", "is beyond the calendar, which ends on 30 December 9999")
        quarters, rest = divmod(end - start, QUARTER)
        if rest or not 1 <= quarters <= MOST_QUARTERS:
            reason = f"makes a day of {end - start} s, which isn't 1 to {MOST_QUARTERS} whole quarter hours"
            raise ClockError("NotWholeQuarters", "rule", reason)
        return cls(date, clock, start, quarters)

    def begin(self, quarter: int) -> datetime:
        """When a quarter hour begins, as a local time with its distance from UTC. `quarters + 1` is the day's end.

        `OverflowError` in year 0 and on the last days of 9999, which Python's `datetime` hasn't: see `stamp`.
        """
        instant = self.start + QUARTER * (quarter - 1)
        zone = timezone(timedelta(seconds=self.clock.ahead_at(instant)))
        return datetime(1970, 1, 1, tzinfo=timezone.utc).astimezone(zone) + timedelta(seconds=instant)

    def text(self, quarter: int) -> str:
        """When a quarter hour begins, as `HH:MM` of the local clock."""
        return self.stamp(quarter)[11:16]

    def stamp(self, quarter: int) -> str:
        """When a quarter hour begins, as `YYYY-MM-DDTHH:MM+HH:MM`: `begin` as a text, in any year of the calendar."""
        instant = self.start + QUARTER * (quarter - 1)
        ahead = self.clock.ahead_at(instant)
        day, second = divmod(instant + ahead, _DAY)
        return f"{date_text(day)}T{_hours(second)}{'-' if ahead < 0 else '+'}{_hours(abs(ahead), abs(ahead) % 60 > 0)}"


def date_text(day: int) -> str:
    """The date of a day number, as `YYYY-MM-DD`."""
    year = year_of(day)
    rest, month = day - day_number(year, 1, 1), 1
    while rest >= month_days(year, month):
        rest -= month_days(year, month)
        month += 1
    return f"{year:04d}-{month:02d}-{rest + 1:02d}"


def _hours(seconds: int, exact: bool = False) -> str:
    text = f"{seconds // 3600:02d}:{seconds % 3600 // 60:02d}"
    return text + (f":{seconds % 60:02d}" if exact else "")
