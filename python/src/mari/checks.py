"""The checks of the market files, in the program's order, with the field that is bad.

Each file has a reader (see `mari.readers`): it takes the fields of a record and gives a row, or raises `MariRefused`.
The first that is raised is the program's refusal: the same file, line and check.
"""

from __future__ import annotations

from collections.abc import Callable, Iterator
from decimal import Decimal
from typing import NoReturn

from mari import hints
from mari.clock import ClockError, DayClock
from mari.errors import MariRefused, Problem
from mari.records import decoded, is_utf8, records
from mari.rows import HEADERS
from mari.units import is_name, read_price, read_whole

CHECKS: dict[str, dict[str, int]] = {
    "day.csv": {"BadDate": 11, "BadZoneText": 12, "NotWholeQuarters": 13, "OutOfRange": 14, "NotOneRecord": 15},
    "zones.csv": {"TooManyZones": 11, "BadField": 12, "Repeated": 13, "NoZone": 14},
    "borders.csv": {
        "TooManyBorders": 11,
        "Unknown": 12,
        "SelfBorder": 13,
        "Repeated": 14,
        "Range": 15,
        "AlreadyTwo": 17,
    },
    "bids.csv": {
        "BadField": 11,
        "Repeated": 12,
        "UnknownZone": 13,
        "Quarter": 14,
        "Range": 15,
        "LeastAboveGreatest": 16,
        "TooMany": 17,
    },
    "links.csv": {
        "BadKind": 11,
        "UnknownBid": 12,
        "WrongQuarter": 13,
        "ParentNotEarlier": 14,
        "Repeated": 15,
        "BadField": 16,
        "TooManyGates": 17,
        "AcrossQuarters": 18,
    },
    "runs.csv": {"BadField": 11, "RunsOutOfOrder": 12, "Quarter": 13, "Range": 14, "TooMany": 15, "NoScheduled": 16},
    "demands.csv": {"BadField": 11, "UnknownRun": 12, "UnknownZone": 13, "Range": 14, "TooMany": 15},
    "limits.csv": {"BadField": 11, "UnknownRun": 12, "UnknownBorder": 13, "Repeated": 14, "Range": 15},
    "blocks.csv": {"BadField": 11, "UnknownBid": 12, "Quarter": 13, "Repeated": 14, "Linked": 15, "TooLarge": 17},
    "positions.csv": {"BadField": 11, "UnknownZone": 12, "Repeated": 13, "NoPosition": 14},
}
"""The numbers of each file's own checks; those of every file are 1 BadHeader, 2 BadRow and 3 NotUtf8.

positions.csv is of this package alone: the program doesn't read it.
"""

_EVERY = {"BadHeader": 1, "BadRow": 2, "NotUtf8": 3}


def refusal(
    file: str, line: int, check: str, field: str = "", value: str = "", reason: str = "", hint: str = ""
) -> MariRefused:
    """The refusal of a file by a check of this name."""
    number = _EVERY.get(check) or CHECKS[file][check]
    return MariRefused(Problem(file, line, number, check, field, value, reason, hint))


def has_header(page: bytes, header: str) -> bool:
    """Whether the first record of a page is these columns."""
    return next(records(decoded(page)[0]), None) == header.split(",")


def rows_of(file: str, page: bytes, header: str) -> tuple[Iterator[tuple[int, list[str]]], list[MariRefused]]:
    """The records of a page with their lines, and what is wrong with each by itself; faulty ones are left out."""
    text, all_utf8 = decoded(page)
    columns = header.split(",")
    if next(records(text), None) != columns:
        hint = hints.for_header(page, header)
        return iter(()), [refusal(file, 1, "BadHeader", reason=f"the first record isn't {header}", hint=hint)]
    bad: dict[int, MariRefused] = {}
    width = len(columns)
    for line, fields in enumerate(records(text), start=1):
        if len(fields) != width:
            reason = f"the record has {len(fields)} fields, and the header {width}"
            bad[line] = refusal(file, line, "BadRow", reason=reason, hint=hints.for_row(file, fields, width))
        elif not (all_utf8 or is_utf8(fields)):
            place = next(place for place, field in enumerate(fields) if not is_utf8([field]))
            value = fields[place].encode("utf-8", "surrogateescape").decode("latin-1")
            hint = "save the file as UTF-8"
            bad[line] = refusal(file, line, "NotUtf8", columns[place], value, "isn't UTF-8 (read as Latin-1)", hint)
    good = ((line, fields) for line, fields in enumerate(records(text), start=1) if line > 1 and line not in bad)
    return good, list(bad.values())


class Reader:
    """What a file's own checks need to know of the lines before. Subclasses have `take` and may have `end`."""

    file = ""

    def __init__(self) -> None:
        """No lines yet."""
        self.header = HEADERS[self.file]
        self.columns = self.header.split(",")
        self.line = 0

    def fail(self, check: str, place: int, fields: list[str], reason: str, hint: str = "") -> NoReturn:
        """Raises the refusal of this line for the field at a place."""
        raise refusal(self.file, self.line, check, self.columns[place], fields[place], reason, hint)

    def name(self, check: str, place: int, fields: list[str]) -> str:
        """The name in a field."""
        if not is_name(fields[place]):
            self.fail(check, place, fields, "isn't a name", hints.for_name(fields[place]))
        return fields[place]

    def whole(self, check: str, place: int, fields: list[str]) -> int:
        """The whole number in a field, of any size."""
        value = read_whole(fields[place])
        if value is None:
            self.fail(check, place, fields, "isn't a whole number", hints.for_whole(fields[place]))
        return value

    def price(self, check: str, place: int, fields: list[str]) -> Decimal:
        """The price in a field, of any size."""
        value = read_price(fields[place])
        if value is None:
            self.fail(check, place, fields, "isn't a price in euro", hints.for_price(fields[place]))
        return value

    def word(self, check: str, place: int, fields: list[str], words: tuple[str, ...]) -> str:
        """The word in a field."""
        if fields[place] not in words:
            self.fail(check, place, fields, "isn't a word of this column", hints.for_word(fields[place], words))
        return words[words.index(fields[place])]

    def within(
        self, check: str, place: int, fields: list[str], value: int | Decimal, least: int | Decimal, most: int | Decimal
    ) -> None:
        """Refuses a number outside a range."""
        if not least <= value <= most:
            self.fail(check, place, fields, f"isn't from {least} to {most}")

    def take(self, fields: list[str]) -> object:
        """The row of a record, or its refusal."""
        raise NotImplementedError

    def skip(self) -> None:
        """Goes over a record that was refused, so that others are looked at."""

    def end(self) -> None:
        """Refuses the whole file, where it must."""


def read_day(page: bytes) -> tuple[DayClock, str]:
    """The day of day.csv and the rule of its clock, or its refusal."""
    rows, bad = rows_of("day.csv", page, HEADERS["day.csv"])
    if bad:
        raise bad[0]
    every = [fields for _, fields in rows]
    if len(every) != 1:
        reason, hint = f"there are {len(every)} records after the header", "write exactly one"
        raise refusal("day.csv", 3 if every else 1, "NotOneRecord", reason=reason, hint=hint)
    date, rule = every[0]
    try:
        return DayClock.of(date, rule), rule
    except ClockError as error:
        value = date if error.field == "date" else rule
        if error.check == "BadDate":
            hint = "write YYYY-MM-DD, with all digits"
        elif error.check == "BadZoneText":
            hint = 'write a rule such as "CET-1CEST,M3.5.0,M10.5.0/3", in quotes'
        else:
            hint = ""
        raise refusal("day.csv", 2, error.check, error.field, value, error.reason, hint) from None


def read_rows(page: bytes, reader: Reader, take: Callable[[object], None]) -> Iterator[MariRefused]:
    """Gives each row of a page to `take`, and yields every refusal, the program's first."""
    rows, bad = rows_of(reader.file, page, reader.header)
    yield from bad
    failed = bool(bad)
    for line, fields in rows:
        reader.line = line
        try:
            take(reader.take(fields))
        except MariRefused as refused:
            failed = True
            reader.skip()
            yield refused
    if not failed:
        try:
            reader.end()
        except MariRefused as refused:
            yield refused
