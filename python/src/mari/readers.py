"""The readers of the market files: each takes the fields of a record and gives a row, or refuses it."""

from __future__ import annotations

from collections import Counter
from sys import intern

from mari import hints
from mari.checks import Reader, refusal
from mari.rows import BARE_BORDERS, Bid, Block, Border, Demand, Limit, Link, Position, Run, Zone
from mari.units import (
    CAP,
    MOST_BID_MW,
    MOST_BIDS,
    MOST_BORDERS,
    MOST_DEMANDS,
    MOST_GATES,
    MOST_MW,
    MOST_RUNS,
    MOST_ZONES,
    read_decimal,
    read_whole,
)


class ZoneReader(Reader):
    """zones.csv."""

    file = "zones.csv"

    def __init__(self) -> None:
        """No zones yet."""
        super().__init__()
        self.zones: dict[str, int] = {}

    def take(self, fields: list[str]) -> Zone:
        """The zone of a record."""
        if len(self.zones) >= MOST_ZONES:
            self.fail("TooManyZones", 0, fields, f"is zone {MOST_ZONES + 1}", f"keep to {MOST_ZONES}")
        zone, operator = self.name("BadField", 0, fields), self.name("BadField", 1, fields)
        if zone in self.zones:
            self.fail("Repeated", 0, fields, f"is the zone of line {self.zones[zone]} too", "take one of the two out")
        self.zones[zone] = self.line
        return Zone(zone, operator)

    def end(self) -> None:
        """A file without zones is refused."""
        if not self.zones:
            raise refusal(self.file, 1, "NoZone", reason="the file has no zone", hint="add one at least")


class BorderReader(Reader):
    """borders.csv, with limits or without."""

    file = "borders.csv"

    def __init__(self, zones: dict[str, int], bare: bool) -> None:
        """No borders yet."""
        super().__init__()
        self.zones, self.bare = zones, bare
        if bare:
            self.header = BARE_BORDERS
            self.columns = self.header.split(",")
        self.lines: dict[frozenset[str], int] = {}

    def take(self, fields: list[str]) -> Border:
        """The border of a record."""
        if len(self.lines) >= MOST_BORDERS:
            self.fail("TooManyBorders", 0, fields, f"begins border {MOST_BORDERS + 1}", f"keep to {MOST_BORDERS}")
        for place in (0, 1):
            if fields[place] not in self.zones:
                hint = hints.for_known(fields[place], self.zones, "the zone to zones.csv")
                self.fail("Unknown", place, fields, "isn't a zone of zones.csv", hint)
        start, end = fields[:2]
        if start == end:
            self.fail("SelfBorder", 1, fields, "is the first zone too", "name two zones")
        pair = frozenset((start, end))
        if pair in self.lines:
            self.fail("Repeated", 0, fields, f"has its border to {end} at line {self.lines[pair]} already", "keep one")
        if self.bare:
            self.lines[pair] = self.line
            return Border(start, end)
        limits = []
        for place in (2, 3):
            value = read_whole(fields[place])
            if value is None:
                self.fail("Range", place, fields, "isn't a whole number", hints.for_whole(fields[place]))
            self.within("Range", place, fields, value, 0, MOST_MW)
            limits.append(value)
        self.lines[pair] = self.line
        return Border(start, end, *limits)


class BidReader(Reader):
    """bids.csv."""

    file = "bids.csv"

    def __init__(self, zones: dict[str, int], quarters: int) -> None:
        """No bids yet."""
        super().__init__()
        self.zones, self.quarters = zones, quarters
        self.lines: dict[str, int] = {}
        self.counts: Counter[int] = Counter()

    def take(self, fields: list[str]) -> Bid:
        """The bid of a record."""
        name, provider = self.name("BadField", 0, fields), intern(self.name("BadField", 1, fields))
        quarter = self.whole("BadField", 3, fields)
        direction = self.word("BadField", 4, fields, ("up", "down"))
        price = self.price("BadField", 5, fields)
        least, greatest = self.whole("BadField", 6, fields), self.whole("BadField", 7, fields)
        kind = self.word("BadField", 8, fields, ("both", "scheduled"))
        if name in self.lines:
            self.fail("Repeated", 0, fields, f"is the id of line {self.lines[name]} too", "give each bid its own id")
        if fields[2] not in self.zones:
            hint = hints.for_known(fields[2], self.zones, "the zone to zones.csv")
            self.fail("UnknownZone", 2, fields, "isn't a zone of zones.csv", hint)
        self.within("Quarter", 3, fields, quarter, 1, self.quarters)
        self.within("Range", 5, fields, price, -CAP, CAP)
        self.within("Range", 7, fields, greatest, 1, MOST_BID_MW)
        self.within("Range", 6, fields, least, 0, MOST_BID_MW)
        if least > greatest:
            self.fail("LeastAboveGreatest", 6, fields, f"is above greatest, {greatest}", "mend one of the two")
        if self.counts[quarter] >= MOST_BIDS:
            self.fail("TooMany", 3, fields, f"has {MOST_BIDS} bids already", f"keep to {MOST_BIDS}")
        self.counts[quarter] += 1
        self.lines[name] = self.line
        return Bid(name, provider, intern(fields[2]), quarter, direction, price, least, greatest, kind)


class LinkReader(Reader):
    """links.csv."""

    file = "links.csv"
    kinds = ("group", "child", "needs", "bars", "technical")

    def __init__(self, bids: list[Bid]) -> None:
        """No links yet."""
        super().__init__()
        self.bids = bids
        self.place_of = {bid.id: place for place, bid in enumerate(bids)}
        self.group_quarter: dict[str, int] = {}
        self.group_of: dict[str, str] = {}
        self.parent_of: dict[str, str] = {}
        self.timed: dict[Link, int] = {}

    def take(self, fields: list[str]) -> Link:
        """The link of a record."""
        link = Link(self.word("BadKind", 0, fields, self.kinds), fields[1], fields[2])
        if link.kind == "group":
            self.name("BadField", 1, fields)
        for place in (2,) if link.kind == "group" else (1, 2):
            if fields[place] not in self.place_of:
                hint = hints.for_known(fields[place], self.place_of, "the bid to bids.csv")
                self.fail("UnknownBid", place, fields, "isn't a bid of bids.csv", hint)
        self._quarters(link, fields)
        if link.kind == "child" and self.place_of[link.second] >= self.place_of[link.first]:
            reason = "doesn't stand before its child in bids.csv"
            self.fail("ParentNotEarlier", 2, fields, reason, "put it before, or write first the child, then the parent")
        self._keep(link, fields)
        return link

    def _quarters(self, link: Link, fields: list[str]) -> None:
        second = self.bids[self.place_of[link.second]].quarter
        if link.kind == "group":
            wanted = self.group_quarter.get(link.first, second)
            if second != wanted:
                self.fail("WrongQuarter", 2, fields, f"is of quarter {second}, and its group of {wanted}")
            return
        first = self.bids[self.place_of[link.first]].quarter
        before = {"child": (0,), "technical": (1,)}.get(link.kind, (1, 2))
        if first - second not in before:
            wanted_text = " or ".join(str(first - back) for back in before)
            self.fail("WrongQuarter", 2, fields, f"is of quarter {second}, and should be of {wanted_text}")

    def _keep(self, link: Link, fields: list[str]) -> None:
        if link.kind == "group":
            if link.second in self.group_of:
                self.fail("Repeated", 2, fields, f"is in group {self.group_of[link.second]} already")
            self.group_of[link.second] = link.first
            self.group_quarter.setdefault(link.first, self.bids[self.place_of[link.second]].quarter)
        elif link.kind == "child":
            if link.first in self.parent_of:
                self.fail("Repeated", 1, fields, f"has the parent {self.parent_of[link.first]} already")
            self.parent_of[link.first] = link.second
        else:
            if link in self.timed:
                self.fail("Repeated", 1, fields, f"stands so at line {self.timed[link]} already")
            self.timed[link] = self.line

    def end(self) -> None:
        """A quarter hour with too many gated bids is refused."""
        gated = {*self.group_of, *self.parent_of, *self.parent_of.values()}
        counts = Counter(bid.quarter for bid in self.bids if bid.least > 0 or bid.id in gated)
        for quarter, count in counts.items():
            if count > MOST_GATES:
                reason = f"quarter {quarter} has {count} bids that are indivisible, in a group, a child or a parent"
                raise refusal(self.file, 1, "TooManyGates", reason=reason, hint=f"keep to {MOST_GATES}")


class RunReader(Reader):
    """runs.csv."""

    file = "runs.csv"

    def __init__(self, quarters: int) -> None:
        """No runs yet."""
        super().__init__()
        self.quarters, self.count, self.last = quarters, 0, 0

    def take(self, fields: list[str]) -> Run:
        """The run of a record."""
        if self.count >= MOST_RUNS:
            self.fail("TooMany", 0, fields, f"is run {MOST_RUNS + 1}", f"keep to {MOST_RUNS}")
        number, quarter = self.whole("BadField", 0, fields), self.whole("BadField", 1, fields)
        kind = self.word("BadField", 2, fields, ("scheduled", "direct"))
        reference = self.price("BadField", 3, fields)
        if number != self.count + 1:
            self.fail("RunsOutOfOrder", 0, fields, "isn't the next run", f"write {self.count + 1}")
        if self.count and quarter < self.last:
            self.fail("RunsOutOfOrder", 1, fields, f"is before quarter {self.last} of the run above")
        if self.count and kind == "scheduled" and quarter == self.last:
            reason = f"comes after another run of quarter {quarter}"
            self.fail("RunsOutOfOrder", 2, fields, reason, "a quarter hour has one scheduled run at most, its first")
        self.within("Quarter", 1, fields, quarter, 1, self.quarters)
        self.within("Range", 3, fields, reference, -CAP, CAP)
        self.count, self.last = self.count + 1, quarter
        return Run(number, quarter, kind, reference)

    def skip(self) -> None:
        """A refused run has its number all the same."""
        self.count += 1


class DemandReader(Reader):
    """demands.csv."""

    file = "demands.csv"

    def __init__(self, zones: dict[str, int], runs: int) -> None:
        """No demands yet."""
        super().__init__()
        self.zones, self.runs = zones, runs
        self.counts: Counter[int] = Counter()

    def take(self, fields: list[str]) -> Demand:
        """The demand of a record."""
        run, mw = self.whole("BadField", 0, fields), self.whole("BadField", 2, fields)
        price = self.price("BadField", 3, fields) if fields[3] else None
        if not 1 <= run <= self.runs:
            self.fail("UnknownRun", 0, fields, "isn't a run of runs.csv", "add the run, or mend its number")
        if fields[1] not in self.zones:
            hint = hints.for_known(fields[1], self.zones, "the zone to zones.csv")
            self.fail("UnknownZone", 1, fields, "isn't a zone of zones.csv", hint)
        self.within("Range", 2, fields, mw, -MOST_MW, MOST_MW)
        if price is not None:
            self.within("Range", 3, fields, price, -CAP, CAP)
        if self.counts[run] >= MOST_DEMANDS:
            self.fail("TooMany", 0, fields, f"has {MOST_DEMANDS} demands already", f"keep to {MOST_DEMANDS}")
        self.counts[run] += 1
        return Demand(run, fields[1], mw, price)


class LimitReader(Reader):
    """limits.csv."""

    file = "limits.csv"

    def __init__(self, borders: list[Border], runs: int) -> None:
        """No limits yet."""
        super().__init__()
        self.borders = {(border.from_zone, border.to_zone) for border in borders}
        self.runs = runs
        self.lines: dict[tuple[int, str, str], int] = {}

    def take(self, fields: list[str]) -> Limit:
        """The limits of a record."""
        run, limit, back = (self.whole("BadField", place, fields) for place in (0, 3, 4))
        if not 1 <= run <= self.runs:
            self.fail("UnknownRun", 0, fields, "isn't a run of runs.csv", "add the run, or mend its number")
        if (fields[1], fields[2]) not in self.borders:
            turned = (fields[2], fields[1]) in self.borders
            hint = f"write {fields[2]},{fields[1]} as in borders.csv" if turned else "add the border to borders.csv"
            self.fail("UnknownBorder", 1, fields, f"has no border to {fields[2]} in borders.csv", hint)
        key = (run, fields[1], fields[2])
        if key in self.lines:
            reason = f"has this border at line {self.lines[key]} already"
            self.fail("Repeated", 0, fields, reason, "take one of the two out")
        self.within("Range", 3, fields, limit, 0, MOST_MW)
        self.within("Range", 4, fields, back, 0, MOST_MW)
        self.lines[key] = self.line
        return Limit(run, fields[1], fields[2], limit, back)


class BlockReader(Reader):
    """blocks.csv, for the quarter hours from `first` to `last`; without them any quarter hour is taken."""

    file = "blocks.csv"

    def __init__(self, bids: list[Bid], links: list[Link], first: int = 1, last: int = 400) -> None:
        """No blocks yet."""
        super().__init__()
        self.quarter_of = {bid.id: bid.quarter for bid in bids}
        self.first, self.last = first, last
        self.linked = {link.second for link in links if link.kind in ("group", "child")}
        self.linked |= {link.first for link in links if link.kind == "child"}
        self.lines: dict[str, int] = {}

    def take(self, fields: list[str]) -> Block:
        """The bid of a block."""
        block, bid = self.name("BadField", 0, fields), fields[1]
        if bid not in self.quarter_of:
            hint = hints.for_known(bid, self.quarter_of, "the bid to bids.csv")
            self.fail("UnknownBid", 1, fields, "isn't a bid of bids.csv", hint)
        quarter = self.quarter_of[bid]
        if not self.first <= quarter <= self.last:
            self.fail("Quarter", 1, fields, f"is of quarter {quarter}, outside {self.first} to {self.last}")
        if bid in self.lines:
            self.fail("Repeated", 1, fields, f"is in the block of line {self.lines[bid]} already")
        if bid in self.linked:
            self.fail("Linked", 1, fields, "is in a group, or is a child or a parent")
        self.lines[bid] = self.line
        return Block(block, bid)


class PositionReader(Reader):
    """positions.csv."""

    file = "positions.csv"

    def __init__(self, zones: list[Zone]) -> None:
        """No positions yet."""
        super().__init__()
        self.zones = dict.fromkeys((row.zone for row in zones), 0)

    def take(self, fields: list[str]) -> Position:
        """The position of a zone."""
        numbers = [read_decimal(field) for field in fields[1:]]
        for place, number in enumerate(numbers, start=1):
            if number is None:
                self.fail("BadField", place, fields, "isn't a decimal number", "write a number such as -4.25")
        if fields[0] not in self.zones:
            hint = hints.for_known(fields[0], self.zones, "the zone to zones.csv")
            self.fail("UnknownZone", 0, fields, "isn't a zone of zones.csv", hint)
        if self.zones[fields[0]]:
            self.fail("Repeated", 0, fields, f"is the zone of line {self.zones[fields[0]]} too")
        self.zones[fields[0]] = self.line
        return Position(fields[0], numbers[0] or 0.0, numbers[1] or 0.0)

    def end(self) -> None:
        """Each zone has a position."""
        for zone, line in self.zones.items():
            if not line:
                raise refusal(self.file, 1, "NoPosition", "zone", zone, "has no position", "add its line")
