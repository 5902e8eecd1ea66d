"""The rows of the market files. Members have the names of the columns, but for `from_zone` and `to_zone`.

Quantities are in MW, prices in euro per MWh. A row is a plain tuple: `bid._replace(price=Decimal("21.00"))` is another.
"""

from __future__ import annotations

from decimal import Decimal
from typing import NamedTuple

from mari.units import CAP


class Zone(NamedTuple):
    """A bidding zone and its operator (TSO)."""

    zone: str
    operator: str


class Border(NamedTuple):
    """A border, with at most `limit` MW from its first zone to its second and `back` MW the other way.

    In a folder whose limits are stated for each run (limits.csv) both are None.
    """

    from_zone: str
    to_zone: str
    limit: int | None = None
    back: int | None = None


class Bid(NamedTuple):
    """A bid for one quarter hour, which counts from 1.

    `direction` is `up` or `down`, `kind` is `both` or `scheduled`. With a `least` above 0 it runs at least that, or not
    at all.
    """

    id: str
    provider: str
    zone: str
    quarter: int
    direction: str
    price: Decimal
    least: int
    greatest: int
    kind: str = "both"

    @property
    def sign(self) -> int:
        """1 for an upward bid, which gives energy, and -1 for a downward one."""
        return 1 if self.direction == "up" else -1


class Link(NamedTuple):
    """A link between bids: `group`, `child`, `needs`, `bars` or `technical`. Of a group `first` is the group's name."""

    kind: str
    first: str
    second: str


class Run(NamedTuple):
    """A run of a quarter hour, `scheduled` or `direct`; where prices are open, the one nearest `reference` is taken."""

    run: int
    quarter: int
    kind: str
    reference: Decimal


class Demand(NamedTuple):
    """A demand of a run, negative for a surplus. Without a price it is inelastic: to be met at any price."""

    run: int
    zone: str
    mw: int
    price: Decimal | None = None

    @property
    def at_any_price(self) -> bool:
        """Whether it is inelastic: without a price, or with the worst one that there is."""
        return self.price is None or self.price == (CAP if self.mw > 0 else -CAP)


class Limit(NamedTuple):
    """The limits of a border in one run, in MW. A border without a line in a run carries nothing in it."""

    run: int
    from_zone: str
    to_zone: str
    limit: int
    back: int


class Block(NamedTuple):
    """A bid of a block, whose bids run together or not at all. Read by `Program.blocks` alone."""

    block: str
    bid: str


class Position(NamedTuple):
    """Where a zone stands on a map: `x` to the east and `y` to the north. Read by the page of a day alone."""

    zone: str
    x: float
    y: float


ROWS: dict[str, type[tuple[object, ...]]] = {
    "zones.csv": Zone,
    "borders.csv": Border,
    "bids.csv": Bid,
    "links.csv": Link,
    "runs.csv": Run,
    "demands.csv": Demand,
    "limits.csv": Limit,
    "blocks.csv": Block,
    "positions.csv": Position,
}

HEADERS: dict[str, str] = {
    "day.csv": "date,rule",
    "zones.csv": "zone,operator",
    "borders.csv": "from,to,limit,back",
    "bids.csv": "id,provider,zone,quarter,direction,price,least,greatest,kind",
    "links.csv": "kind,first,second",
    "runs.csv": "run,quarter,kind,reference",
    "demands.csv": "run,zone,mw,price",
    "limits.csv": "run,from,to,limit,back",
    "blocks.csv": "block,bid",
    "positions.csv": "zone,x,y",
}

BARE_BORDERS = "from,to"
"""The header of a borders.csv whose limits stand in limits.csv."""

FILES = ("day.csv", "zones.csv", "borders.csv", "bids.csv", "links.csv", "runs.csv", "demands.csv")
"""The files that every folder has, in the order in which the program fetches and reads them."""
