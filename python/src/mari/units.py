"""Numbers, prices, money and names, as the market files write them and the program prints them.

Quantities are whole MW (`int`). Prices are euro per MWh with two decimals and money is euro with four, both exact
(`decimal.Decimal`). The program itself counts in cents per MWh and in quarter-cents: 1 MW over one quarter hour at
1 cent per MWh, 0.0025 euro. `cents` and `quarter_cents` give these whole numbers.
"""

from __future__ import annotations

import re
from decimal import Decimal
from functools import lru_cache

CENT = Decimal("0.01")
MONEY = Decimal("0.0001")

CAP = Decimal("99999.00")
"""The greatest price, in euro per MWh; the least is its negative. An inelastic demand buys at it."""

MOST_ZONES = 64
MOST_BORDERS = 256
MOST_QUARTERS = 400
MOST_RUNS = 1_000
MOST_BIDS = 4_096
"""Of one quarter hour."""
MOST_GATES = 512
"""Of one quarter hour."""
MOST_DEMANDS = 512
"""Of one run."""
MOST_BID_MW = 9_999
MOST_MW = 99_999
MOST_NODES = 50_000
"""The greatest budget of nodes of a search."""
MOST_WORKERS = 16
MOST_RAISE = 1_000
"""The most MW by which `Program.value` raises a limit."""
MOST_GAP = Decimal(10**16)
"""The greatest gap of a run of the second form, in euro."""
MOST_FILE_BYTES = 268_435_456

NAME = re.compile(r"[A-Za-z0-9_-]{1,16}")
_WHOLE = re.compile(r"(-?)0*([0-9]+)")
_PRICE = re.compile(r"-?[0-9]+(?:\.[0-9]{1,2})?")
_DECIMAL = re.compile(r"-?[0-9]{1,15}(?:\.[0-9]{1,15})?")
_BEYOND = 10**18


def is_name(text: str) -> bool:
    """Whether a text is a name: 1 to 16 ASCII letters, ASCII digits, `-` or `_`."""
    return NAME.fullmatch(text) is not None


@lru_cache(maxsize=1 << 16)
def read_whole(text: str) -> int | None:
    """The whole number that a text writes: a minus or none, and digits. Of more than 18 digits it is 10^18."""
    found = _WHOLE.fullmatch(text)
    if not found:
        return None
    size = int(found[2]) if len(found[2]) <= 18 else _BEYOND
    return -size if found[1] else size


@lru_cache(maxsize=1 << 16)
def read_price(text: str) -> Decimal | None:
    """The price that a text writes, in euro per MWh: a minus or none, digits, at most two decimals."""
    return Decimal(text) if _PRICE.fullmatch(text) else None


def read_decimal(text: str) -> float | None:
    """The number that a text writes: a minus or none, digits, and decimals or none."""
    return float(text) if _DECIMAL.fullmatch(text) else None


def price_of(value: Decimal | int | float | str) -> Decimal:
    """A price in euro per MWh with two decimals, exactly; `ValueError` where it has more, or is no number.

    A float counts as what it prints: 20.1 is 20.10.
    """
    exact = Decimal(repr(float(value))) if isinstance(value, float) else Decimal(value)
    if not exact.is_finite() or exact != exact.quantize(CENT):
        raise ValueError(f"{value!r} isn't a price in whole cents")
    return exact.quantize(CENT) + 0


def price_text(value: Decimal | int | float | str) -> str:
    """A price as the market files write it, with two decimals."""
    return f"{price_of(value):.2f}"


def cents(price: Decimal) -> int:
    """A price in whole cents per MWh."""
    return int(price * 100)


def quarter_cents(money: Decimal) -> int:
    """Money in whole quarter-cents, of which 400 are a euro."""
    return int(money * 400)


def euros(quarters: int) -> Decimal:
    """Quarter-cents in euro, with four decimals."""
    return (Decimal(quarters) / 400).quantize(MONEY)


def energy_money(price: Decimal, mw: int) -> Decimal:
    """What `mw` MW over a quarter hour are worth at a price, in euro."""
    return (price * mw / 4).quantize(MONEY)
