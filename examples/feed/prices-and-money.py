#!/usr/bin/env python3
"""Makes two tables of the feeds of days: the prices by zone and quarter hour, and the money of each provider by day.

usage: mari feed DAY1 >day1.jsonl; mari feed DAY2 >day2.jsonl
       python3 examples/feed/prices-and-money.py day1.jsonl day2.jsonl

It reads each line with Python's json and the tables are pandas' (Debian's python3-pandas). A feed has a line for the
head, one for each run, and one for the totals. Where a quarter hour has more than one published run, its price is that of
the scheduled one. Prices are printed in euro per MWh, money in euro.
"""

import json
import sys

import pandas


def parts_of(path):
    """The parts of a feed. A whole feed ends with the totals; one that was cut off or refused doesn't."""
    with open(path, encoding="ascii") as feed:
        parts = [json.loads(line) for line in feed]
    if "budget" not in parts[0] or set(parts[-1]) != {"operators", "providers"}:
        sys.exit(f"{path}: no whole feed")
    return parts


def prices_of(date, blocks):
    """A row for each zone of each published scheduled run, in euro per MWh."""
    for block in blocks:
        if block["kind"] == "scheduled" and "zones" in block:
            for zone in block["zones"]:
                yield {"date": date, "quarter": block["quarter"], "zone": zone["name"], "price": zone["price"] / 100}


def money_of(date, totals):
    """A row for each provider, in euro: a quarter-cent is 0.0025 euro."""
    for provider in totals["providers"]:
        yield {"date": date, "provider": provider["name"], "euro": provider["amount"] / 400}


def show(title, table, form):
    """Prints a table."""
    print(title)
    for line in table.to_string(float_format=form, na_rep="").splitlines():
        print(line.rstrip())


def main():
    prices, money = [], []
    for path in sys.argv[1:]:
        head, *blocks, totals = parts_of(path)
        prices.extend(prices_of(head["date"], blocks))
        money.extend(money_of(head["date"], totals))
    table = pandas.DataFrame(prices, columns=["date", "quarter", "zone", "price"])
    show("Prices in euro per MWh", table.pivot(index=["date", "quarter"], columns="zone", values="price"), "%.2f")
    print()
    table = pandas.DataFrame(money, columns=["date", "provider", "euro"])
    show("Money of each provider in euro", table.pivot(index="provider", columns="date", values="euro"), "%.4f")


if __name__ == "__main__":
    main()
