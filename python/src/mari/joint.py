"""The checks of several quarter hours that `blocks` alone makes, once the market files are accepted."""

from __future__ import annotations

from collections.abc import Iterator

from mari.availability import Offers, Taken
from mari.checks import CHECKS, read_rows
from mari.errors import Problem
from mari.folder import Folder
from mari.readers import BlockReader
from mari.rows import Block, Run
from mari.units import MOST_BIDS, MOST_BORDERS, MOST_DEMANDS, MOST_GATES, MOST_ZONES


def joint_problems(folder: Folder, page: bytes, first: int, last: int) -> Iterator[Problem]:
    """What is wrong with quarter hours and a page of blocks.csv, the program's refusal first.

    Where a check finds something, no later one is made.
    """
    blocks: list[Block] = []
    reader = BlockReader(folder.bids, folder.links, first, last)
    refused = [bad.problem for bad in read_rows(page, reader, blocks.append)]  # type: ignore[arg-type]
    yield from refused
    if refused:
        return
    scheduled = {run.quarter: run for run in folder.runs if run.kind == "scheduled"}
    quarters = range(first, last + 1)
    for quarter in quarters:
        if quarter not in scheduled:
            hint = "add it, or choose other quarter hours"
            yield _problem("runs.csv", "NoScheduled", "quarter", str(quarter), "has no scheduled run", hint)
            return
    crossing = [*_across(folder, first, last)]
    yield from crossing
    if not crossing:
        yield from _too_large(folder, blocks, [scheduled[quarter] for quarter in quarters])


def _problem(file: str, check: str, field: str, value: str, reason: str, hint: str, at: int = 0) -> Problem:
    return Problem(file, 1, CHECKS[file][check], check, field, value, reason, hint, at)


def _across(folder: Folder, first: int, last: int) -> Iterator[Problem]:
    """Links in time with both bids in the quarter hours."""
    quarter_of = {bid.id: bid.quarter for bid in folder.bids if first <= bid.quarter <= last}
    for line, link in enumerate(folder.links, start=2):
        if link.kind in ("needs", "bars", "technical") and {link.first, link.second} <= quarter_of.keys():
            both = f"is of quarter {quarter_of[link.second]} and {link.first} of {quarter_of[link.first]}"
            reason = f"{both}, within {first} to {last}"
            hint = "take the line out, or choose the quarter hours so that one of the two is outside"
            yield _problem("links.csv", "AcrossQuarters", "second", link.second, reason, hint, line)


def _too_large(folder: Folder, blocks: list[Block], runs: list[Run]) -> Iterator[Problem]:
    """Quarter hours that have more together than one market may have."""
    offers = Offers(folder)
    nothing = Taken(offers)
    offered = {
        bid.id for run in runs for bid in offers.of_quarter[run.quarter] if nothing.withheld(run, bid) is None
    }
    lacking = {block for block, bid in blocks if bid not in offered}
    block_of = {bid: block for block, bid in blocks}
    inside = {bid for bid in offered if block_of.get(bid) not in lacking}
    gates = {block_of.get(bid) for bid in inside} - {None}
    numbers = {run.run for run in runs}
    counts = (
        ("zones", len(folder.zones) * len(runs), MOST_ZONES),
        ("borders", len(folder.borders) * len(runs), MOST_BORDERS),
        ("bids", len(inside), MOST_BIDS),
        ("gates", len(gates) + sum(bid in offers.gated and bid not in block_of for bid in inside), MOST_GATES),
        ("demands", sum(demand.run in numbers for demand in folder.demands), MOST_DEMANDS),
    )
    for what, count, most in counts:
        if count > most:
            reason = f"the quarter hours have together {count} {what}, and {most} are the most"
            yield _problem("blocks.csv", "TooLarge", "", "", reason, "take fewer quarter hours at a time")
            return
