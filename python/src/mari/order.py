"""An order of bids.csv for which `clear` needs smaller search trees.

The gates of a run are decided in the order of bids.csv, so that order says how large a tree is. The result stays a day
of the same market: where several activations are optimal, the order decides which of them is published.
"""

from __future__ import annotations

from collections import Counter

from mari.availability import Offers
from mari.folder import Folder
from mari.program import Program
from mari.publication import RunBlock
from mari.rows import Bid


def ordered(folder: Folder, program: Program | None = None) -> Folder:
    """A folder with the gated bids of each quarter hour in another order; all other lines stay where they are.

    First come those that the relaxed optimum runs as no gates may: in part, two of a group, or a child without its
    parent. Then come those whose price is farthest from the relaxed one. A parent stands before its children. The
    relaxed optimum is that of the first run of the quarter hour, in a copy of the folder without least quantities and
    links.
    """
    offers = Offers(folder)
    relaxed = folder.changed(bids=[bid._replace(least=0) for bid in folder.bids], links=[], blocks=None)
    blocks: dict[int, RunBlock] = {}
    for block in (program or Program()).clear(relaxed, nodes=1).blocks:
        blocks.setdefault(block.quarter, block)
    places: dict[int, list[int]] = {}
    for place, bid in enumerate(folder.bids):
        if bid.id in offers.gated and bid.quarter in blocks:
            places.setdefault(bid.quarter, []).append(place)
    bids = [*folder.bids]
    for quarter, held in places.items():
        first = _by_relaxed([folder.bids[place] for place in held], blocks[quarter], offers)
        for place, bid in zip(held, _parents_first(first, offers)):
            bids[place] = bid
    return folder.changed(bids=bids)


def _by_relaxed(bids: list[Bid], block: RunBlock, offers: Offers) -> list[Bid]:
    mw = dict(block.bids)
    prices = {row.zone: row.price for row in block.zones}
    running = Counter(offers.group_of.get(bid.id) for bid in bids if mw.get(bid.id))

    def runs_as_none_may(bid: Bid) -> bool:
        group, parent = offers.group_of.get(bid.id), offers.parent_of.get(bid.id)
        if not mw.get(bid.id):
            return False
        alone = group is None or running[group] == 1
        return mw[bid.id] < offers.least(bid) or not alone or (parent is not None and not mw.get(parent))

    return sorted(bids, key=lambda bid: (not runs_as_none_may(bid), -abs(bid.price - prices[bid.zone])))


def _parents_first(bids: list[Bid], offers: Offers) -> list[Bid]:
    """The bids in their order, but each with its parents before it where they haven't come yet."""
    known = {bid.id: bid for bid in bids}
    made: dict[str, Bid] = {}
    for bid in bids:
        chain = [bid]
        while (parent := offers.parent_of.get(chain[-1].id)) is not None and parent not in made:
            chain.append(known[parent])
        for one in reversed(chain):
            made.setdefault(one.id, one)
    return list(made.values())
