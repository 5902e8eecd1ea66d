"""Which bids a run is offered, and by which rule one is withheld from it.

A run is offered the bids of its quarter hour that its kind allows, of which something is left, and that no link to
another bid withholds. What earlier runs took comes from the published blocks alone.
"""

from __future__ import annotations

from collections import defaultdict
from collections.abc import Iterable
from dataclasses import dataclass

from mari.folder import Folder
from mari.publication import Activation
from mari.rows import Bid, Run


@dataclass(frozen=True)
class Withheld:
    """Why a bid isn't offered to a run: the rule, the bids that cause it, and the sentence.

    `rule` is `kind`, `sold out`, `taken`, `group`, `needs`, `bars`, `technical` or `parent`.
    """

    rule: str
    by: tuple[str, ...]
    text: str


class Offers:
    """The bids of a folder with their links, by quarter hour."""

    def __init__(self, folder: Folder) -> None:
        """Of an accepted folder."""
        self.bids = {bid.id: bid for bid in folder.bids}
        self.of_quarter: dict[int, list[Bid]] = defaultdict(list)
        for bid in folder.bids:
            self.of_quarter[bid.quarter].append(bid)
        self.group_of: dict[str, str] = {}
        self.parent_of: dict[str, str] = {}
        self.members: dict[str, list[str]] = defaultdict(list)
        self.needs: dict[str, list[str]] = defaultdict(list)
        self.bars: dict[str, list[str]] = defaultdict(list)
        self.technical: dict[str, list[str]] = defaultdict(list)
        for link in folder.links:
            if link.kind == "group":
                self.group_of[link.second] = link.first
                self.members[link.first].append(link.second)
            elif link.kind == "child":
                self.parent_of[link.first] = link.second
            else:
                getattr(self, link.kind)[link.first].append(link.second)
        self.held = {*self.group_of, *self.parent_of, *self.needs, *self.bars, *self.technical}
        linked = {*self.group_of, *self.parent_of, *self.parent_of.values()}
        self.gated = {bid.id for bid in folder.bids if bid.least > 0 or bid.id in linked}

    def least(self, bid: Bid) -> int:
        """The least MW at which a bid runs, if it does: of one with a gate 1 at least."""
        return max(1, bid.least) if bid.id in self.gated else 0


class Taken:
    """What the published blocks so far took."""

    def __init__(self, offers: Offers) -> None:
        """Nothing yet."""
        self.offers = offers
        self.mw: dict[str, int] = defaultdict(int)
        self.run_of: dict[str, int] = {}
        self.direct: set[str] = set()

    def add(self, run: Run, activations: Iterable[Activation]) -> None:
        """Takes what a published block activates."""
        for bid, mw in activations:
            if mw > 0:
                self.mw[bid] += mw
                self.run_of[bid] = run.run
                if run.kind == "direct":
                    self.direct.add(bid)

    def is_activated(self, bid: str) -> bool:
        """Whether a published block so far activated a bid."""
        return self.mw.get(bid, 0) > 0

    def left(self, bid: Bid) -> int:
        """The MW of a bid that are left."""
        return bid.greatest - self.mw.get(bid.id, 0)

    def withheld(self, run: Run, bid: Bid) -> Withheld | None:
        """Why a bid of the run's quarter hour isn't offered to it, or None where it is."""
        return self._by_itself(run, bid) or self._by_parent(run, bid)

    def _by_itself(self, run: Run, bid: Bid) -> Withheld | None:
        """Why it isn't, but for its parents."""
        if run.kind == "direct" and bid.kind != "both":
            return Withheld("kind", (), "it is for scheduled runs alone, and this run is direct")
        used = self._used(bid) if bid.id in self.mw else None
        if used or bid.id not in self.offers.held:
            return used
        return self._by_group(bid) or self._by_links(bid)

    def _used(self, bid: Bid) -> Withheld | None:
        mw = self.mw.get(bid.id, 0)
        if bid.id in self.offers.gated and mw > 0:
            text = f"run {self.run_of[bid.id]} activated {mw} MW of it, and such a bid runs once"
            return Withheld("taken", (), text)
        if mw >= bid.greatest:
            return Withheld("sold out", (), f"all of its {bid.greatest} MW were activated by run {self.run_of[bid.id]}")
        return None

    def _by_group(self, bid: Bid) -> Withheld | None:
        group = self.offers.group_of.get(bid.id)
        others = self.offers.members[group] if group is not None else []
        rivals = tuple(other for other in others if other != bid.id and self.is_activated(other))
        if not rivals:
            return None
        return Withheld("group", rivals, f"{self._activated(rivals)}, of its group {group}")

    def _by_links(self, bid: Bid) -> Withheld | None:
        lacks = tuple(other for other in self.offers.needs.get(bid.id, ()) if not self.is_activated(other))
        if lacks:
            return Withheld("needs", lacks, f"it needs {', '.join(lacks)}, not activated")
        bars = tuple(other for other in self.offers.bars.get(bid.id, ()) if self.is_activated(other))
        if bars:
            return Withheld("bars", bars, f"{self._activated(bars)}, which bars it")
        technical = tuple(other for other in self.offers.technical.get(bid.id, ()) if other in self.direct)
        if technical:
            text = f"{', '.join(technical)} was activated in a direct run, which bars it (technical)"
            return Withheld("technical", technical, text)
        return None

    def _by_parent(self, run: Run, bid: Bid) -> Withheld | None:
        """Where a parent isn't offered, or one above it, and none between ran before."""
        above: list[str] = []
        parent = self.offers.parent_of.get(bid.id)
        while parent is not None and not self.is_activated(parent):
            above.append(parent)
            why = self._by_itself(run, self.offers.bids[parent])
            if why:
                since = f", since {parent} above it isn't" if len(above) > 1 else ""
                return Withheld("parent", (above[0],), f"its parent {above[0]} isn't offered{since}: {why.text}")
            parent = self.offers.parent_of.get(parent)
        return None

    def _activated(self, bids: tuple[str, ...]) -> str:
        return ", ".join(f"run {self.run_of[bid]} activated {bid}" for bid in bids)
