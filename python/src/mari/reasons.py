"""Why each bid of each run was activated, or wasn't."""

from __future__ import annotations

from collections import Counter
from collections.abc import Iterator
from dataclasses import dataclass
from decimal import Decimal
from enum import Enum

from mari.availability import Offers, Taken, Withheld
from mari.certificate import Gate, Leaves, ReachLeaf, leaves, reach_leaves
from mari.errors import MariOtherFolder
from mari.folder import Folder
from mari.publication import Item, Publication, RunBlock
from mari.rows import Bid, Run
from mari.units import energy_money


class State(Enum):
    """What became of a bid in a run."""

    ACTIVATED = "activated"
    OUT_OF_THE_MONEY = "out of the money"
    AT_THE_PRICE = "at the price"
    REJECTED = "rejected in the money"
    WITHHELD = "withheld"
    NOT_PUBLISHED = "run not published"
    NO_RUN = "no run"


@dataclass(frozen=True)
class Reason:
    """What became of a bid in a run, and why.

    `run` is 0 where the bid's quarter hour has no run. `mw` is what was activated, of `left` MW that were left to this
    run. `margin` is by how much the zone's price pays the bid, in euro per MWh: negative out of the money, None where
    the run has no prices. `pay` is what its provider gets for it in this run, in euro (negative where it pays). `rule`
    and `by` say what withheld or excluded it: the rule's name and the bids that cause it.
    """

    run: int
    quarter: int
    bid: str
    state: State
    text: str
    mw: int = 0
    left: int = 0
    price: Decimal | None = None
    margin: Decimal | None = None
    pay: Decimal = Decimal(0)
    rule: str = ""
    by: tuple[str, ...] = ()

    def __str__(self) -> str:
        """One line."""
        run = f"run {self.run}" if self.run else f"quarter {self.quarter}"
        return f"{run}: {self.bid} {self.state.value}: {self.text}"


NO_RUN = "its quarter hour has no run in runs.csv"
_SHOWN = {
    "bound": "no greater welfare",
    "conflict": "no consistent prices",
    "cut": "no balance",
    "none": "no choice left",
}
"""What each kind of leaf shows."""


def reasons(folder: Folder, publication: Publication) -> Iterator[Reason]:
    """A reason for each bid of each run's quarter hour, run by run, then for bids of quarter hours without a run.

    Raises `MariOtherFolder` where the publication isn't one of this folder, as far as that is seen on the way.
    """
    if [block.run for block in publication.blocks] != [run.run for run in folder.runs]:
        raise MariOtherFolder("the publication has other runs than runs.csv")
    found = Reasons(folder)
    for run, block in zip(folder.runs, publication.blocks):
        yield from found.take(run, block)
    with_run = {run.quarter for run in folder.runs}
    for bid in folder.bids:
        if bid.quarter not in with_run:
            yield Reason(0, bid.quarter, bid.id, State.NO_RUN, NO_RUN, left=bid.greatest)


class Reasons:
    """Takes the blocks of a day one after the other, and gives the reasons of each."""

    def __init__(self, folder: Folder) -> None:
        """Before the first run."""
        self.offers = Offers(folder)
        self.taken = Taken(self.offers)
        self.scheduled: tuple[int, dict[str, Decimal]] = (0, {})

    def take(self, run: Run, block: RunBlock) -> list[Reason]:
        """The reasons of a run over the blocks so far: one for each bid of its quarter hour, as in bids.csv."""
        if (run.quarter, run.kind) != (block.quarter, block.kind):
            raise MariOtherFolder(f"run {run.run} has another quarter hour or kind than in runs.csv")
        if not block.published:
            return [*_of_unpublished(self.offers, self.taken, run, block)]
        quarter, prices = self.scheduled
        found = [*_RunReasons(self.offers, self.taken, run, block, prices if quarter == run.quarter else {}).all()]
        self.taken.add(run, block.bids)
        if run.kind == "scheduled":
            self.scheduled = (run.quarter, {row.zone: row.price for row in block.zones})
        return found


def _of_unpublished(offers: Offers, taken: Taken, run: Run, block: RunBlock) -> Iterator[Reason]:
    for bid in offers.of_quarter[run.quarter]:
        why = taken.withheld(run, bid)
        if why:
            yield _withheld(run, bid, why, taken)
        else:
            text = f"the search had made {block.nodes} nodes within its budget: clear with more nodes"
            yield Reason(run.run, run.quarter, bid.id, State.NOT_PUBLISHED, text, left=taken.left(bid))


def _withheld(run: Run, bid: Bid, why: Withheld, taken: Taken) -> Reason:
    left = max(0, taken.left(bid))
    return Reason(run.run, run.quarter, bid.id, State.WITHHELD, why.text, left=left, rule=why.rule, by=why.by)


def _counted(counts: Counter[str]) -> str:
    return ", ".join(f"{shown} ({count})" for shown, count in counts.most_common())


class _RunReasons:
    """The reasons of one published run."""

    def __init__(
        self, offers: Offers, taken: Taken, run: Run, block: RunBlock, scheduled: dict[str, Decimal]
    ) -> None:
        self.offers, self.taken, self.run, self.scheduled = offers, taken, run, scheduled
        self.mw = dict(block.bids)
        self.prices = {row.zone: row.price for row in block.zones}
        self.zones = [row.zone for row in block.zones]
        self.block = block
        self.gates = [name for name, _ in block.bids if name in offers.gated]
        self.leaves: Leaves | None = None
        self.reach_leaves: list[ReachLeaf] | None = None
        self.leaves_made = False

    def all(self) -> Iterator[Reason]:
        """One for each bid of the quarter hour, in the order of bids.csv."""
        bids = self.offers.of_quarter[self.run.quarter]
        unknown = self.mw.keys() - {bid.id for bid in bids}
        if unknown:
            raise MariOtherFolder(f"run {self.run.run} has the bid {min(unknown)}, which isn't of its quarter hour")
        for bid in bids:
            why = self.taken.withheld(self.run, bid)
            if (why is None) != (bid.id in self.mw):
                said = "is offered by the rules" if why is None else f"is withheld by the rules ({why.text})"
                raise MariOtherFolder(f"run {self.run.run}: {bid.id} {said}, and the publication has it otherwise")
            yield _withheld(self.run, bid, why, self.taken) if why else self._offered(bid)

    def _offered(self, bid: Bid) -> Reason:
        mw, left, price = self.mw[bid.id], self.taken.left(bid), self.prices[bid.zone]
        margin = price - bid.price if bid.direction == "up" else bid.price - price
        if mw:
            return self._activated(bid, mw, left, price, margin)
        rule, by = "", tuple[str, ...]()
        if margin < 0:
            side = "below" if bid.direction == "up" else "above"
            state = State.OUT_OF_THE_MONEY
            text = f"the price {price} of {bid.zone} is {-margin} {side} its {bid.price}"
        elif margin > 0:
            state = State.REJECTED
            rule, by, why = self._excluded(bid)
            gain = f"{margin} euro per MWh, {energy_money(margin, left)} euro in all"
            text = f"at the price {price} of {bid.zone} it would gain {gain}, but {why}"
        else:
            state = State.AT_THE_PRICE
            text = f"it asks just the price {price} of {bid.zone}, and wasn't needed"
        return Reason(self.run.run, bid.quarter, bid.id, state, text, 0, left, price, margin, rule=rule, by=by)

    def _activated(self, bid: Bid, mw: int, left: int, price: Decimal, margin: Decimal) -> Reason:
        paid = price
        if self.run.kind == "direct" and bid.zone in self.scheduled:
            choose = max if bid.direction == "up" else min
            paid = choose(price, self.scheduled[bid.zone])
        pay = energy_money(paid, mw) * bid.sign
        of = f"{mw} MW" if mw == left else f"{mw} of {left} MW"
        verb = "gets" if pay >= 0 else "pays"
        text = f"{of} at {paid}, so {bid.provider} {verb} {abs(pay)} euro"
        if paid != price:
            text += f" (the price of the scheduled run, {paid}, in place of {price})"
        return Reason(self.run.run, bid.quarter, bid.id, State.ACTIVATED, text, mw, left, price, margin, pay)

    def _excluded(self, bid: Bid) -> tuple[str, tuple[str, ...], str]:
        """Why a gated bid in the money doesn't run: the rule, the bids that cause it, and the words."""
        group = self.offers.group_of.get(bid.id)
        members = self.offers.members[group] if group is not None else []
        rivals = tuple(other for other in members if other != bid.id and self.mw.get(other, 0))
        if rivals:
            return "group", rivals, f"of its group {group} at most one bid runs, and {', '.join(rivals)} does"
        parent = self.offers.parent_of.get(bid.id)
        if parent is not None and not self.taken.is_activated(parent) and not self.mw.get(parent, 0):
            return "parent", (parent,), f"it runs only where its parent {parent} does, which isn't activated"
        if bid.id not in self.offers.gated:
            return "none", (), "nothing in the files keeps it out: check the publication"
        least = self.offers.least(bid)
        return "indivisible", (), f"it runs {least} MW at least or not at all. {self._shown(bid)}".rstrip()

    def _shown(self, bid: Bid) -> str:
        """What the certificate shows of this bid: beside the published gates, and in all other choices of gates."""
        if self.block.form == 2:
            return self._reached(bid)
        if not self.leaves_made:
            self.leaves, self.leaves_made = leaves(self.block.tree, self._gates()), True
        word = "".join("1" if self.mw[name] or name == bid.id else "0" for name in self.gates)
        leaf = self.leaves.of(word) if self.leaves is not None else None
        if self.leaves is None or leaf is None:
            return ""
        counts = Counter(_SHOWN[one.kind] for one in self.leaves.with_open(self.gates.index(bid.id)) if one is not leaf)
        shown = f"{self._leaf_text(leaf)} (the certificate's {leaf.kind})"
        text = f"With it, and every other gated bid as it is, there {shown}."
        if not counts:
            return text
        return f"{text} The certificate rules out every other choice with it: its leaves show {_counted(counts)}."

    def _reached(self, bid: Bid) -> str:
        """What a certificate of the second form shows of this bid."""
        if self.block.gap is not None:
            return f"The certificate shows that no choice with it is better by more than {self.block.gap} euro."
        if not self.leaves_made:
            self.reach_leaves, self.leaves_made = reach_leaves(self.block.tree), True
        counts = Counter(_SHOWN[leaf.item.kind] for leaf in self.reach_leaves or () if leaf.may_open(bid.id))
        if not counts:
            return ""
        return f"The certificate rules out every choice with it: its leaves show {_counted(counts)}."

    def _leaf_text(self, leaf: Item) -> str:
        shown = f"is {_SHOWN[leaf.kind]}" if leaf.kind != "conflict" else f"are {_SHOWN[leaf.kind]}"
        zones = [self.zones[number - 1] for number in leaf.zones]
        if leaf.kind == "bound":
            return shown
        if leaf.kind == "cut":
            what = "take in what they would lack" if leaf.side == "in" else "send out what they would have too much"
            return f"{shown}: {', '.join(zones)} couldn't {what}"
        if len(zones) == 1:
            return f"{shown}: in {zones[0]} one order needs a higher price than another allows"
        way = f" by {', '.join(zones[1:-1])}" if zones[1:-1] else ""
        orders = f"orders need a higher one in {zones[0]} than others allow in {zones[-1]}"
        return f"{shown}: the price can't fall from {zones[0]}{way} to {zones[-1]}, but {orders}"

    def _gates(self) -> list[Gate]:
        place = {name: at for at, name in enumerate(self.gates)}
        parents = self.offers.parent_of
        return [Gate(self.offers.group_of.get(name), place.get(parents.get(name, ""))) for name in self.gates]
