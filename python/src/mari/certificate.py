"""What the certificate of a block says about gate words: which leaf excludes each.

The tree decides the gates of the run in their order, closed first: the gated bids that it is offered, in the order of
bids.csv. The open side of a branch is there only where the gate may be open: its parent is open, and no open gate is of
its group. A tree of the second form decides gates and prices in any order, and both sides of each branch are there.
"""

from __future__ import annotations

from collections.abc import Iterator, Sequence
from decimal import Decimal
from typing import NamedTuple

from mari.publication import Item


class Gate(NamedTuple):
    """A gate: the name of its group, and the place of its parent among the gates, where it has them."""

    group: str | None = None
    parent: int | None = None


class Decision(NamedTuple):
    """A decision of a tree of the second form: at the gate of a bid, or at a price of a zone."""

    bid: str
    zone: str
    price: Decimal | None
    above: bool
    """Whether the gate is open, or the price of the zone a cent more than `price` or above."""


class ReachLeaf(NamedTuple):
    """A leaf of a tree of the second form, and the decisions that lead to it."""

    item: Item
    decisions: tuple[Decision, ...]

    def may_open(self, bid: str) -> bool:
        """Whether the gate of a bid isn't decided closed."""
        return all(one.above or one.bid != bid for one in self.decisions)


class Leaves:
    """The leaves of a certificate by their prefixes, each a text of 0 (closed) and 1 (open)."""

    def __init__(self, by_prefix: dict[str, Item]) -> None:
        """See `leaves`."""
        self.by_prefix = by_prefix

    def of(self, word: str) -> Item | None:
        """The leaf whose prefix begins a gate word."""
        starts = (word[:size] for size in range(len(word) + 1))
        return next((self.by_prefix[start] for start in starts if start in self.by_prefix), None)

    def with_open(self, place: int) -> Iterator[Item]:
        """The leaves in which the gate at a place is open or undecided."""
        return (item for prefix, item in self.by_prefix.items() if len(prefix) <= place or prefix[place] == "1")


def leaves(tree: Sequence[Item], gates: Sequence[Gate]) -> Leaves | None:
    """The leaves of a tree over these gates; None where it has other gates."""
    found: dict[str, Item] = {}
    waiting = [""]
    for item in tree:
        if not waiting:
            return None
        prefix = waiting.pop()
        if item.kind != "branch":
            found[prefix] = item
            continue
        if len(prefix) >= len(gates):
            return None
        if may_open(prefix, gates):
            waiting.append(prefix + "1")
        waiting.append(prefix + "0")
    return None if waiting else Leaves(found)


def may_open(prefix: str, gates: Sequence[Gate]) -> bool:
    """Whether the gate after a prefix may be open."""
    gate = gates[len(prefix)]
    if gate.parent is not None and prefix[gate.parent] != "1":
        return False
    return gate.group is None or all(
        state == "0" or other.group != gate.group for state, other in zip(prefix, gates)
    )


def reach_leaves(tree: Sequence[Item]) -> list[ReachLeaf] | None:
    """The leaves of a tree of the second form in its order; None where it isn't whole."""
    found: list[ReachLeaf] = []
    waiting: list[tuple[Decision, ...]] = [()]
    for item in tree:
        if not waiting:
            return None
        decisions = waiting.pop()
        if item.is_leaf:
            found.append(ReachLeaf(item, decisions))
            continue
        above, below = (Decision(item.bid, item.zone, item.price, side) for side in (True, False))
        waiting += [(*decisions, above), (*decisions, below)]
    return None if waiting else found
