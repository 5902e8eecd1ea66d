"""The text of a printed day, of either form, read into rows.

Prices are in euro per MWh and money in euro, both exact decimals; quantities are in MW. `Program.check`, or of the
second form `Reach.check`, is what says whether a publication is that of its folder: reading tests the form of lines
alone.
"""

from __future__ import annotations

import re
from collections.abc import Iterable, Iterator
from dataclasses import dataclass, field
from decimal import Decimal
from os import PathLike
from pathlib import Path
from typing import NamedTuple, TextIO

from mari.errors import MariMissing, MariText, MariUnreadable, shown
from mari.text import PRICE, WHOLE, Lines
from mari.units import MOST_GAP, MOST_NODES, NAME, euros


class ZonePrice(NamedTuple):
    """A zone's published price, the interval that it was taken from, and its price area, from 1."""

    zone: str
    price: Decimal
    least: Decimal
    greatest: Decimal
    area: int


class Flow(NamedTuple):
    """The MW that flow over a border, negative from its second zone to its first, and its rent."""

    from_zone: str
    to_zone: str
    mw: int
    rent: Decimal


class Activation(NamedTuple):
    """A bid that is offered to the run, and the MW that are activated of it."""

    bid: str
    mw: int


class OperatorMoney(NamedTuple):
    """What an operator pays for its net import, its part of the rents, and the first less the second."""

    operator: str
    payment: Decimal
    rent: Decimal
    net: Decimal


class ProviderMoney(NamedTuple):
    """What a provider gets for its energy."""

    provider: str
    amount: Decimal


@dataclass(frozen=True)
class Item:
    """An item of a certificate: a branch, or a leaf with what it states.

    In the first form a branch is a `branch`, and a leaf a `bound`, `cut` or `conflict`. In the second a branch is a
    `branch` at the gate of a bid or a `price` of a zone, and a leaf a `bound`, `cut` or `none`. `lines` has what stands
    in its lines after their first words. Numbers are read when they are asked for, since a great tree has millions.
    Zones count from 1.
    """

    kind: str
    lines: tuple[str, ...] = ()

    @property
    def is_leaf(self) -> bool:
        """Whether no items are below it."""
        return self.kind not in ("branch", "price")

    @property
    def bid(self) -> str:
        """Of a branch of the second form: the bid whose gate is closed first, and then open."""
        return self.lines[0] if self.kind == "branch" and self.lines else ""

    @property
    def zone(self) -> str:
        """Of a `price`: the zone whose price is at most the stated one first, and then a cent more or above."""
        return self.lines[0].partition(" ")[0] if self.kind == "price" else ""

    @property
    def price(self) -> Decimal | None:
        """Of a `price`: the price."""
        return Decimal(self.lines[0].partition(" ")[2]) if self.kind == "price" else None

    @property
    def zones(self) -> list[int]:
        """The zones of a cut, or those of a conflict, in the order of its path."""
        if self.kind == "cut":
            return [int(word) for word in self.lines[0].split()[1:]]
        return [int(word) for word in self.lines[0].split()] if self.kind == "conflict" else []

    @property
    def side(self) -> str:
        """Of a cut: `in` where its zones lack energy, and `out` where they have too much."""
        return self.lines[0].partition(" ")[0] if self.kind == "cut" else ""

    @property
    def prices(self) -> list[Decimal]:
        """A price for each zone: the potentials of a bound, or the prices of a conflict's activation."""
        place = {"bound": 0, "conflict": 1}.get(self.kind)
        return [] if place is None else [Decimal(word) for word in self.lines[place].split()]

    @property
    def flows(self) -> list[int]:
        """Of a conflict: the flow over each border."""
        return [int(word) for word in self.lines[2].split()] if self.kind == "conflict" else []

    @property
    def mws(self) -> list[int]:
        """Of a conflict: the MW of each bid and then of each demand."""
        return [int(word) for word in self.lines[3].split()] if self.kind == "conflict" else []


@dataclass
class Island:
    """An island of a run that `split` cleared: its number from 1, its own welfare, its zones and its certificate."""

    number: int
    welfare: Decimal
    zones: list[str]
    tree: list[Item]


@dataclass
class RunBlock:
    """What a run found. Where it isn't published, `nodes` says how many were made, and all else is empty.

    `demands` has the MW that are met of each demand of the run, in the order of demands.csv, and `tree` the items of
    the certificate in preorder. `islands` is of `split` alone, where `tree` is empty and there is no money; in a run
    that isn't published `island` is then the one that is the cause.

    In the second form every run is published: with the first activation, or with one that is `within` a gap. Then `gap`
    says by how much more welfare than the printed one an admissible activation has at most, in euro.
    """

    run: int
    quarter: int
    kind: str
    nodes: int | None = None
    welfare: Decimal = Decimal(0)
    zones: list[ZonePrice] = field(default_factory=list)
    borders: list[Flow] = field(default_factory=list)
    bids: list[Activation] = field(default_factory=list)
    demands: list[int] = field(default_factory=list)
    tree: list[Item] = field(default_factory=list)
    operators: list[OperatorMoney] = field(default_factory=list)
    providers: list[ProviderMoney] = field(default_factory=list)
    islands: list[Island] = field(default_factory=list)
    island: int | None = None
    form: int = 1
    gap: Decimal | None = None

    @property
    def published(self) -> bool:
        """Whether the run is published."""
        return self.nodes is None

    @property
    def first(self) -> bool:
        """Whether its activation is shown to be the first: the best, and of several best ones the earliest."""
        return self.published and self.gap is None

    def price(self, zone: str) -> Decimal:
        """The published price of a zone."""
        return next(row.price for row in self.zones if row.zone == zone)


@dataclass
class Publication:
    """A printed day: its blocks in the order of the runs, and the totals over the published ones.

    `budget` is the number of nodes that each search had, and `form` 1 for a text of `mari clear`, 2 for one of `reach
    clear`.
    """

    date: str
    quarters: int
    budget: int
    blocks: list[RunBlock] = field(default_factory=list)
    operators: list[OperatorMoney] = field(default_factory=list)
    providers: list[ProviderMoney] = field(default_factory=list)
    form: int = 1

    @classmethod
    def read(cls, path: str | PathLike[str]) -> Publication:
        """The publication of a file, or of a folder's publication.txt."""
        with open_text(path) as lines:
            return cls.of_lines(lines)

    @classmethod
    def of_text(cls, text: str) -> Publication:
        """The publication of a text."""
        return cls.of_lines(text.splitlines(keepends=True))

    @classmethod
    def of_lines(cls, lines: Iterable[str]) -> Publication:
        """The publication of lines with their ends."""
        *blocks, publication = iter_parts(lines)
        assert isinstance(publication, Publication)
        publication.blocks += (block for block in blocks if isinstance(block, RunBlock))
        return publication

    def block(self, run: int) -> RunBlock:
        """The block of a run."""
        return self.blocks[run - 1]

    @property
    def unpublished(self) -> list[int]:
        """The runs that aren't published."""
        return [block.run for block in self.blocks if not block.published]

    @property
    def within(self) -> list[int]:
        """The runs of the second form whose activations are within a gap of the best."""
        return [block.run for block in self.blocks if block.gap is not None]

    @property
    def welfare(self) -> Decimal:
        """The welfare of the published runs together, in euro."""
        return sum((block.welfare for block in self.blocks), Decimal(0))


def open_text(folder: str | PathLike[str]) -> TextIO:
    """Opens a file, or a folder's publication.txt, for reading; bytes that are no ASCII become marks of no form."""
    path = Path(folder)
    if path.is_dir():
        path = path / "publication.txt"
    try:
        return path.open(encoding="ascii", errors="replace", newline="\n")
    except (FileNotFoundError, NotADirectoryError):
        raise MariMissing(path.name) from None
    except OSError:
        raise MariUnreadable(path.name) from None


def form_of(folder: str | PathLike[str]) -> int:
    """The form of a text by how it begins: 2 where that is `mari 2`, or else 1."""
    with open_text(folder) as text:
        return 2 if text.read(len(_SECOND)) == _SECOND else 1


def iter_parts(lines: Iterable[str]) -> Iterator[Publication | RunBlock]:
    """The parts of a printed day, one at a time, so that a day of any length takes the memory of one block.

    First a publication without blocks and totals, then each block, and at last the publication once more, with the
    totals, where the text is whole.
    """
    reader = _Reader(lines)
    publication = reader.head()
    yield publication
    first = others = 0
    for block in reader.blocks(publication.form):
        first, others = first + block.first, others + (not block.first)
        yield block
    reader.totals(publication, first, others)
    yield publication


def iter_blocks(lines: Iterable[str]) -> Iterator[RunBlock]:
    """The blocks of a printed day, one at a time."""
    return (part for part in iter_parts(lines) if isinstance(part, RunBlock))


def read_split(lines: Iterable[str]) -> list[RunBlock]:
    """The runs of the text of `split`."""
    reader = _Reader(lines)
    reader.one("split", 5)
    blocks = []
    while reader.is_at("run"):
        words = reader.words
        reader.step()
        block = RunBlock(reader.whole(words[1]), reader.whole(words[2]), words[3])
        if words[4] == "unpublished":
            block.island, block.nodes = reader.whole(words[5]), reader.whole(words[6])
        else:
            block.welfare = reader.welfare()
            reader.market(block)
            while reader.is_at("island"):
                block.islands.append(reader.island())
            reader.one("end", 2)
        blocks.append(block)
    reader.one("done", 3)
    return blocks


def read_joint(lines: Iterable[str]) -> tuple[int | None, Decimal, list[RunBlock], list[Item]]:
    """The text of `blocks`: the nodes where it isn't published, the welfare, each quarter hour, and the certificate."""
    reader = _Reader(lines)
    words = reader.words
    reader.step()
    if words[3] == "unpublished":
        return reader.whole(words[4]), Decimal(0), [], []
    welfare = reader.welfare()
    quarters = []
    while reader.is_at("quarter"):
        quarter = RunBlock(0, reader.whole(reader.one("quarter", 2)[1]), "scheduled")
        reader.market(quarter)
        quarters.append(quarter)
    tree = reader.tree()
    reader.one("end", 1)
    return None, welfare, quarters, tree


_SECOND = "mari 2 "
_PRICES = rf"{PRICE.pattern}(?: {PRICE.pattern})*"
_WHOLES = rf"{WHOLE.pattern}(?: {WHOLE.pattern})*"
_LEAVES = {
    "bound": (("bound", re.compile(_PRICES)),),
    "cut": (("cut", re.compile(f"(?:in|out) {_WHOLES}")),),
}
_CONFLICT = {
    "conflict": (
        ("conflict", re.compile(_WHOLES)),
        ("at", re.compile(_PRICES)),
        ("flows", re.compile(f"(?:{_WHOLES})?")),
        ("mws", re.compile(f"(?:{_WHOLES})?")),
    ),
}
_DECISIONS = {
    "branch": (("branch", NAME),),
    "price": (("price", re.compile(rf"{NAME.pattern} (?!-?99999\.(?!00))(?!-?[0-9]{{6}}){PRICE.pattern}")),),
}
_TREES: dict[int, dict[str, tuple[tuple[str, re.Pattern[str]], ...]]] = {
    1: {"branch": (), **_LEAVES, **_CONFLICT},
    2: {"none": (), **_LEAVES, **_DECISIONS},
}
"""Of each form the lines of each kind of item, and what may follow their first words."""

_BARE = {kind: Item(kind) for kind in ("branch", "none")}
"""The items that state nothing."""


_ENDINGS = {1: {("published", 5), ("unpublished", 6)}, 2: {("first", 5), ("within", 6)}}
"""Of each form how a heading of a run may go on after its kind, and how many words it has."""


class _Reader(Lines):
    """Reads a day, or a text of `split` or `blocks`."""

    def head(self) -> Publication:
        words = self.one("mari", 5)
        if words[1] not in ("1", "2"):
            raise MariText(self.read, f"form {shown(words[1])} isn't known")
        return Publication(words[2], self.whole(words[3]), self.whole(words[4]), form=int(words[1]))

    def blocks(self, form: int) -> Iterator[RunBlock]:
        while self.is_at("run"):
            block = self.heading(form)
            if block.published:
                self.step()
                self.body(block)
                yield block
            else:
                yield block
                self.step()

    def heading(self, form: int) -> RunBlock:
        words, self.read = self.words, self.number
        if (*words[4:5], len(words)) not in _ENDINGS[form]:
            raise self.fault("isn't the heading of a run")
        block = RunBlock(self.whole(words[1]), self.whole(words[2]), words[3], form=form)
        if words[4] == "unpublished":
            block.nodes = self.whole(words[5])
        elif words[4] == "within":
            block.gap = self.money(words[5])
            if not 0 <= block.gap <= MOST_GAP:
                raise self.fault(f"{shown(words[5])} is no gap")
        return block

    def body(self, block: RunBlock) -> None:
        block.welfare = self.welfare()
        self.market(block)
        block.tree = self.tree(block.form)
        block.operators, block.providers = self.ledger("")
        if self.whole(self.one("end", 2)[1]) != block.run:
            raise MariText(self.read, f"should be end {block.run}")

    def welfare(self) -> Decimal:
        return euros(self.whole(self.one("welfare", 2)[1]))

    def market(self, block: RunBlock) -> None:
        block.zones = self.some("zone", self.zone)
        block.borders = self.many("border", self.border)
        block.bids = self.many("bid", lambda words: Activation(words[1], self.mw(words[2])))
        start = self.number
        places = self.many("demand", lambda words: (words[1], self.mw(words[2])))
        for at, (place, _) in enumerate(places):
            if place != str(at + 1):
                raise MariText(start + at, "the demands aren't numbered 1, 2, 3 and so on")
        block.demands = [mw for _, mw in places]

    def zone(self, words: list[str]) -> ZonePrice:
        price, least, greatest = map(self.price, words[2:5])
        return ZonePrice(words[1], price, least, greatest, self.whole(words[5]))

    def border(self, words: list[str]) -> Flow:
        return Flow(words[1], words[2], self.whole(words[3]), self.money(words[4]))

    def operator(self, words: list[str]) -> OperatorMoney:
        payment, rent, net = map(self.money, words[2:])
        return OperatorMoney(words[1], payment, rent, net)

    def tree(self, form: int = 1) -> list[Item]:
        count = self.whole(self.one("tree", 2)[1])
        if not 1 <= count <= MOST_NODES:
            raise MariText(self.read, f"no tree has {count} items")
        kinds = _TREES[form]
        return [self.item(kinds) for _ in range(count)]

    def item(self, kinds: dict[str, tuple[tuple[str, re.Pattern[str]], ...]]) -> Item:
        kind = self.words[0] if self.words else ""
        if kind not in kinds:
            raise self.fault("should be an item of the certificate")
        if not kinds[kind]:
            self.one(kind, 1)
            return _BARE[kind]
        lines = []
        for word, written in kinds[kind]:
            rest = " ".join(self.words[1:])
            if not self.is_at(word) or not written.fullmatch(rest):
                raise self.fault(f"should be the line {word}")
            lines.append(rest)
            self.step()
        return Item(kind, tuple(lines))

    def island(self) -> Island:
        words = self.one("island", 3)
        number, welfare = self.whole(words[1]), euros(self.whole(words[2]))
        zones = self.words[1:]
        self.one("zones", len(self.words))
        return Island(number, welfare, zones, self.tree())

    def ledger(self, prefix: str) -> tuple[list[OperatorMoney], list[ProviderMoney]]:
        operators = self.some(f"{prefix}operator", self.operator)
        providers = self.many(f"{prefix}provider", lambda words: ProviderMoney(words[1], self.money(words[2])))
        return operators, providers

    def totals(self, publication: Publication, first: int, others: int) -> None:
        publication.operators, publication.providers = self.ledger("total-")
        words = self.one("done", 3)
        if [self.whole(word) for word in words[1:]] != [first, others]:
            raise MariText(self.read, "counts other runs than there are")
        if self.words:
            raise self.fault("comes after the end")
