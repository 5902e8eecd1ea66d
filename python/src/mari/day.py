"""A cleared day: the market files and their publication together, as rows and as tables."""

from __future__ import annotations

import csv
from collections.abc import Iterator, Sequence
from dataclasses import dataclass
from decimal import Decimal
from functools import cached_property
from os import PathLike
from pathlib import Path
from typing import TYPE_CHECKING, NamedTuple

from mari.clock import DayClock
from mari.errors import MariOtherFolder
from mari.folder import Folder
from mari.publication import Publication, RunBlock
from mari.reasons import Reason, reasons
from mari.rows import Demand, Run
from mari.units import CAP

if TYPE_CHECKING:
    import pandas as pd


class Served(NamedTuple):
    """A demand of a run and what was met of it: `asked` MW (negative for a surplus) and `met` MW, 0 or more.

    `unserved` is what an inelastic demand lacks. An elastic one that isn't met whole found no price at which it would.
    """

    run: int
    quarter: int
    time: str
    zone: str
    asked: int
    limit_price: Decimal | None
    met: int
    price: Decimal
    unserved: int


class Table(NamedTuple):
    """Rows with the names of their columns."""

    columns: tuple[str, ...]
    rows: list[tuple[object, ...]]


@dataclass
class Day:
    """A folder and its publication."""

    folder: Folder
    publication: Publication

    def __post_init__(self) -> None:
        """Raises `MariOtherFolder` where the two are of different days or runs. `Program.check` compares all."""
        clock = self.clock
        if (self.publication.date, self.publication.quarters) != (self.folder.date, clock.quarters):
            raise MariOtherFolder("the publication is of another day than day.csv")
        if len(self.publication.blocks) != len(self.folder.runs):
            raise MariOtherFolder("the publication has other runs than runs.csv")
        for run, block in zip(self.folder.runs, self.publication.blocks):
            if (block.run, block.quarter, block.kind) != (run.run, run.quarter, run.kind):
                raise MariOtherFolder(f"run {run.run} has another quarter hour or kind than in runs.csv")
            if block.published and len(block.demands) != len(self._demands.get(run.run, ())):
                raise MariOtherFolder(f"run {run.run} has another number of demands than in demands.csv")
            if block.published and [row.zone for row in block.zones] != [row.zone for row in self.folder.zones]:
                raise MariOtherFolder(f"run {run.run} has other zones than zones.csv")

    @classmethod
    def read(cls, path: str | PathLike[str]) -> Day:
        """The day of a folder that has a publication.txt."""
        return cls(Folder.read(path), Publication.read(path))

    @cached_property
    def clock(self) -> DayClock:
        """When each quarter hour begins."""
        return self.folder.clock()

    @cached_property
    def _demands(self) -> dict[int, list[Demand]]:
        of_run: dict[int, list[Demand]] = {}
        for demand in self.folder.demands:
            of_run.setdefault(demand.run, []).append(demand)
        return of_run

    def reasons(self) -> Iterator[Reason]:
        """Why each bid of each run was activated, or wasn't."""
        return reasons(self.folder, self.publication)

    def demands(self) -> list[Served]:
        """Each demand of the published runs, and what was met of it."""
        rows = []
        for run, block in self._published():
            time = self.clock.text(run.quarter)
            prices = {row.zone: row.price for row in block.zones}
            for demand, met in zip(self._demands.get(run.run, ()), block.demands):
                unserved = abs(demand.mw) - met if demand.at_any_price else 0
                key = (run.run, run.quarter, time, demand.zone, demand.mw, demand.price)
                rows.append(Served(*key, met, prices[demand.zone], unserved))
        return rows

    def unserved(self) -> list[Served]:
        """The inelastic demands of the published runs that aren't met whole."""
        return [row for row in self.demands() if row.unserved]

    def _published(self) -> Iterator[tuple[Run, RunBlock]]:
        for run, block in zip(self.folder.runs, self.publication.blocks):
            if block.published:
                yield run, block

    def tables(self) -> dict[str, Table]:
        """The day as tables: prices, flows, bids, demands, operators, providers and runs.

        Prices are in euro per MWh, money in euro; `time` is the local clock at which the quarter hour begins, with its
        distance from UTC. In the second form the runs have their `gap` too, None where the activation is the first.
        """
        prices: list[tuple[object, ...]] = []
        flows: list[tuple[object, ...]] = []
        operators: list[tuple[object, ...]] = []
        providers: list[tuple[object, ...]] = []
        runs: list[tuple[object, ...]] = []
        for run, block in zip(self.folder.runs, self.publication.blocks):
            key = (run.run, run.quarter, self._time(run.quarter), run.kind)
            found = (block.published, block.nodes, block.welfare if block.published else None)
            runs.append((*key, run.reference, *found, *([block.gap] if self.publication.form == 2 else [])))
            prices += [(*key, *row) for row in block.zones]
            flows += [(*key, *row) for row in block.borders]
            operators += [(*key, *row) for row in block.operators]
            providers += [(*key, *row) for row in block.providers]
        head = ("run", "quarter", "time", "kind")
        gap = ("gap",) if self.publication.form == 2 else ()
        return {
            "prices": Table((*head, "zone", "price", "least", "greatest", "area"), prices),
            "flows": Table((*head, "from", "to", "mw", "rent"), flows),
            "bids": self._bids(),
            "demands": self._served(),
            "operators": Table((*head, "operator", "payment", "rent", "net"), operators),
            "providers": Table((*head, "provider", "amount"), providers),
            "runs": Table((*head, "reference", "published", "nodes", "welfare", *gap), runs),
        }

    def _time(self, quarter: int) -> str:
        return self.clock.stamp(quarter)

    def _bids(self) -> Table:
        bids = {bid.id: bid for bid in self.folder.bids}
        columns = ("run", "quarter", "time", "bid", "provider", "zone", "direction", "asked", "left", "mw", "price")
        rows: list[tuple[object, ...]] = []
        for why in self.reasons():
            bid = bids[why.bid]
            key = (why.run, why.quarter, self._time(why.quarter))
            offer = (bid.id, bid.provider, bid.zone, bid.direction, bid.price)
            found = (why.left, why.mw, why.price, why.margin, why.pay)
            rows.append((*key, *offer, *found, why.state.value, why.rule, " ".join(why.by), why.text))
        return Table((*columns, "margin", "pay", "state", "rule", "by", "reason"), rows)

    def _served(self) -> Table:
        rows: list[tuple[object, ...]]
        rows = [(row.run, row.quarter, self._time(row.quarter), *row[3:]) for row in self.demands()]
        return Table(("run", "quarter", "time", "zone", "asked", "limit_price", "met", "price", "unserved"), rows)

    def to_csv(self, path: str | PathLike[str]) -> list[Path]:
        """Writes each table as a CSV file with a header into a folder, and gives their paths."""
        folder = Path(path)
        folder.mkdir(parents=True, exist_ok=True)
        return [_write(folder / f"{name}.csv", table) for name, table in self.tables().items()]

    def frames(self) -> dict[str, pd.DataFrame]:
        """The tables as pandas frames: prices and money are floats; `time` is of UTC, `local` as in the tables."""
        from mari.frames import frame_of

        return {name: frame_of(table) for name, table in self.tables().items()}

    def summary(self) -> list[str]:
        """The day in a few lines, the demand that isn't served first."""
        unserved = self.unserved()
        lines = self._answered()
        if unserved:
            total = sum(row.unserved for row in unserved)
            lines.append(f"UNSERVED at the cap: {total} MW of {len(unserved)} inelastic demands (sum over runs):")
            lines += [
                f"  run {row.run}, {row.time}, zone {row.zone}: {row.unserved} of {abs(row.asked)} MW, at {row.price}"
                for row in unserved
            ]
        else:
            lines.append("every inelastic demand of the published runs is served")
        prices = [row.price for _, block in self._published() for row in block.zones]
        if prices:
            lines.append(f"prices from {min(prices)} to {max(prices)} euro per MWh")
            capped = [block.run for _, block in self._published() if any(abs(row.price) == CAP for row in block.zones)]
            if capped:
                lines.append(f"prices at the cap of {CAP} in {len(capped)} runs: {_some(capped)}")
        activated = sum(row.mw for _, block in self._published() for row in block.bids)
        lines.append(f"{activated} MW activated (sum over runs), welfare {self.publication.welfare} euro")
        return lines


    def _answered(self) -> list[str]:
        """How many runs are published or have the first activation, and which don't."""
        publication, runs = self.publication, len(self.folder.runs)
        if publication.form == 2:
            gaps = [block.gap for block in publication.blocks if block.gap is not None]
            lines = [f"{self.folder.date}: {runs - len(gaps)} of {runs} runs have the first activation"]
            if gaps:
                said = f"runs {_some(publication.within)}: at most {max(gaps)} euro each, {sum(gaps)} in all"
                lines.append(f"WITHIN A GAP of the best: {said}: clear with more nodes")
            return lines
        unpublished = publication.unpublished
        lines = [f"{self.folder.date}: {runs - len(unpublished)} of {runs} runs published"]
        if unpublished:
            lines.append(f"NOT PUBLISHED: runs {_some(unpublished)}: clear with more nodes")
        return lines


def _some(numbers: Sequence[int], most: int = 12) -> str:
    return ", ".join(map(str, numbers[:most])) + (f" and {len(numbers) - most} more" if len(numbers) > most else "")


def _write(path: Path, table: Table) -> Path:
    with path.open("w", encoding="utf-8", newline="") as file:
        writer = csv.writer(file, lineterminator="\n")
        writer.writerow(table.columns)
        writer.writerows(table.rows)
    return path
