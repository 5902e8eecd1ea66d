"""The market files of a day: read, checked, made and written."""

from __future__ import annotations

import csv
import io
from collections.abc import Iterable, Iterator, Mapping
from dataclasses import dataclass, field, replace
from os import PathLike
from pathlib import Path
from typing import TYPE_CHECKING, Any

from mari.checks import Reader, has_header, read_day, read_rows
from mari.clock import DayClock
from mari.errors import MariMissing, MariRefused, MariTooLong, MariUnreadable, Problem
from mari.readers import (
    BidReader,
    BlockReader,
    BorderReader,
    DemandReader,
    LimitReader,
    LinkReader,
    PositionReader,
    RunReader,
    ZoneReader,
)
from mari.rows import BARE_BORDERS, FILES, HEADERS, Bid, Block, Border, Demand, Limit, Link, Position, Run, Zone
from mari.units import MOST_FILE_BYTES, price_text

if TYPE_CHECKING:
    import pandas as pd

StrPath = str | PathLike[str]

CENTRAL_EUROPE = "CET-1CEST,M3.5.0,M10.5.0/3"
"""The rule of the clock of central Europe."""


@dataclass
class Folder:
    """The market files of one day as typed rows.

    `date` is `YYYY-MM-DD` and `rule` the POSIX rule of the day's clock. Where `limits` isn't None, it states the limits
    of borders for each run, and those of `borders` are None. `blocks` and `positions` are None where there is no
    blocks.csv or positions.csv.
    """

    date: str
    rule: str = CENTRAL_EUROPE
    zones: list[Zone] = field(default_factory=list)
    borders: list[Border] = field(default_factory=list)
    bids: list[Bid] = field(default_factory=list)
    links: list[Link] = field(default_factory=list)
    runs: list[Run] = field(default_factory=list)
    demands: list[Demand] = field(default_factory=list)
    limits: list[Limit] | None = None
    blocks: list[Block] | None = None
    positions: list[Position] | None = None

    @classmethod
    def read(cls, path: StrPath) -> Folder:
        """The folder at a path.

        Raises `MariMissing`, `MariTooLong`, `MariUnreadable` or `MariRefused` where the program would, and for the same
        file, line and check. A blocks.csv that is there is read too, for any quarter hours, and a positions.csv.
        """
        return cls.of_pages(read_pages(path))

    @classmethod
    def of_pages(cls, pages: Mapping[str, bytes]) -> Folder:
        """The folder of files that are given as bytes, by their names."""
        folder = cls("")
        for refused in _read_into(folder, pages):
            raise refused
        for refused in _read_more(folder, pages):
            raise refused
        return folder

    def pages(self) -> dict[str, bytes]:
        """The files' bytes by their names. Nothing but the form of prices is tested: see `check`."""
        bare = self.limits is not None
        pages = {"day.csv": _page("day.csv", [(self.date, self.rule)])}
        borders: list[tuple[object, ...]] = [row[:2] if bare else row for row in self.borders]
        pages["zones.csv"] = _page("zones.csv", self.zones)
        pages["borders.csv"] = _page("borders.csv", borders, BARE_BORDERS if bare else None)
        pages["bids.csv"] = _page("bids.csv", ((*bid[:5], price_text(bid.price), *bid[6:]) for bid in self.bids))
        pages["links.csv"] = _page("links.csv", self.links)
        pages["runs.csv"] = _page("runs.csv", ((*run[:3], price_text(run.reference)) for run in self.runs))
        pages["demands.csv"] = _page("demands.csv", map(_demand_fields, self.demands))
        if self.limits is not None:
            pages["limits.csv"] = _page("limits.csv", self.limits)
        if self.blocks is not None:
            pages["blocks.csv"] = _page("blocks.csv", self.blocks)
        if self.positions is not None:
            pages["positions.csv"] = _page("positions.csv", self.positions)
        return pages

    def check(self) -> None:
        """Raises `MariRefused` where the program would refuse these rows; `line` counts rows from 2."""
        Folder.of_pages(self.pages())

    def write(self, path: StrPath, check: bool = True) -> Path:
        """Writes the files into a folder, which is made where it isn't there, and gives its path.

        Other files of the folder stay, also a publication.txt, which then is no longer that of these files.
        """
        pages = self.pages()
        if check:
            Folder.of_pages(pages)
        folder = Path(path)
        folder.mkdir(parents=True, exist_ok=True)
        for name, page in pages.items():
            (folder / name).write_bytes(page)
        return folder

    def changed(self, **parts: Any) -> Folder:
        """A copy with other parts, such as `folder.changed(links=[])`; the rows that stay are shared."""
        return replace(self, **parts)

    def clock(self) -> DayClock:
        """The day's clock: how many quarter hours it has, and when each begins."""
        return DayClock.of(self.date, self.rule)

    def limits_by_run(self) -> dict[int, list[tuple[int, int]]]:
        """Of each run the limits of each border, there and back in MW, as the files state them."""
        if self.limits is None:
            every = [(border.limit or 0, border.back or 0) for border in self.borders]
            return {run.run: every for run in self.runs}
        stated = {(row.run, row.from_zone, row.to_zone): (row.limit, row.back) for row in self.limits}
        borders = [(border.from_zone, border.to_zone) for border in self.borders]
        return {run.run: [stated.get((run.run, *pair), (0, 0)) for pair in borders] for run in self.runs}

    @classmethod
    def from_frames(cls, date: str, frames: Mapping[str, pd.DataFrame], rule: str = CENTRAL_EUROPE) -> Folder:
        """A folder from pandas frames by the names of the files without `.csv`; see `mari.frames.folder_of`."""
        from mari.frames import folder_of

        return folder_of(date, frames, rule)

    def frames(self) -> dict[str, pd.DataFrame]:
        """The files as pandas frames by their names without `.csv`; prices are floats, in euro per MWh."""
        from mari.frames import frames_of

        return frames_of(self)


def read_pages(path: StrPath) -> dict[str, bytes]:
    """The bytes of a folder's files, in the program's order; `MariFileError` for the first that can't be had."""
    folder = Path(path)
    pages = {name: _fetch(folder, name) for name in FILES}
    if has_header(pages["borders.csv"], BARE_BORDERS):
        pages["limits.csv"] = _fetch(folder, "limits.csv")
    for name in ("blocks.csv", "positions.csv"):
        if (folder / name).exists():
            pages[name] = _fetch(folder, name)
    return pages


def problems(path: StrPath) -> list[Problem]:
    """All that is wrong with the first file that the program would refuse; the first is the program's refusal.

    Empty where the folder is accepted. A file that can't be had is raised.
    """
    return examine(path)[1]


def examine(path: StrPath) -> tuple[Folder, list[Problem]]:
    """A folder and the problems of its market files, with which the rows aren't whole."""
    folder = Folder("")
    return folder, [refused.problem for refused in _read_into(folder, read_pages(path))]


def more_problems(path: StrPath) -> list[Problem]:
    """What is wrong with blocks.csv, for any quarter hours, or else with positions.csv, in an accepted folder."""
    folder, pages = Folder(""), read_pages(path)
    return [refused.problem for read in (_read_into, _read_more) for refused in read(folder, pages)]


def _fetch(folder: Path, name: str) -> bytes:
    path = folder / name
    try:
        if path.stat().st_size > MOST_FILE_BYTES:
            raise MariTooLong(name)
        return path.read_bytes()
    except (FileNotFoundError, NotADirectoryError):
        raise MariMissing(name) from None
    except OSError:
        raise MariUnreadable(name) from None


def _read_into(folder: Folder, pages: Mapping[str, bytes]) -> Iterator[MariRefused]:
    """Fills a folder from pages, and yields the refusals. After a file with one no other is read."""
    for name in FILES:
        if name not in pages:
            raise MariMissing(name)
    bare = has_header(pages["borders.csv"], BARE_BORDERS)
    if bare and "limits.csv" not in pages:
        raise MariMissing("limits.csv")
    try:
        clock, folder.rule = read_day(pages["day.csv"])
    except MariRefused as bad_day:
        yield bad_day
        return
    folder.date = clock.date
    zones = ZoneReader()
    steps: list[tuple[list[Any], Any]] = [
        (folder.zones, lambda: zones),
        (folder.borders, lambda: BorderReader(zones.zones, bare)),
        (folder.bids, lambda: BidReader(zones.zones, clock.quarters)),
        (folder.links, lambda: LinkReader(folder.bids)),
        (folder.runs, lambda: RunReader(clock.quarters)),
        (folder.demands, lambda: DemandReader(zones.zones, len(folder.runs))),
    ]
    if bare:
        folder.limits = []
        steps.append((folder.limits, lambda: LimitReader(folder.borders, len(folder.runs))))
    for rows, make in steps:
        reader: Reader = make()
        refused_some = False
        for refused in read_rows(pages[reader.file], reader, rows.append):
            refused_some = True
            yield refused
        if refused_some:
            return


def _read_more(folder: Folder, pages: Mapping[str, bytes]) -> Iterator[MariRefused]:
    """Fills a folder from the pages that no command but `blocks` reads, and yields their refusals."""
    if "blocks.csv" in pages:
        folder.blocks = []
        blocks: Any = folder.blocks.append
        yield from read_rows(pages["blocks.csv"], BlockReader(folder.bids, folder.links), blocks)
    if "positions.csv" in pages:
        folder.positions = []
        positions: Any = folder.positions.append
        yield from read_rows(pages["positions.csv"], PositionReader(folder.zones), positions)


def _demand_fields(demand: Demand) -> tuple[object, ...]:
    return (*demand[:3], "" if demand.price is None else price_text(demand.price))


def _page(name: str, rows: Iterable[tuple[object, ...]], header: str | None = None) -> bytes:
    """A file's bytes: LF at the ends of lines, and quotes where they are needed."""
    made = io.StringIO()
    made.write((header or HEADERS[name]) + "\n")
    csv.writer(made, lineterminator="\n").writerows(rows)
    return made.getvalue().encode("utf-8")
