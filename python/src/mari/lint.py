"""What no refusal says: things that are accepted, and are rarely meant."""

from __future__ import annotations

from collections import Counter, defaultdict
from collections.abc import Iterator
from decimal import Decimal
from os import PathLike
from pathlib import Path
from statistics import median
from typing import NamedTuple

from mari.availability import Offers
from mari.folder import Folder, examine, more_problems
from mari.rows import FILES, Bid


class Finding(NamedTuple):
    """Something that stands out: the file, the line (0 for the whole file), and a sentence."""

    file: str
    line: int
    text: str

    def __str__(self) -> str:
        """One line."""
        return f"{self.file} line {self.line}: {self.text}" if self.line else f"{self.file}: {self.text}"


def lint(path: str | PathLike[str]) -> list[Finding]:
    """What stands out in a folder. Where it is refused, all problems of the refused file come in place of the rest."""
    found = [*_forms(Path(path))]
    folder, bad = examine(path)
    bad = bad or more_problems(path)
    if bad:
        return found + [Finding(one.file, one.line, "refused: " + str(one).partition(": ")[2]) for one in bad]
    return found + [*findings(folder)]


def findings(folder: Folder) -> Iterator[Finding]:
    """What stands out in an accepted folder; lines count from 2."""
    yield from _runs(folder)
    yield from _limits(folder)
    yield from _prices(folder)
    yield from _links(folder)
    yield from _zones(folder)


def _forms(path: Path) -> Iterator[Finding]:
    """Marks that editors leave."""
    for name in (*FILES, "limits.csv", "blocks.csv"):
        file = path / name
        if not file.is_file():
            continue
        page = file.read_bytes()
        if page.startswith((b"\xff\xfe", b"\xfe\xff")):
            yield Finding(name, 0, "is UTF-16: save it as UTF-8")
        elif page.startswith(b"\xef\xbb\xbf"):
            yield Finding(name, 0, "begins with a byte order mark, which is taken off")
        if b"\0" in page:
            yield Finding(name, 0, "has NUL bytes")
        if page and not page.endswith((b"\n", b"\r")):
            yield Finding(name, 0, "has no end at its last line: see whether it is whole")
    if (path / "limits.csv").exists():
        head = (path / "borders.csv").read_bytes()[:64] if (path / "borders.csv").is_file() else b""
        if b"limit" in head:
            yield Finding("limits.csv", 0, "isn't read, since borders.csv has the columns limit and back")


def _runs(folder: Folder) -> Iterator[Finding]:
    kinds: dict[int, set[str]] = defaultdict(set)
    for run in folder.runs:
        kinds[run.quarter].add(run.kind)
    for line, bid in enumerate(folder.bids, start=2):
        if bid.quarter not in kinds:
            yield Finding("bids.csv", line, f"{bid.id} is of quarter {bid.quarter}, which has no run")
        elif bid.kind == "scheduled" and "scheduled" not in kinds[bid.quarter]:
            yield Finding("bids.csv", line, f"{bid.id} is for scheduled runs, and quarter {bid.quarter} has none")
    wanted = Counter(demand.run for demand in folder.demands)
    offered = {bid.quarter for bid in folder.bids}
    for line, run in enumerate(folder.runs, start=2):
        if not wanted[run.run]:
            yield Finding("runs.csv", line, f"run {run.run} has no demand")
        if run.quarter not in offered:
            yield Finding("runs.csv", line, f"run {run.run} is of quarter {run.quarter}, which has no bid")
    for line, demand in enumerate(folder.demands, start=2):
        if demand.mw == 0:
            yield Finding("demands.csv", line, "asks for 0 MW")


def _limits(folder: Folder) -> Iterator[Finding]:
    if folder.limits is None:
        for line, border in enumerate(folder.borders, start=2):
            if not border.limit and not border.back:
                yield Finding("borders.csv", line, f"{border.from_zone} to {border.to_zone} has the limits 0 and 0")
        return
    stated = {row[:3] for row in folder.limits}
    for line, border in enumerate(folder.borders, start=2):
        lacks = [run.run for run in folder.runs if (run.run, *border[:2]) not in stated]
        if lacks:
            some = ", ".join(map(str, lacks[:8])) + (" and more" if len(lacks) > 8 else "")
            pair = f"{border.from_zone} to {border.to_zone}"
            text = f"{pair} has no line in limits.csv for {len(lacks)} runs ({some}): 0 MW"
            yield Finding("borders.csv", line, text)


def _prices(folder: Folder) -> Iterator[Finding]:
    """Prices far from those of the same direction: beyond 20 times their median distance, and 5 times their median."""
    for direction in ("up", "down"):
        bids = [(line, bid) for line, bid in enumerate(folder.bids, start=2) if bid.direction == direction]
        if len(bids) < 8:
            continue
        middle = median([bid.price for _, bid in bids])
        spread = max(median([abs(bid.price - middle) for _, bid in bids]), Decimal(1))
        for line, bid in bids:
            far = abs(bid.price - middle)
            if far > 20 * spread and far > 5 * abs(middle):
                text = f"{bid.id} asks {bid.price}, and the median of {direction} bids is {middle:.2f}"
                yield Finding("bids.csv", line, text)


def _links(folder: Folder) -> Iterator[Finding]:
    offers = Offers(folder)
    quarters = {run.quarter for run in folder.runs}
    for line, link in enumerate(folder.links, start=2):
        if link.kind == "group" and len(offers.members[link.first]) == 1:
            yield Finding("links.csv", line, f"group {link.first} has one bid alone")
        elif link.kind in ("needs", "bars", "technical"):
            other: Bid = offers.bids[link.second]
            if other.quarter not in quarters:
                follows = "is never offered" if link.kind == "needs" else "is never barred by it"
                yield Finding("links.csv", line, f"{other.id} is of a quarter without a run, so {link.first} {follows}")


def _zones(folder: Folder) -> Iterator[Finding]:
    joined = {zone for border in folder.borders for zone in border[:2]}
    used = {bid.zone for bid in folder.bids} | {demand.zone for demand in folder.demands}
    for line, row in enumerate(folder.zones, start=2):
        if row.zone not in joined and len(folder.zones) > 1:
            yield Finding("zones.csv", line, f"{row.zone} has no border")
        if row.zone not in used:
            yield Finding("zones.csv", line, f"{row.zone} has neither bids nor demands")
