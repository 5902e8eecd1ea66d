"""Mari's market files, publications and reasons, from Python.

>>> import mari
>>> day = mari.clear("examples/two-zones")            # doctest: +SKIP
>>> print("\\n".join(day.summary()))                   # doctest: +SKIP
>>> day.frames()["prices"]                            # doctest: +SKIP
"""

from __future__ import annotations

from mari.clock import Clock, ClockError, DayClock
from mari.day import Day, Served, Table
from mari.errors import (
    MariEnded,
    MariError,
    MariFileError,
    MariInvalid,
    MariMissing,
    MariNoProgram,
    MariOtherFolder,
    MariRange,
    MariRefused,
    MariText,
    MariTooLong,
    MariUnreadable,
    Problem,
)
from mari.folder import Folder, StrPath, problems
from mari.lint import Finding, lint
from mari.order import ordered
from mari.program import Checked, Joint, Program, Reach, Reached, Worth, find_program
from mari.publication import (
    Activation,
    Flow,
    Island,
    Item,
    Publication,
    RunBlock,
    ZonePrice,
    form_of,
    iter_blocks,
    iter_parts,
)
from mari.reasons import Reason, Reasons, State, reasons
from mari.rows import Bid, Block, Border, Demand, Limit, Link, Position, Run, Zone

__version__ = "0.3.0"


def clear(folder: StrPath | Folder, *, nodes: int | None = None, workers: int | None = None) -> Day:
    """Clears a folder by the program, keeps its publication.txt where the folder is a path, and gives the day."""
    publication = Program().clear(folder, nodes=nodes, workers=workers)
    return Day(folder if isinstance(folder, Folder) else Folder.read(folder), publication)


def reach(folder: StrPath | Folder, *, nodes: int | None = None) -> Day:
    """Clears a folder by the program of the second form, as `clear` does by the other."""
    publication = Reach().clear(folder, nodes=nodes)
    return Day(folder if isinstance(folder, Folder) else Folder.read(folder), publication)


__all__ = [
    "Activation",
    "Bid",
    "Block",
    "Border",
    "Checked",
    "Clock",
    "ClockError",
    "Day",
    "DayClock",
    "Demand",
    "Finding",
    "Flow",
    "Folder",
    "Island",
    "Item",
    "Joint",
    "Limit",
    "Link",
    "MariEnded",
    "MariError",
    "MariFileError",
    "MariInvalid",
    "MariMissing",
    "MariNoProgram",
    "MariOtherFolder",
    "MariRange",
    "MariRefused",
    "MariText",
    "MariTooLong",
    "MariUnreadable",
    "Position",
    "Problem",
    "Program",
    "Publication",
    "Reach",
    "Reached",
    "Reason",
    "Reasons",
    "Run",
    "RunBlock",
    "Served",
    "State",
    "Table",
    "Worth",
    "Zone",
    "ZonePrice",
    "clear",
    "find_program",
    "form_of",
    "iter_blocks",
    "iter_parts",
    "lint",
    "ordered",
    "problems",
    "reach",
    "reasons",
]
