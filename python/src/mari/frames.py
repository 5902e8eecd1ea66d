"""Market files and days as pandas frames. pandas is an extra: `pip install mari[pandas]`."""

from __future__ import annotations

from collections.abc import Mapping
from contextlib import suppress
from decimal import Decimal
from math import isfinite
from typing import TYPE_CHECKING, Any

from mari.checks import refusal
from mari.folder import Folder
from mari.rows import BARE_BORDERS, HEADERS, ROWS
from mari.units import price_of

if TYPE_CHECKING:
    from mari.day import Table

try:
    import pandas as pd
except ImportError as error:
    raise ImportError("frames need pandas: pip install mari[pandas]") from error

_PRICES = ("price", "reference")
_DECIMALS = ("x", "y")
_WHOLE = ("quarter", "least", "greatest", "run", "mw", "limit", "back")


def frames_of(folder: Folder) -> dict[str, pd.DataFrame]:
    """The files of a folder by their names without `.csv`; the columns are those of the files, prices are floats."""
    frames = {}
    for file in ROWS:
        name = file.removesuffix(".csv")
        rows = getattr(folder, name)
        if rows is None:
            continue
        columns = HEADERS[file].split(",")
        frame = pd.DataFrame([tuple(one) for one in rows], columns=columns)
        if file == "borders.csv" and folder.limits is not None:
            frame = frame[BARE_BORDERS.split(",")]
        frames[name] = frame.assign(**{key: frame[key].astype(float) for key in _PRICES if key in frame.columns})
    return frames


def folder_of(date: str, frames: Mapping[str, pd.DataFrame], rule: str) -> Folder:
    """A folder from frames by the names of the files without `.csv`.

    The columns are those of the files, in any order, and others are left alone; a frame that isn't there has no rows. A
    price or a whole number may be an int, a float, a Decimal or a text; an empty price of a demand is NaN or None. A
    value that can't stand in the file raises `MariRefused` with the file, the line that it would have, and the field.
    """
    folder = Folder(date, rule)
    for file, row in ROWS.items():
        name = file.removesuffix(".csv")
        if name not in frames:
            continue
        columns = HEADERS[file].split(",")
        if file == "borders.csv" and "limit" not in frames[name].columns:
            columns = BARE_BORDERS.split(",")
            folder.limits = folder.limits or []
        lacks = [column for column in columns if column not in frames[name].columns]
        if lacks:
            raise refusal(file, 1, "BadHeader", reason=f"the frame lacks the columns {', '.join(lacks)}")
        values = zip(*(frames[name][column].tolist() for column in columns))
        make: Any = row
        rows = [make(*_fields(file, line, columns, fields)) for line, fields in enumerate(values, start=2)]
        setattr(folder, name, rows)
    return folder


def _fields(file: str, line: int, columns: list[str], fields: tuple[Any, ...]) -> list[object]:
    return [_field(file, line, column, value) for column, value in zip(columns, fields)]


def _field(file: str, line: int, column: str, value: Any) -> object:
    check = {"borders.csv": "Range", "links.csv": "UnknownBid"}.get(file, "BadField")
    if pd.isna(value) and not (file == "demands.csv" and column == "price"):
        raise refusal(file, line, check, column, "", "is empty in the frame")
    if column in _PRICES:
        if file == "demands.csv" and (pd.isna(value) or value == ""):
            return None
        try:
            return price_of(value)
        except (ValueError, ArithmeticError, TypeError):
            reason = "isn't a price in whole cents"
            raise refusal(file, line, check, column, str(value), reason, "round it") from None
    if column in _DECIMALS:
        with suppress(ValueError, TypeError):
            number = float(value)
            if isfinite(number):
                return number
        raise refusal(file, line, check, column, str(value), "isn't a number")
    if column in _WHOLE:
        try:
            whole = int(value)
            if whole == (Decimal(value) if isinstance(value, str) else value):
                return whole
        except (ValueError, ArithmeticError, TypeError):
            pass
        raise refusal(file, line, check, column, str(value), "isn't a whole number", "round it")
    return str(value)


def frame_of(table: Table) -> pd.DataFrame:
    """A table as a frame: decimals as floats; `time` as times of UTC, and `local` as they are printed.

    `time` is NaT in years that pandas hasn't.
    """
    frame = pd.DataFrame(table.rows, columns=list(table.columns))
    for column in frame.columns:
        values = frame[column]
        if values.isna().all() or values.map(lambda value: isinstance(value, Decimal)).any():
            frame[column] = frame[column].astype(float)
    if "time" in frame.columns:
        frame.insert(list(frame.columns).index("time") + 1, "local", frame["time"])
        frame["time"] = pd.to_datetime(frame["time"], utc=True, errors="coerce")
    return frame
