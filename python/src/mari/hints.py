"""What to write in place of a bad field or header, where that can be told."""

from __future__ import annotations

import re

from mari.errors import shown

_MINUS = re.compile("[\u2010-\u2015\u2212\ufe63\uff0d]")
_THOUSANDS = re.compile(r"-?[0-9]{1,3}(?:[,'\u2019 \u00a0\u202f][0-9]{3})+(?:\.[0-9]{1,2})?")


def _plain(value: str) -> str:
    """A value without blanks at its ends and with ASCII minus."""
    return _MINUS.sub("-", value.strip().strip("\u00a0\u202f\ufeff").strip())


def for_whole(value: str) -> str:
    """For a field that should be a whole number."""
    plain = _plain(value)
    if not plain:
        return "write a whole number"
    if re.fullmatch(r"-?[0-9]+[.,]0*", plain):
        return f"write {re.split('[.,]', plain)[0]}, without a decimal point"
    if re.fullmatch(r"-?[0-9]+[.,][0-9]+", plain):
        return "write whole MW"
    if re.fullmatch(r"\+[0-9]+", plain):
        return f"write {plain[1:]}, without a plus"
    if _THOUSANDS.fullmatch(plain):
        return f"write {re.sub('[^0-9-]', '', plain)}, without a mark between thousands"
    if re.fullmatch(r"[0-9]{1,2}:[0-9]{2}", plain):
        return "write the number of the quarter hour, from 1"
    if re.fullmatch(r"-?[0-9]+", plain):
        return f"write {plain}, with no blank and an ASCII minus"
    found = re.fullmatch(r"(-?[0-9]+)\s*[A-Za-z]+", plain)
    return f"write {found[1]}, without a unit" if found else "write a whole number"


def for_price(value: str) -> str:
    """For a field that should be a price."""
    plain = _plain(value)
    if not plain:
        return "write a price, such as 40.00"
    if plain.lower() in ("nan", "na", "n/a", "none", "null"):
        return "write a price; that of an inelastic demand is left empty"
    if re.fullmatch(r"-?[0-9]+,[0-9]{1,2}", plain):
        return f"write {plain.replace(',', '.')}, with a decimal point"
    if _THOUSANDS.fullmatch(plain):
        return f"write {re.sub('[^0-9.-]', '', plain)}, without a mark between thousands"
    if re.fullmatch(r"-?[0-9]{1,3}(?:\.[0-9]{3})+,[0-9]{1,2}", plain):
        return f"write {plain.replace('.', '').replace(',', '.')}, with a decimal point and no mark between thousands"
    if re.fullmatch(r"-?[0-9]*\.?[0-9]+[eE][+-]?[0-9]{1,3}|-?[0-9]*\.[0-9]{3,}|-?\.[0-9]+", plain):
        return f"write {float(plain):.2f}: at most two decimals and no exponent"
    if re.fullmatch(r"\+[0-9.]+", plain):
        return f"write {plain[1:]}, without a plus"
    if re.fullmatch(r"-?[0-9]+\.", plain):
        return f"write {plain}00"
    if re.fullmatch(r"-?[0-9]+(?:\.[0-9]{1,2})?", plain):
        return f"write {plain}, with no blank and an ASCII minus"
    found = re.fullmatch(r"[^0-9-]*(-?[0-9]+(?:\.[0-9]{1,2})?)\s*[^0-9.]*", plain)
    return f"write {found[1]}, without a unit" if found else "write a price, such as 40.00"


def for_name(value: str) -> str:
    """For a field that should be a name."""
    if not value:
        return "write a name of 1 to 16 letters, digits, - or _"
    if re.fullmatch(r"[A-Za-z0-9_-]+", value):
        return f"it has {len(value)} characters: shorten it to 16"
    plain = _plain(value)
    if re.fullmatch(r"[A-Za-z0-9_-]{1,16}", plain):
        return f"write {plain}, without blanks"
    bad = sorted(set(re.sub("[A-Za-z0-9_-]", "", value)))
    return f"without {' '.join(map(ascii, bad[:5]))}: a name has 1 to 16 ASCII letters, digits, - or _"


def for_word(value: str, words: tuple[str, ...]) -> str:
    """For a field that should be one of some words."""
    plain = _plain(value).lower()
    return f"write {plain}" if plain in words else "write " + " or ".join(words)


def for_known(value: str, known: set[str] | dict[str, int], what: str) -> str:
    """For a name that isn't known."""
    plain = _plain(value)
    if plain in known:
        return f"write {plain}, without blanks"
    near = [name for name in known if name.lower() == plain.lower()]
    return f"write {near[0]}: capital letters count" if near else f"add {what}, or mend the name"


def for_header(page: bytes, wanted: str) -> str:
    """For a file whose first record isn't its header."""
    if page.startswith((b"\xff\xfe", b"\xfe\xff")) or page[1:2] == b"\0" or page[:1] == b"\0":
        return "the file is UTF-16: save it as UTF-8"
    first = page.removeprefix(b"\xef\xbb\xbf").lstrip(b"\r\n").split(b"\n")[0].strip(b"\r").decode("utf-8", "replace")
    columns = wanted.split(",")
    if not first:
        return f"the file is empty: its first line is {wanted}"
    if first.lower().startswith("sep="):
        return f"take the line {first} out: it is for spreadsheets alone"
    for mark, name in ((";", "semicolons"), ("\t", "tabs"), ("|", "bars")):
        if mark in first:
            return f"the columns are parted by {name}: save the file with commas"
    found = [column.strip().strip('"') for column in first.split(",")]
    if found == columns:
        return f"write {wanted}, without blanks"
    if [column.lower() for column in found] == columns:
        return f"write {wanted}: capital letters count"
    if sorted(found) == sorted(columns):
        return f"put the columns in the order {wanted}"
    if set(found) & set(columns):
        lacks = [column for column in columns if column not in found]
        more = [column for column in found if column not in columns]
        if more and not any(more):
            return f"take the comma at the end out: write {wanted}"
        said = [f"lacks {', '.join(lacks)}"] if lacks else []
        said += [f"has {', '.join(shown(column) for column in more)}, which isn't one"] if more else []
        return f"the header {' and '.join(said)}" if said else f"write {wanted}"
    if len(found) == len(columns):
        return f"the header seems to be missing: put the line {wanted} before the records"
    return f"the first line is {wanted}"


def for_row(file: str, fields: list[str], width: int) -> str:
    """For a record with another number of fields than the header."""
    if file == "day.csv" and len(fields) > width:
        return f'write the rule in quotes: {fields[0]},"{",".join(fields[1:])}"'
    if len(fields) == 1 and not fields[0].strip():
        return "take the line of blanks out"
    if fields[0].lstrip().startswith("#"):
        return "take the line out: there are no comments"
    if any("\n" in field or "\r" in field for field in fields):
        return 'a field goes over an end of line: see whether a " isn\'t closed'
    if len(fields) == 1 and ";" in fields[0]:
        return "the columns are parted by semicolons: save the file with commas"
    if len(fields) > width and any(re.fullmatch("-?[0-9]+", field) for field in fields):
        return "a comma too many: a number has a decimal point, no decimal comma, and no comma between thousands"
    return "a comma is missing" if len(fields) < width else "a comma too many"
