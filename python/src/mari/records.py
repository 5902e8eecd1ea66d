"""The records of a file, cut as the program cuts them.

Commas and double quotes; a record ends by LF, CRLF or a lone CR; empty lines are no records; a byte order mark at the
head is taken off. Python's own `csv` differs in corners (NUL bytes, very long fields, bytes that are no UTF-8), so the
records are cut here.
"""

from __future__ import annotations

import re
from collections.abc import Iterator

_FIELD = re.compile(r'(?:"([^"]*(?:""[^"]*)*)("?))?([^,\r\n]*)([,\r\n]|\Z)')
_ENDS = re.compile(r"[\r\n]*")
_LINE = re.compile(r"[^\n]+")
_SIMPLE = re.compile(r'["\r]')


def decoded(page: bytes) -> tuple[str, bool]:
    """The text of a page without its mark, and whether all of it is UTF-8. Bad bytes are kept as lone surrogates."""
    body = page.removeprefix(b"\xef\xbb\xbf")
    try:
        return body.decode("utf-8"), True
    except UnicodeDecodeError:
        return body.decode("utf-8", "surrogateescape"), False


def records(text: str) -> Iterator[list[str]]:
    """The fields of each record, the header first."""
    if not _SIMPLE.search(text):
        for line in _LINE.finditer(text):
            yield line[0].split(",")
        return
    place, end = 0, len(text)
    while True:
        found = _ENDS.match(text, place)
        place = found.end() if found else place
        if place >= end:
            return
        fields: list[str] = []
        while True:
            part = _FIELD.match(text, place)
            assert part is not None
            quoted = part[1]
            fields.append(part[3] if quoted is None else quoted.replace('""', '"') + part[3])
            place = part.end()
            if part[4] != ",":
                break
        yield fields


def is_utf8(fields: list[str]) -> bool:
    """Whether each field of a record is UTF-8, where bad bytes were kept as lone surrogates."""
    try:
        for field in fields:
            field.encode("utf-8", "surrogateescape").decode("utf-8")
    except UnicodeDecodeError:
        return False
    return True
