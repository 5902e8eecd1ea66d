"""A printed text by its lines: words, and numbers in printed form alone."""

from __future__ import annotations

import re
from collections.abc import Callable, Iterable
from decimal import Decimal
from typing import TypeVar

from mari.errors import MariText, shown
from mari.units import is_name

Row = TypeVar("Row")

PRICE = re.compile(r"(?!-0\.00)-?(?:0|[1-9][0-9]{0,17})\.[0-9]{2}")
_MONEY = re.compile(r"(?!-0\.0000)-?(?:0|[1-9][0-9]{0,17})\.[0-9]{2}(?:00|25|50|75)")
_MW = re.compile(r"(?:0|[1-9][0-9]{0,4})")
WHOLE = re.compile(r"(?:0|-?[1-9][0-9]{0,18})")
_LENGTHS = {
    "zone": 6,
    "border": 5,
    "bid": 3,
    "demand": 3,
    "operator": 5,
    "provider": 3,
    "total-operator": 5,
    "total-provider": 3,
}


class Lines:
    """Reads a text by lines; `number` is that of the line in hand, and `read` that of the line whose words are read."""

    def __init__(self, lines: Iterable[str]) -> None:
        """At the first line."""
        self.lines = iter(lines)
        self.number = self.read = 0
        self.words: list[str] = []
        self.step()

    def step(self) -> None:
        """Takes the next line; no words where there is none."""
        line = next(self.lines, None)
        self.number += 1
        if line is None:
            self.words = []
        elif not line.endswith("\n"):
            raise self.fault("has no end: the text is cut off")
        else:
            self.words = line[:-1].split(" ")

    def fault(self, reason: str) -> MariText:
        """Of the line in hand."""
        return MariText(self.number, reason)

    def is_at(self, word: str) -> bool:
        return bool(self.words) and self.words[0] == word

    def whole(self, text: str) -> int:
        if not WHOLE.fullmatch(text):
            raise MariText(self.read, f"{shown(text)} isn't a whole number")
        return int(text)

    def mw(self, text: str) -> int:
        if not _MW.fullmatch(text):
            raise MariText(self.read, f"{shown(text)} isn't what may run, in MW")
        return int(text)

    def price(self, text: str) -> Decimal:
        if not PRICE.fullmatch(text):
            raise MariText(self.read, f"{shown(text)} isn't a price")
        return Decimal(text)

    def money(self, text: str) -> Decimal:
        if not _MONEY.fullmatch(text):
            raise MariText(self.read, f"{shown(text)} isn't money")
        return Decimal(text)

    def many(self, word: str, read: Callable[[list[str]], Row]) -> list[Row]:
        """What is read of each line of a kind, as many as follow."""
        rows = []
        while self.is_at(word):
            self.read = self.number
            if len(self.words) != _LENGTHS[word]:
                raise self.fault(f"a line of {word} has {_LENGTHS[word]} words")
            if word != "demand" and not (is_name(self.words[1]) and (word != "border" or is_name(self.words[2]))):
                raise self.fault(f"names a {word} by what is no name")
            rows.append(read(self.words))
            self.step()
        return rows

    def some(self, word: str, read: Callable[[list[str]], Row]) -> list[Row]:
        """What is read of each line of a kind of which there is one at least."""
        if not self.is_at(word):
            raise self.missing(word)
        return self.many(word, read)

    def missing(self, word: str) -> MariText:
        return self.fault(f"should be the line {word}" if self.words else "is missing: the text ends too early")

    def one(self, word: str, length: int) -> list[str]:
        """The words of a line that must come now."""
        if not self.is_at(word) or len(self.words) != length:
            raise self.missing(word)
        words, self.read = self.words, self.number
        self.step()
        return words
