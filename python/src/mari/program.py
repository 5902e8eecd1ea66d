"""Finds the programs and runs them: typed results, or an exception that says what to mend."""

from __future__ import annotations

import contextlib
import json
import os
import shutil
import subprocess
import tempfile
from collections.abc import Callable, Iterator
from dataclasses import dataclass, field
from decimal import Decimal
from os import PathLike
from pathlib import Path
from typing import Any, NamedTuple

from mari.errors import (
    MariEnded,
    MariError,
    MariInvalid,
    MariMissing,
    MariNoProgram,
    MariRange,
    MariRefused,
    MariText,
    MariTooLong,
    MariUnreadable,
    Problem,
)
from mari.folder import Folder, problems, read_pages
from mari.joint import joint_problems
from mari.publication import Activation, Flow, Item, Publication, RunBlock, ZonePrice, read_joint, read_split
from mari.units import MOST_NODES, MOST_QUARTERS, MOST_RAISE, MOST_WORKERS

StrPath = str | PathLike[str]


class Worth(NamedTuple):
    """What K MW more on each limit of a border would bring a run, in euro.

    `gain` is by how much more welfare the published gates reach, and `rise` what the K MW earn at the published prices;
    `back_gain` and `back_rise` are those of the limit from the second zone to the first.
    """

    run: int
    from_zone: str
    to_zone: str
    gain: Decimal
    rise: Decimal
    back_gain: Decimal
    back_rise: Decimal


class Checked(NamedTuple):
    """How many runs of a valid publication are published, and how many aren't."""

    published: int
    unpublished: int


class Reached(NamedTuple):
    """How many runs of a valid publication have the first activation, and how many one within a gap of the best."""

    first: int
    within: int


@dataclass
class JointQuarter:
    """A quarter hour of a joint market: prices, flows, activated MW of the bids, and MW met of the demands."""

    quarter: int
    zones: list[ZonePrice] = field(default_factory=list)
    borders: list[Flow] = field(default_factory=list)
    bids: list[Activation] = field(default_factory=list)
    demands: list[int] = field(default_factory=list)


@dataclass
class Joint:
    """Several quarter hours cleared as one market. Where it isn't published, `nodes` says how many were made.

    `tree` is the certificate of all quarter hours together.
    """

    first: int
    last: int
    nodes: int | None = None
    welfare: Decimal = Decimal(0)
    quarters: list[JointQuarter] = field(default_factory=list)
    tree: list[Item] = field(default_factory=list)

    @property
    def published(self) -> bool:
        """Whether the quarter hours are published."""
        return self.nodes is None


def find_program(name: str = "mari") -> Path:
    """The program: $MARI, that of the installed wheel, that of the repository, or `mari` on the path.

    The repository is the one that this package or the current folder lies in. The program `reach` of the second form is
    found in the same way, by $REACH.
    """
    stated = os.environ.get(name.upper())
    if stated:
        return Path(stated)
    here = Path(__file__).resolve().parent
    shipped = here / "_program" / name
    if shipped.exists():
        return shipped
    for folder in (*here.parents, Path.cwd(), *Path.cwd().parents):
        if (folder / name).is_file() and (folder / "docs" / "FORMATS.md").is_file():
            return folder / name
    found = shutil.which(name)
    if found:
        return Path(found)
    raise MariNoProgram(f"no program {name} was found: set {name.upper()} to its path")


class _Called:
    """What the programs have in common: how they are called, and what their exit codes mean."""

    name: str

    def __init__(self, path: StrPath | None = None) -> None:
        """The program at a path, or the one that `find_program` finds."""
        self.path = Path(path) if path is not None else find_program(self.name)

    def run(self, *words: str) -> subprocess.CompletedProcess[bytes]:
        """Calls the program with these words, whatever it comes to."""
        try:
            return subprocess.run([str(self.path), *words], capture_output=True, check=False)
        except OSError as error:
            raise MariNoProgram(f"{self.path} can't be run: {error.strerror}") from None

    def _cleared(self, folder: StrPath | Folder, options: list[str], save: bool) -> Publication:
        with _at(folder) as path:
            ended = self._call(path, "clear", _word(path), *options, good=(0, 1))
            publication = Publication.of_text(ended.stdout.decode("ascii"))
            if save and not isinstance(folder, Folder):
                _keep(Path(path) / "publication.txt", ended.stdout)
            return publication

    def _checked(self, folder: StrPath) -> tuple[int, int]:
        first, others = map(int, self._call(folder, "check", _word(folder)).stdout.split()[1:3])
        return first, others

    def _call(
        self, folder: StrPath | None, *words: str, good: tuple[int, ...] = (0,), quarters: tuple[int, int] | None = None
    ) -> subprocess.CompletedProcess[bytes]:
        """Calls the program, and raises what it ended with where that isn't good."""
        ended = self.run(*words)
        if ended.returncode in good:
            return ended
        printed = ended.stdout.decode("ascii", "replace").rstrip("\n").split("\n")
        said = printed[-1] if ended.returncode in (2, 3, 4, 7, 8, 9) else ""
        said = said or ended.stderr.decode("utf-8", "replace").strip()
        raise _exception(ended.returncode, said, folder, quarters)


class Program(_Called):
    """The program, called for folders. Every call may raise what `mari.errors` has.

    A folder is a path, or a `Folder`, which is written into a temporary one for the call.
    """

    name = "mari"

    def clear(
        self, folder: StrPath | Folder, *, nodes: int | None = None, workers: int | None = None, save: bool = True
    ) -> Publication:
        """Clears a day. With `save` its text is kept as publication.txt in the folder.

        `nodes` is the budget of each run's search, 1 to 50,000 (else 10,000), `workers` its threads, 1 to 16 (else 2).
        Runs that aren't published within the budget are in `Publication.unpublished`.
        """
        return self._cleared(folder, _options(nodes, workers), save)

    def check(self, folder: StrPath) -> Checked:
        """Tests the folder's publication.txt against its market files; `MariInvalid` where it has a fault."""
        return Checked(*self._checked(folder))

    def feed(self, folder: StrPath) -> list[dict[str, Any]]:
        """The lines of the feed of the folder's publication.txt: the head, the blocks and the totals."""
        ended = self._call(folder, "feed", _word(folder))
        return [json.loads(line) for line in ended.stdout.splitlines()]

    def split(
        self, folder: StrPath | Folder, *, nodes: int | None = None, workers: int | None = None
    ) -> list[RunBlock]:
        """The runs of a day, each cleared by its islands (`RunBlock.islands`): without money, as none is printed."""
        with _at(folder) as path:
            ended = self._call(path, "split", _word(path), *_options(nodes, workers), good=(0, 1))
        return read_split(ended.stdout.decode("ascii").splitlines(keepends=True))

    def blocks(
        self, folder: StrPath | Folder, first: int, last: int, *, nodes: int | None = None, workers: int | None = None
    ) -> Joint:
        """The scheduled runs of some quarter hours as one market, with the blocks of blocks.csv."""
        _within("first", first, 1, _within("last", last, 1, MOST_QUARTERS))
        with _at(folder) as path:
            words = (_word(path), str(first), str(last), *_options(nodes, workers))
            ended = self._call(path, "blocks", *words, good=(0, 1), quarters=(first, last))
        nodes_made, welfare, quarters, tree = read_joint(ended.stdout.decode("ascii").splitlines(keepends=True))
        parts = [JointQuarter(part.quarter, part.zones, part.borders, part.bids, part.demands) for part in quarters]
        return Joint(first, last, nodes_made, welfare, parts, tree)

    def value(self, folder: StrPath, mw: int) -> list[Worth]:
        """What `mw` MW more, 1 to 1,000, on each limit of a border would bring each published run."""
        ended = self._call(folder, "value", _word(folder), str(_within("mw", mw, 1, MOST_RAISE)))
        rows, run = [], 0
        for line in ended.stdout.decode("ascii").splitlines():
            word, *rest = line.split(" ")
            if word == "run":
                run = int(rest[0])
            elif word == "border":
                gain, rise, back_gain, back_rise = map(Decimal, rest[2:])
                rows.append(Worth(run, rest[0], rest[1], gain, rise, back_gain, back_rise))
        return rows

    def generate(self, number: int) -> str:
        """The summary of the day that a number generates."""
        return self._call(None, "generate", str(number)).stdout.decode("ascii")

    def migrate(self, folder: StrPath, part: str) -> bytes:
        """The folder's `borders` or `limits` in the form that states limits for each run."""
        return self._call(folder, "migrate", _word(folder), part).stdout

class Reach(_Called):
    """The program of the second form, in which every run has an answer. Its calls are as those of `Program`."""

    name = "reach"

    def clear(self, folder: StrPath | Folder, *, nodes: int | None = None, save: bool = True) -> Publication:
        """Clears a day. With `save` its text is kept as publication.txt in the folder.

        `nodes` is how many items the tree of each run has at most, 1 to 50,000 (else 10,000). Runs whose activations
        are within a gap of the best are in `Publication.within`.
        """
        return self._cleared(folder, _options(nodes, None), save)

    def check(self, folder: StrPath) -> Reached:
        """Tests the folder's publication.txt against its market files; `MariInvalid` where it has a fault."""
        return Reached(*self._checked(folder))


def _exception(code: int, said: str, folder: StrPath | None, quarters: tuple[int, int] | None) -> MariError:
    """The exception for an exit code and the line that was printed last."""
    words = said.split(" ")
    if code == 3 and len(words) == 5:
        return refused(words[1], int(words[2]), int(words[3]), words[4], folder, quarters)
    if code == 7 and len(words) == 3:
        return MariInvalid(int(words[1]), int(words[2]))
    kinds: dict[int, Callable[[str], MariError]] = {4: MariUnreadable, 8: MariMissing, 9: MariTooLong}
    if code in kinds and len(words) == 2:
        return kinds[code](words[1])
    return MariEnded(code, said)


def refused(
    file: str,
    line: int,
    number: int,
    check: str,
    folder: StrPath | None = None,
    quarters: tuple[int, int] | None = None,
) -> MariError:
    """The exception for a refusal of the program, with field, value and hint where this package finds the same one."""
    if file == "publication.txt":
        reasons = {11: "has no form that a day has", 12: "has no place here", 13: "ends too early"}
        return MariText(line, reasons.get(number, check))
    found: Problem | None = None
    if folder is not None:
        with contextlib.suppress(Exception):
            found = next(iter(problems(folder)), None) or _in_blocks(folder, quarters)
    if found and (found.file, found.line, found.number) == (file, line, number):
        return MariRefused(found)
    known = {"AlreadyTwo": "the folder states limits for each run already: there is nothing to migrate"}
    return MariRefused(Problem(file, line, number, check, reason=known.get(check, "")))


def _in_blocks(folder: StrPath, quarters: tuple[int, int] | None) -> Problem | None:
    """The first problem of an accepted folder's quarter hours as one market."""
    if quarters is None:
        return None
    pages = read_pages(folder)
    page = pages.pop("blocks.csv")
    return next(joint_problems(Folder.of_pages(pages), page, *quarters), None)


def _options(nodes: int | None, workers: int | None) -> list[str]:
    made = []
    for name, value, most in (("nodes", nodes, MOST_NODES), ("workers", workers, MOST_WORKERS)):
        if value is not None:
            made.append(f"--{name}={_within(name, value, 1, most)}")
    return made


def _within(name: str, value: int, least: int, most: int) -> int:
    """A number for a call; `MariRange` names the one that is out of its range."""
    if not least <= value <= most:
        raise MariRange(f"{name} is {least} to {most}, not {value}")
    return value


def _word(folder: StrPath) -> str:
    """A folder's path as a word of a call: never one that looks like an option."""
    text = os.fspath(folder)
    return os.path.join(os.curdir, text) if text.startswith("-") else text


def _keep(path: Path, text: bytes) -> None:
    """Writes a file whole or not at all."""
    part = path.with_name(f".{path.name}.{os.getpid()}")
    try:
        part.write_bytes(text)
        part.replace(path)
    finally:
        part.unlink(missing_ok=True)


@contextlib.contextmanager
def _at(folder: StrPath | Folder) -> Iterator[str]:
    """The path of a folder."""
    if not isinstance(folder, Folder):
        yield os.fspath(folder)
        return
    with tempfile.TemporaryDirectory(prefix="mari-") as scratch:
        yield str(folder.write(scratch, check=False))
