"""`python -m mari`: explains, lints, orders and prints days."""

from __future__ import annotations

import argparse
import os
import sys
from collections.abc import Sequence
from pathlib import Path

from mari.day import Day
from mari.errors import MariError
from mari.folder import Folder
from mari.lint import lint
from mari.order import ordered
from mari.program import Program, Reach
from mari.publication import form_of
from mari.reasons import Reason, State


def parser() -> argparse.ArgumentParser:
    """The words of the command."""
    made = argparse.ArgumentParser(prog="python -m mari", description=__doc__)
    commands = made.add_subparsers(dest="command", required=True)
    explain = commands.add_parser("explain", help="why each bid was activated or wasn't, and what isn't served")
    explain.add_argument("folder")
    explain.add_argument("bid", nargs="?", help="one bid, or a provider")
    explain.add_argument("--all", action="store_true", help="also bids that were activated or are out of the money")
    for name, words in (
        ("lint", "what is refused, all of a file at once, and what stands out"),
        ("summary", "the day in a few lines, with demand that isn't served"),
    ):
        commands.add_parser(name, help=words).add_argument("folder")
    tables = commands.add_parser("csv", help="the day as CSV tables, with local times")
    tables.add_argument("folder")
    tables.add_argument("out", help="the folder for the tables")
    order = commands.add_parser("order", help="the folder with its bids in an order that needs smaller search trees")
    order.add_argument("folder")
    order.add_argument("new", help="the folder that is written")
    for name in ("explain", "summary", "csv"):
        text = "the budget of each run's search, where the folder is cleared"
        commands.choices[name].add_argument("--nodes", type=int, help=text)
        text = "the folder is cleared by reach, whose text is of the second form"
        commands.choices[name].add_argument("--reach", action="store_true", help=text)
    return made


def main(words: Sequence[str] | None = None) -> int:
    """Ends with 0, 1 where `lint` finds something or `summary` a flaw, 2 for words, or the program's exit code.

    A reader that closes the pipe ends it with 5.
    """
    options = parser().parse_args(words)
    try:
        code = _run(options)
        sys.stdout.flush()
        return code
    except MariError as error:
        print(f"mari: {error}", file=sys.stderr)
        return error.exit_code or 3
    except BrokenPipeError:
        os.dup2(os.open(os.devnull, os.O_WRONLY), sys.stdout.fileno())
        return 5


def _run(options: argparse.Namespace) -> int:
    if options.command == "lint":
        return _lint(options.folder)
    if options.command == "order":
        return _order(Path(options.folder), Path(options.new))
    day = _day(options.folder, options.nodes, options.reach)
    if options.command == "explain":
        return _explain(day, options.bid, options.all)
    if options.command == "csv":
        for path in day.to_csv(options.out):
            print(path)
        return 0
    print("\n".join(day.summary()))
    return 1 if day.unserved() or day.publication.unpublished or day.publication.within else 0


def _day(folder: str, nodes: int | None, by_reach: bool) -> Day:
    """The day of a folder, which is cleared where it has no publication.txt, or has one of another budget or form.

    One that is there is checked. A day of the second form stays one.
    """
    programs: dict[int, type[Program] | type[Reach]] = {1: Program, 2: Reach}
    form = 2 if by_reach else 1
    if (Path(folder) / "publication.txt").exists():
        found = form_of(folder)
        programs[found]().check(folder)
        day, form = Day.read(folder), max(form, found)
        if nodes in (None, day.publication.budget) and form == found:
            return day
    writable = os.access(folder, os.W_OK)
    return Day(Folder.read(folder), programs[form]().clear(folder, nodes=nodes, save=writable))


def _lint(folder: str) -> int:
    found = lint(folder)
    for one in found:
        print(one)
    return 1 if found else 0


def _order(old: Path, new: Path) -> int:
    if (new / "publication.txt").exists() or (new.exists() and new.samefile(old)):
        print(f"mari: {new} is the folder itself or has a publication.txt: name a new folder", file=sys.stderr)
        return 2
    folder = Folder.read(old)
    made = ordered(folder)
    made.write(new)
    moved = sum(one != other for one, other in zip(folder.bids, made.bids))
    print(f"{new}: {moved} of {len(folder.bids)} bids have another place in bids.csv")
    print("Among equal optima the order of bids.csv decides which is published: other bids may run than before.")
    return 0


def _explain(day: Day, wanted: str | None, everything: bool) -> int:
    bids = {bid.id: bid.quarter for bid in day.folder.bids if wanted in (None, bid.id, bid.provider)}
    if wanted is not None and not bids:
        print(f"mari: {wanted} is neither a bid nor a provider of bids.csv", file=sys.stderr)
        return 2
    quarters = {*bids.values()}
    for row in day.unserved():
        if wanted is None or row.quarter in quarters:
            print(
                f"run {row.run} ({row.time}): UNSERVED in zone {row.zone}: {row.unserved} of {abs(row.asked)} MW of an "
                f"inelastic demand, at the price {row.price}"
            )
    more = 0
    for why in day.reasons():
        if wanted is None and not (everything or _stands_out(why)):
            more += 1
        elif why.bid in bids:
            print(_line(day, why))
    if more:
        print(f"and {more} more, activated, out of the money, used up, or for scheduled runs alone (--all shows them)")
    return 0


def _stands_out(why: Reason) -> bool:
    usual = (State.ACTIVATED, State.OUT_OF_THE_MONEY, State.AT_THE_PRICE)
    return why.state not in usual and why.rule not in ("kind", "taken", "sold out")


def _line(day: Day, why: Reason) -> str:
    place = f"run {why.run}" if why.run else f"quarter {why.quarter}"
    return f"{place} ({day.clock.text(why.quarter)}): {why.bid}: {why.state.value}: {why.text}"


if __name__ == "__main__":
    sys.exit(main())
