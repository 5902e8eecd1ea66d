"""What can go wrong, each with what a caller needs to mend it."""

from __future__ import annotations

from dataclasses import dataclass


@dataclass(frozen=True)
class Problem:
    """A check that a market file fails.

    `line` counts records, the header being 1. `field` is the name of the column, or empty where no single field is bad;
    `value` is what stands there. `hint` says what to write, where that can be told. Where a check names line 1 for the
    whole file, `at` is the line that fails it, if one does.
    """

    file: str
    line: int
    number: int
    check: str
    field: str = ""
    value: str = ""
    reason: str = ""
    hint: str = ""
    at: int = 0

    def __str__(self) -> str:
        """One line: where, what is bad, and what to write."""
        place = f"{self.file} line {self.at or self.line}" + (f", field {self.field}" if self.field else "")
        said = f"{shown(self.value)} {self.reason}" if self.field else self.reason
        hint = f": {self.hint}" if self.hint else ""
        return f"{place}: {said or self.check}{hint} [{self.number} {self.check}]"


class MariError(Exception):
    """Anything that this package raises on purpose. `exit_code` is the program's, where it ran."""

    exit_code: int | None = None


class MariRefused(MariError):
    """A file isn't as it should be: `file`, `line`, `number` and `check` are those of the program's refusal.

    `field`, `value`, `reason`, `hint` and `at` are found by this package. They are empty where it can't tell.
    """

    exit_code = 3

    def __init__(self, problem: Problem) -> None:
        """Keeps the problem, whose members can be read off the exception."""
        super().__init__(str(problem))
        self.problem = problem
        self.file, self.line, self.number, self.check = problem.file, problem.line, problem.number, problem.check
        self.field, self.value = problem.field, problem.value
        self.reason, self.hint, self.at = problem.reason, problem.hint, problem.at


class MariFileError(MariError):
    """A file of a folder can't be had."""

    def __init__(self, file: str, message: str) -> None:
        """Keeps the name of the file within the folder."""
        super().__init__(message)
        self.file = file


class MariMissing(MariFileError):
    """There is no such file in the folder."""

    exit_code = 8

    def __init__(self, file: str) -> None:
        """The file's name."""
        super().__init__(file, f"{file} is missing (a file without records still has its header)")


class MariTooLong(MariFileError):
    """A file has more bytes than a file may have."""

    exit_code = 9

    def __init__(self, file: str) -> None:
        """The file's name."""
        super().__init__(file, f"{file} is too long")


class MariUnreadable(MariFileError):
    """A file is there, and reading it failed."""

    exit_code = 4

    def __init__(self, file: str) -> None:
        """The file's name."""
        super().__init__(file, f"{file} can't be read")


FAULTS = {
    1: ("Heading", "run, quarter hour or kind isn't that of runs.csv, or a block is missing or one too many"),
    2: ("Lines", "the zones, borders, bids or demands of the block aren't those of the run"),
    3: ("Infeasible", "quantities and flows can't be"),
    4: ("Welfare", "the welfare is another"),
    5: ("Inconsistent", "the prices aren't consistent with the activation"),
    6: ("Interval", "the least or the greatest price of a zone is another"),
    7: ("Price", "a price isn't the nearest of its interval to the reference"),
    8: ("Area", "a zone belongs to another price area"),
    9: ("Tree", "the certificate isn't whole, or doesn't go with the budget"),
    10: ("Leaf", "an item of the certificate doesn't show what it should"),
    11: ("Ledger", "a rent, an operator or a provider line is another"),
    12: ("Totals", "a total isn't the sum over the published runs"),
}


class MariInvalid(MariError):
    """`check` or `value` found that the printed day isn't one of the folder's files. `run` is 0 for head and totals."""

    exit_code = 7

    def __init__(self, run: int, fault: int) -> None:
        """The run and the number of its least fault."""
        self.run, self.fault = run, fault
        self.name, self.reason = FAULTS.get(fault, ("", "an unknown fault"))
        super().__init__(f"publication.txt, run {run}: {self.reason}: clear the folder again [{fault} {self.name}]")


class MariEnded(MariError):
    """The program ended without an answer: bad words, a failed write, no memory, or a signal."""

    def __init__(self, exit_code: int, said: str) -> None:
        """The exit code (negative for a signal) and the last line that the program printed."""
        why = {2: "the words are no command", 5: "a write failed", 6: "out of memory"}.get(exit_code)
        if why is None:
            why = f"ended by signal {-exit_code}" if exit_code < 0 else f"ended with {exit_code}"
        super().__init__(f"{why}: {said}" if said else why)
        self.exit_code, self.said = exit_code, said


class MariRange(MariError, ValueError):
    """A number of a call is out of its range; the program isn't called."""

    exit_code = 2


class MariNoProgram(MariError):
    """No program was found to run."""


class MariText(MariError):
    """A printed text isn't one of the program's: `line` counts lines of text from 1."""

    def __init__(self, line: int, reason: str) -> None:
        """Where, and what is wrong."""
        super().__init__(f"publication.txt line {line}: {reason}")
        self.line, self.reason = line, reason


class MariOtherFolder(MariError):
    """A publication doesn't belong to the folder's market files: clear the folder again."""


def shown(text: str, most: int = 40) -> str:
    """A text in quotes as printable ASCII, cut where it is long."""
    made = ascii(text)
    return made if len(made) <= most else made[:most] + "...'"
