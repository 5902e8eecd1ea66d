"""The programs that the tests run, where there are any, and `python -m mari`."""

import contextlib
import io
import os
import unittest
from pathlib import Path

from mari import MariNoProgram, Program, Reach
from mari.__main__ import main

CHECKER = Path(__file__).resolve().parents[2] / "examples" / "checker"

try:
    PROGRAM = Program()
    PROGRAM.generate(1)
except MariNoProgram as error:
    if os.environ.get("MARI"):
        raise
    PROGRAM = None
    print(f"tests: {error}: those that run the program are left out")

needs_program = unittest.skipIf(PROGRAM is None, "no program to run")

try:
    REACH = Reach()
    os.environ["REACH"] = str(REACH.path)
except MariNoProgram as error:
    if os.environ.get("REACH"):
        raise
    REACH = None
    print(f"tests: {error}: those that run the program are left out")

needs_reach = unittest.skipIf(REACH is None, "no program reach to run")


def said(*words):
    """The exit code of `python -m mari` with these words, and what it prints on both outputs."""
    out, err = io.StringIO(), io.StringIO()
    with contextlib.redirect_stdout(out), contextlib.redirect_stderr(err):
        code = main(words)
    return code, out.getvalue(), err.getvalue()
