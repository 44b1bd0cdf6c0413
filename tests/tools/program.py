"""The one place that finds the program, and says which tests need it."""

import os
import subprocess
import unittest
from pathlib import Path

TOP = Path(__file__).resolve().parents[2]

# tests/run sets this where only the tests are wanted that need no built program.
WITHOUT = "CQE_TESTS_WITHOUT_PROGRAM"


def path():
    """The program's path: that of the environment variable CQE, else the built one; None where there is none."""
    named = os.environ.get("CQE")
    found = Path(named) if named else TOP / "crates/cqe/out/cqe"
    return str(found.resolve()) if found.is_file() and os.access(found, os.X_OK) else None


def wanted():
    """Whether tests that need the program are to run."""
    return not os.environ.get(WITHOUT)


def knows_secrecies():
    """Whether the program is new enough for policies of version 2 and the line `secrecy`."""
    return bool(path()) and run("case", given=b"secrecy true\n").returncode == 0


def with_secrecies(test):
    """A decorator as `needed`, for what an older program doesn't know."""
    return unittest.skipUnless(wanted() and knows_secrecies(), "needs a program that knows secrecies")(test)


def knows_dossiers():
    """Whether the program is new enough for the commands `dossier` and `check`: it looks for the files that they name."""
    nowhere = ["--policy", "nothing here", "--facts", "nothing here", "--user", "u"]
    return bool(path()) and run("check", *nowhere).returncode == 8


def with_dossiers(test):
    """A decorator as `needed`, for what an older program doesn't know."""
    return unittest.skipUnless(wanted() and knows_dossiers(), "needs a program that writes dossiers")(test)


def needed(test):
    """A decorator of a test or of a class of tests: skipped where the program isn't there or isn't wanted."""
    return unittest.skipUnless(wanted() and path(), "needs the program")(test)


def run(*words, given=b"", **more):
    """A run of the program with these words, with this on standard input."""
    return subprocess.run([path(), *map(str, words)], input=given, capture_output=True, timeout=120, **more)
