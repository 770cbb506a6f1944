"""The checks as one suite of `unittest`: each is a test by its words, and one report says how all of them ended.

`./check all` and `./check these NAME..` run a suite. A check fails if its status isn't 0 or if it ends by itself. What
checks leave out is said at the end, with why (workshop.tools).
"""

from __future__ import annotations

import os
import sys
import tempfile
import time
import unittest
from collections.abc import Iterator, Sequence
from contextlib import contextmanager
from types import TracebackType

from workshop.parts import names_of, run, said_of, text_of
from workshop.tools import NOTED

Cause = tuple[type[BaseException], BaseException, TracebackType] | tuple[None, None, None]


class Check(unittest.TestCase):
    """One check, with its words."""

    def __init__(self, words: Sequence[str]) -> None:
        super().__init__("passes")
        self.words = [*words]

    def __str__(self) -> str:
        return " ".join(["./check", *self.words])

    def shortDescription(self) -> str:
        """The first line of what the check says of itself."""
        return said_of("checks", self.words[0]).split("\n")[0]

    def passes(self) -> None:
        """Runs the check."""
        name, *words = self.words
        try:
            status: object = run("checks", "check", name, words)
        except SystemExit as end:  # with a status, or with why
            status = end.code or 0
        self.assertEqual(status, 0, status if isinstance(status, str) else f"its status is {status}")


class Told(unittest.TestResult):
    """Says before each check which it is, how many there are and what it checks, and after it how long it took."""

    def __init__(self, count: int) -> None:
        super().__init__()
        self.count, self.begun = count, time.monotonic()
        self.ended: list[tuple[str, float, bool]] = []  # each check, its seconds, and whether it failed

    def startTest(self, test: unittest.TestCase) -> None:
        super().startTest(test)
        self.since, self.before = time.monotonic(), self.wrong()
        so_far = in_minutes(self.since - self.begun)
        print(f"\ncheck: {self.testsRun} of {self.count}, after {so_far}: {test}", flush=True)
        print(f"check: {test.shortDescription()}", flush=True)

    def addFailure(self, test: unittest.TestCase, err: Cause) -> None:
        super().addFailure(test, err)
        print(f"check: {test} fails: {str(err[1]).split(' : ')[-1]}", flush=True)

    def addError(self, test: unittest.TestCase, err: Cause) -> None:
        super().addError(test, err)
        print(self.errors[-1][1], file=sys.stderr, flush=True)

    def stopTest(self, test: unittest.TestCase) -> None:
        self.ended.append((str(test), time.monotonic() - self.since, self.wrong() > self.before))
        super().stopTest(test)

    def wrong(self) -> int:
        """How many have failed."""
        return len(self.failures) + len(self.errors)

    def report(self) -> Iterator[str]:
        """A line for each check, and what came of all."""
        for name, seconds, has_failed in self.ended:
            yield f"{'FAILED' if has_failed else 'passed'}  {name}: {in_minutes(seconds)}"
        whole = in_minutes(time.monotonic() - self.begun)
        came = f"{self.wrong()} of {self.count} failed" if self.wrong() else f"all {self.count} passed"
        yield f"{came}, in {whole}"


def in_minutes(seconds: float) -> str:
    return f"{int(seconds) // 60} min {int(seconds) % 60} s"


@contextmanager
def what_is_left_out() -> Iterator[str]:
    """The file in which checks note what they leave out: the gate's, or one of this run."""
    if NOTED in os.environ:
        yield os.environ[NOTED]
        return
    with tempfile.NamedTemporaryFile("r", encoding="utf-8") as file:
        os.environ[NOTED] = file.name
        try:
            yield file.name
        finally:
            del os.environ[NOTED]


def run_all(checks: Sequence[Sequence[str]]) -> int:
    """Runs these checks, one after the other, whether or not one before has failed. The status."""
    if unknown := [it[0] for it in checks if it[0] not in names_of("checks")]:
        print(f"there is no check called {', '.join(unknown)}; ./check lists them", file=sys.stderr)
        return 1
    suite, told = unittest.TestSuite(map(Check, checks)), Told(len(checks))
    with what_is_left_out() as noted:
        suite.run(told)
        print()
        for line in (*text_of(noted).splitlines(), *told.report()):
            print(f"check: {line.removeprefix('check ')}")
    return 0 if told.wasSuccessful() else 1
