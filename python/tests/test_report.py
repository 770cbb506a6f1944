"""What commands take, by their parsers, and how a suite of checks ends."""

from __future__ import annotations

import io
import unittest
from contextlib import redirect_stderr, redirect_stdout
from unittest import mock

from workshop import report
from workshop.parts import names_of, run, said_of
from workshop.words import Words


def help_of(kind: str, command: str, name: str) -> str:
    """What a part prints for `--help`."""
    with redirect_stdout(io.StringIO()) as said:
        try:
            run(kind, command, name, ["--help"])
        except SystemExit as end:
            return said.getvalue() if not end.code else ""
    return ""


class Help(unittest.TestCase):
    def test_each_part_says_what_it_does_and_takes(self) -> None:
        for kind, command in ("checks", "check"), ("measure", "measure"):
            for name in names_of(kind):
                with self.subTest(name=name):
                    found = " ".join(help_of(kind, command, name).split())
                    self.assertIn(" ".join(said_of(kind, name).split("\n\n")[0].split()), found)
                    self.assertIn(f"usage: {command} {name}" if name != "cells" else "usage: cells.py", found)

    def test_a_part_without_words_takes_none(self) -> None:
        with redirect_stderr(io.StringIO()) as said, self.assertRaises(SystemExit):
            run("checks", "check", "campaigns", ["more"])
        self.assertIn("unrecognized arguments: more", said.getvalue())

    def test_what_is_left_out_has_its_value(self) -> None:
        words = Words("Says something.", "check something").count("runs", 7, "how many")
        words.names("name", "of what").flag("write", "writes")
        asked = words.parse_intermixed_args(["3", "--write", "one", "two"])
        self.assertEqual((asked.runs, asked.name, asked.write), (3, ["one", "two"], True))
        asked = words.parse_intermixed_args([])
        self.assertEqual((asked.runs, asked.name, asked.write), (7, [], False))


class Suite(unittest.TestCase):
    def ran(self, *statuses: int | str) -> tuple[int, str]:
        """The status of a suite of checks that end so, by a status or by why, and what it says."""
        ends = iter(statuses)

        def ending(*_: object) -> int:
            if isinstance(end := next(ends), str):
                raise SystemExit(end)
            return end

        with redirect_stdout(io.StringIO()) as said, mock.patch.object(report, "run", ending):
            status = report.run_all([["tools"] for _ in statuses])
        return status, said.getvalue()

    def test_all_pass(self) -> None:
        status, said = self.ran(0, 0)
        self.assertEqual((status, said.count("check: passed"), "all 2 passed" in said), (0, 2, True))

    def test_one_that_fails_stops_no_other(self) -> None:
        status, said = self.ran(1, "there is no program", 0)
        self.assertEqual(status, 1)
        self.assertIn("fails: its status is 1", said)
        self.assertIn("fails: there is no program", said)
        self.assertIn("2 of 3 failed", said)

    def test_a_name_that_is_no_check_is_refused(self) -> None:
        with redirect_stderr(io.StringIO()) as said:
            self.assertEqual(report.run_all([["tools"], ["nosuch"]]), 1)
        self.assertIn("there is no check called nosuch", said.getvalue())


if __name__ == "__main__":
    unittest.main()
