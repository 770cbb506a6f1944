"""The page of lessons says what the workbench says of the hour."""

from __future__ import annotations

import re
import unittest

from dorydate.sentences.table import TABLE
from workshop.parts import ROOT, text_of

PAGE = text_of(f"{ROOT}/docs/lessons.md")


def rows_after(head: str) -> list[list[str]]:
    """The rows of the table below a row of heads."""
    below = PAGE.partition(head)[2].split("\n")[2:]
    rows = below[: next(at for at, line in enumerate(below) if not line.startswith("|"))]
    return [[cell.strip() for cell in it.strip("|").split("|")] for it in rows]


class Lessons(unittest.TestCase):
    def test_the_hour_is_the_same_on_the_page_and_in_the_workbench(self) -> None:
        rows = rows_after("| Minutes | Lesson | Question | Answer |")
        self.assertEqual(len(rows), len(TABLE["hour"]))
        for (minutes, lesson, question, answer), hour in zip(rows, TABLE["hour"]):
            self.assertEqual([int(minutes), question, answer], [hour[0], *hour[2:]])
            named = re.match(r"\[([\w-]+)\]\(\.\./examples/", lesson)
            self.assertEqual(named[1] if named else "", hour[1])


if __name__ == "__main__":
    unittest.main()
