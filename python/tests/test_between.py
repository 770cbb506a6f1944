"""Between which lives messages of data went: logs by hand, and wrong readings of it."""

from __future__ import annotations

import unittest
from collections.abc import Iterable

from dorydate.model.between import Between
from dorydate.model.log import Book, read_log
from dorydate.model.misread_between import MISREADINGS
from workshop.parts import ROOT, text_of

LINES = text_of(f"{ROOT}/logs/two-octets").splitlines()
OPEN, DATA = LINES[:9], LINES[9:12]
TAKER, GIVER, TAKEN, GIVEN = LINES[12:16]
UNSENT = GIVER.replace("send 1 16 0 0 0 0 open 4849", "send 0 0 0 0 0 0 open -")
# the same sockets and stamps, but with another socket of the partner
OTHER = TAKER.replace("0/1 16 0/2 33", "0/1 18 0/2 35")

GOOD = {
    "two octets": LINES,
    "they wait": [*OPEN, DATA[0], TAKER, GIVER, TAKEN, GIVEN, "end"],
    "nothing was sent": [*OPEN, "end"],
    "to a stranger": ["foreign 0/1", *OPEN, *DATA, "end"],
    "of a stranger": ["foreign 0/2", *OPEN, *DATA, "end"],
}
BROKEN = {
    "no lives": [*OPEN, *DATA, "end"],
    "no lives, and they wait": [*OPEN, DATA[0], "end"],
    "no receiving life": [*OPEN, *DATA, GIVER, GIVEN, "end"],
    "another receiving life": [*OPEN, *DATA, OTHER, GIVER, TAKEN, GIVEN, "end"],
    "no sending life": [*OPEN, *DATA, TAKER, TAKEN, "end"],
    "a sending life that doesn't count it": [*OPEN, *DATA, TAKER, UNSENT, TAKEN, GIVEN, "end"],
}


def book_of(lines: Iterable[str]) -> Book:
    return read_log("".join(f"{line}\n" for line in lines).encode())


def judged(lines: Iterable[str], reading: Between) -> bool:
    book = book_of(lines)
    return reading.broken(book.log, book.lives, book.strangers) is None


class Messages(unittest.TestCase):
    def test_right_logs(self) -> None:
        for name, lines in GOOD.items():
            with self.subTest(name):
                self.assertTrue(judged(lines, Between()))

    def test_wrong_logs(self) -> None:
        for name, lines in BROKEN.items():
            with self.subTest(name):
                self.assertFalse(judged(lines, Between()))
        book = book_of(BROKEN["no lives"])
        self.assertEqual(Between().broken(book.log, book.lives), 9)

    def test_each_reading_is_told(self) -> None:
        for kind in MISREADINGS:
            with self.subTest(kind.__name__):
                right = [*(judged(it, kind()) for it in GOOD.values())]
                wrong = [*(judged(it, kind()) for it in BROKEN.values())]
                self.assertFalse(all(right) and not any(wrong))


if __name__ == "__main__":
    unittest.main()
