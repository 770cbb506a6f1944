"""The messages of a life are the first on its link: in books of random worlds, and not in changed ones."""

from __future__ import annotations

import functools
import unittest
from dataclasses import replace

from dorydate.model.book import Life
from dorydate.model.chance.worlds import some_script
from dorydate.model.firsts import determined, messages_of, placed
from dorydate.model.log import Book, book_of

WORLDS = 60


@functools.cache
def books() -> list[Book]:
    """Books of random worlds."""
    return [book_of(network, script.world) for network, script in map(some_script, range(WORLDS))]


def lives() -> list[tuple[Book, Life]]:
    """The lives of these books that carried any bits."""
    return [(book, life) for book in books() for life in book.lives if life.bits]


class Firsts(unittest.TestCase):
    def test_worlds(self) -> None:
        self.assertTrue(all(determined(book.log, book.lives) for book in books()))
        self.assertGreater(len(lives()), 50)

    def test_other_bits(self) -> None:
        for book, life in lives():
            turned = replace(life, bits=("1" if life.bits[0] == "0" else "0") + life.bits[1:])
            self.assertIsNone(placed(book.log, turned))

    def test_a_message_that_did_not_cross(self) -> None:
        for book, life in lives():
            count = len(messages_of(book.log, life)) + 1
            self.assertIsNone(placed(book.log, replace(life, messages=count)))

    def test_a_message_that_no_life_counts(self) -> None:
        for book, life in lives():
            first = messages_of(book.log, life)[: life.messages - 1]
            shorter = replace(life, messages=life.messages - 1, bits="".join(bits or "" for _, bits in first))
            others = [shorter if it is life else it for it in book.lives]
            # a receiver may have dropped the last message while its end closed; a sender counts all of its own
            self.assertEqual(determined(book.log, others), life.receives())


if __name__ == "__main__":
    unittest.main()
