"""Logs of networks with strangers: how they are read, spelled, judged and explained."""

from __future__ import annotations

import unittest

from dorydate.explain.book import said_of
from dorydate.explain.logs import explained
from dorydate.model.chance.mixed_books import EVERY_WAY, misnamed, of_mixed_world, small_mixed
from dorydate.model.chance.strangers import mixed_script, naming
from dorydate.model.log import Book, BadLog, book_of, read_log, spelled_log
from dorydate.model.names import HostName
from dorydate.model.verdict import says
from workshop.checks.stranger_rows import rows
from workshop.parts import ROOT, text_of

LOG = text_of(f"{ROOT}/logs/beside-a-stranger")
SEEDS = 12


def book(*changes: tuple[str, str]) -> Book:
    """The book beside a stranger, with parts of its text changed."""
    text = LOG
    for old, new in changes:
        assert old in text
        text = text.replace(old, new)
    return read_log(text.encode("ascii"))


class Reading(unittest.TestCase):
    def test_a_log_is_spelled_as_it_is_read(self) -> None:
        self.assertEqual(book().strangers, (HostName(0, 3),))
        self.assertEqual(spelled_log(book()).decode(), LOG)

    def test_strangers_rise(self) -> None:
        for names, bad in (("0/1 0/1", 2), ("0/2 0/1", 2), ("0/2 3/1", 2), ("1/2 0/2", 2), ("0/1 1/1 0/2 0/2", 4)):
            text = "".join(f"foreign {it}\n" for it in names.split(" ")) + "end\n"
            with self.assertRaises(BadLog) as raised:
                read_log(text.encode())
            self.assertEqual(raised.exception.args, (bad,))

    def test_lines_are_those_of_the_file(self) -> None:
        it = book()
        lines = LOG.splitlines()
        self.assertTrue(lines[it.crossing_line(0) - 1].startswith("out 0/3"))
        self.assertTrue(lines[it.life_line(0) - 1].startswith("life 0/1 16"))
        self.assertEqual(lines[it.list_line(3) - 1], "handed 16 5253")


class Judging(unittest.TestCase):
    def test_rows_have_their_causes(self) -> None:
        for octets, wanted in rows():
            self.assertEqual(says(octets), wanted, octets)
            self.assertNotIn("No cause was found", explained(octets, wanted), octets)

    def test_logs_of_worlds_are_kept(self) -> None:
        for seed in range(SEEDS):
            network, _, world = mixed_script(seed)
            octets = spelled_log(book_of(naming(network, world.strangers), world))
            self.assertEqual(says(octets), "kept")
            self.assertEqual(spelled_log(read_log(octets)), octets)

    def test_books_by_chance(self) -> None:
        for seed in range(SEEDS):
            way, its, _, _ = of_mixed_world(seed)
            said = says(spelled_log(its))
            self.assertEqual(said != "kept", way in EVERY_WAY, way)
            others = [says(spelled_log(small_mixed(seed))), says(misnamed(seed, its))]
            self.assertTrue(all(others))


class Telling(unittest.TestCase):
    def test_who_is_named_wrongly(self) -> None:
        again = explained(b"foreign 0/1\nforeign 0/1\nend\n", "bad log line 2")
        self.assertIn("Line 1 says so already. Each stranger is named once.", again)
        before = explained(b"foreign 1/2\nforeign 0/2\nend\n", "bad log line 2")
        self.assertIn("It follows host 1/2. Strangers are named by the rising numbers of their IMPs", before)
        late = explained(b"down 0/1\nforeign 0/1\nend\n", "bad log line 2")
        self.assertIn("It is one of the strangers, and follows crossings.", late)

    def test_a_stranger_that_is_not_named(self) -> None:
        octets = LOG.removeprefix("foreign 0/3\n").encode()
        self.assertIn("the log begins with `foreign 0/3`", explained(octets, says(octets)))

    def test_what_is_said_of_lives(self) -> None:
        among, beside = said_of(book(), 29), said_of(book(), 30)
        self.assertIn("promise.safe.streams.source", " ".join(among))
        names = ["toward.owner", "toward.asked.own", "toward.asked.partner", "toward.taken"]
        self.assertEqual([it.split(":")[0].strip() for it in beside[1:]], names)
        more = said_of(book(("receive 1 8 1 8", "receive 1 8 1 7")), 30)
        self.assertIn("are more than the 1 message and 7 bits that the life of line 30 granted", more[-1])
        unhanded = said_of(book(("handed 16 5253", "handed 0 -")), 32)
        self.assertIn("What it sent is no prefix of what was handed over in it.", unhanded[-1])
        strangers = said_of(book(("life 0/1 18 0/3 35 12 1 receive", "life 0/3 35 0/1 18 0 13 send")), 30)
        self.assertEqual(strangers[1:], ["  toward.owner: Its host is a stranger, which has no lives."])

    def test_what_is_said_of_messages(self) -> None:
        clauses = [it.split(":")[0].strip() for it in said_of(book(), 17)[1:]]
        self.assertEqual(clauses, ["promise.run", "promise.safe.messages.once", "promise.safe.messages.answered"])
        self.assertIn("line 12", " ".join(said_of(book(), 11)))


if __name__ == "__main__":
    unittest.main()
