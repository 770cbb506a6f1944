"""The table of sentences: its holes, and that each printed line has its sentence."""

from __future__ import annotations

import unittest

from dorydate import sentences
from dorydate.sentences.table import HOLE, TABLE, filled

HOLES = {"host": "host 0/1", "ours": "Sites", "bits": 1, "octets": 2}


class Table(unittest.TestCase):
    def test_holes(self) -> None:
        self.assertEqual(filled("{Host} has {bits bit} in {octets octet} of {host's} {bits}.", HOLES), "Host 0/1 has 1 bit in 2 octets of host 0/1's 1.")
        self.assertEqual(filled("{Ours's} and {ours's}", HOLES), "Sites' and Sites'")
        with self.assertRaises(KeyError):
            filled("{who} is it?", HOLES)

    def test_each_brace_is_of_a_hole(self) -> None:
        for group in TABLE.values():
            for it in group.values() if isinstance(group, dict) else group:
                for sentence in [it] if isinstance(it, str) else it[1:2]:
                    left = HOLE.sub("", str(sentence))
                    self.assertFalse({*"{}"} & {*left}, sentence)


class Lines(unittest.TestCase):
    def test_each_line_fills_its_sentence(self) -> None:
        for kind, (names, _) in sentences.LINES.items():
            words = ["1" if it in ("socket", "code") else "0/1" for it in names.split(" ")]
            said = sentences.crossing([kind, *words])
            self.assertTrue(said.endswith("."), said)
            self.assertFalse({*"{}"} & {*said}, said)

    def test_rows(self) -> None:
        rows = {
            "in 0/1 0/2 5 1": "Host 0/2 takes host 0/1's message on link 5: 1 bit.",
            "opened 0/1 33 0/2 16": "Host 0/1's socket 33, which sends, is connected with socket 16 of host 0/2: both requests have passed.",
            "failed user 0/1 local": "The initial connection has failed at the user on host 0/1: its own host refused what it asked for.",
            "error 0/1 0/2 4": "Host 0/2 reports to host 0/1 that something it sent was wrong: no connection has these sockets.",
            "line 0/1 a b": "A whole line has come to host 0/1's terminal: “a b”.",
            "refused Closing": "The connection is being closed.",
            "end": "",
        }
        for line, said in rows.items():
            self.assertEqual(sentences.meaning(line), said)
