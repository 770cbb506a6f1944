"""Tests of what is refused by name: tables of campaigns and values of calls that are none."""

from __future__ import annotations

import unittest
from typing import Any, cast

from dorydate.deeds import text_of
from dorydate.explore.campaign import BadTable, Campaign
from dorydate.network import BadNetwork, Network
from dorydate.script import BadLine

NOTHING = cast(Any, None)
# a table of a campaign, and words of why it is refused
TABLES = [
    ("search,kinds\nresets-in-step,boom\n", "`boom` is no kind of event of this network"),
    (f"search\n{'x' * 200_000}\n", "field larger than field limit"),
    ("search,raw\nresets-in-step,maybe\n", "`maybe` is neither yes nor no"),
    ("search\nresets-in-step,1,2\n", "it has more cells than there are columns"),
    ("search,seeds\nresets-in-step,1-1000000 1-1000000\n", "are more than 1,000,000 seeds"),
    ("network,carrier,pattern\nA-B,tin,end\n", "`tin` is no carrier"),
    ("search,carrier\nresets-in-step,tin\n", "`tin` is no carrier"),
    ("search,boom\nresets-in-step,1\n", "`boom` is no column of a campaign"),
    ("search\nnone\n", "'none' is no search with a name"),
    ("", "the table has no rows"),
]


class Refusals(unittest.TestCase):
    def test_tables(self) -> None:
        for table, words in TABLES:
            with self.subTest(words=words), self.assertRaisesRegex(BadTable, words):
                Campaign.read(table, "results.csv")

    def test_a_table_of_a_spreadsheet(self) -> None:
        self.assertEqual(len(Campaign.read("\ufeffsearch,seeds\nresets-in-step,1-3\n", "results.csv").tasks), 3)

    def test_texts(self) -> None:
        for wrong in (NOTHING, 5, "é", ["L"]):
            with self.subTest(wrong=wrong), self.assertRaisesRegex(BadLine, "is no text"):
                text_of(wrong)
        self.assertEqual(str(text_of("LO")), "16 4C4F")

    def test_strangers(self) -> None:
        for wrong in (NOTHING, "A"):
            with self.subTest(wrong=wrong), self.assertRaisesRegex(BadNetwork, "no list of the hosts"):
                Network.joined("A-B", foreign=wrong)

    def test_chains(self) -> None:
        for wrong in (NOTHING, 3, ["A", "B"]):
            with self.subTest(wrong=wrong), self.assertRaisesRegex(BadNetwork, "is no chain of sites"):
                Network.joined(wrong)


if __name__ == "__main__":
    unittest.main()
