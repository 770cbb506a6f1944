"""The table of events and refusals, and what has a part for each of them."""

from __future__ import annotations

import re
import unittest
from dataclasses import fields
from pathlib import Path

import dorydate
from dorydate import script
from dorydate.explain.inside import LOOKS
from dorydate.explore.kinds import LEFT_OUT, pools
from dorydate.model.chance.subnets import WEIGHTS, Chance
from dorydate.model.names import Refused
from dorydate.model.script import BadLine, read_event
from dorydate.model.trace import spelled
from dorydate.network import Network
from dorydate.sentences import IN_A_HOST, IN_A_SUBNET
from dorydate.sentences.events import EVENTS, OF_CARRIERS, OF_RAW, OF_SUBNETS, OF_WORLDS, REFUSALS, words_of

WORDS = {
    "S": "0/1", "D": "1/2", "N": "5", "BITS": "4", "OCTETS": "A0", "H": "0/1", "P": "1/2", "L": "0", "+|-": "-",
    "I": "1", "J": "2", "COUNT": "4", "TEXT": "HI",
}  # fmt: skip


def line_of(word: str) -> str:
    """A line of an event, by its operands."""
    return " ".join([word, *(WORDS.get(it, "3") for it in EVENTS[word].operands)])


class Events(unittest.TestCase):
    def test_each_is_read_by_its_operands_in_both_readings(self) -> None:
        for word in EVENTS:
            line = line_of(word)
            self.assertEqual(str(script.read_event(line)), line)
            self.assertEqual(read_event(line, raw=word in OF_RAW)[0], word)

    def test_none_is_read_without_one_of_them_nor_with_one_more(self) -> None:
        for word in (it for it in EVENTS if it != "type"):
            for line in (line_of(word).rpartition(" ")[0], f"{line_of(word)} 3"):
                self.assertRaises(script.BadLine, script.read_event, line)
                self.assertRaises(BadLine, read_event, line, word in OF_RAW)

    def test_a_class_has_as_many_words_as_operands(self) -> None:
        for word, kind in script.EVENTS.items():
            self.assertEqual(sum(it.metadata["form"].words for it in fields(kind)), len(EVENTS[word].operands), word)
        self.assertEqual({*script.EVENTS}, {*EVENTS})

    def test_groups(self) -> None:
        self.assertEqual(words_of("carrier"), ("giveup", "hostdown", "hostup"))
        self.assertEqual((len(OF_CARRIERS), len(OF_SUBNETS)), (16, 13))
        self.assertEqual({*OF_RAW} - {*OF_WORLDS}, {"out"})
        self.assertEqual(EVENTS["abandon"].at, "D")
        self.assertEqual(EVENTS["ask"].at, "S")

    def test_what_happens_in_a_carrier_is_explained_tried_and_explored(self) -> None:
        self.assertEqual({*OF_CARRIERS} - {*LOOKS}, {"hostup"})  # a host that starts does nothing else
        self.assertLessEqual({*OF_RAW}, {*WEIGHTS})
        chance = Chance(0, is_largest=False)
        for word in OF_RAW:
            self.assertEqual(str(script.read_event(spelled((word, *chance.parts(word))))).split(" ")[0], word)
        self.assertEqual({*pools(Network.joined("A-B", raw=True))}, {*OF_RAW} - {*LEFT_OUT, "calm"})


class Refusals(unittest.TestCase):
    def test_each_has_a_sentence(self) -> None:
        self.assertEqual({*IN_A_HOST, *IN_A_SUBNET}, {*REFUSALS})

    def test_no_other_is_given(self) -> None:
        self.assertRaises(ValueError, Refused, "NotOutstnding")

    def test_the_model_gives_no_other(self) -> None:
        sources = Path(dorydate.__file__).parent.glob("model/**/*.py")
        given = {it for path in sources for it in re.findall(r'Refused\("(\w+)"\)', path.read_text(encoding="utf-8"))}
        self.assertEqual(given, {*REFUSALS})


if __name__ == "__main__":
    unittest.main()
