"""Rows of worlds and replays: what the models answer, and how random ones are made."""

from __future__ import annotations

import random
import unittest

from dorydate.model.verdict import Judge
from workshop.checks.audit import GRANT, log_of_lives
from workshop.checks.readings import Unread
from workshop.checks.world_chance import calls_of, changed, rows_of
from workshop.checks.world_rows import fault_of, open_program, open_world, said_of, text_of, with_changes
from workshop.rows import blocks_of

LOG = ["out 0/1 0/2 5 8 A5", "in 0/1 0/2 5 8 A5", "answer rfnm 0/1 0/2 5", "end"]
LIFE = "life 0/1 16 0/2 33 0 1 receive 0 0 0 0 0 0 open -"
NOP = "48 000800010000"
INPUT = 'program carrier = "plain" ; raw = true ; [[imp]] ; id = 1 ; hosts = 1 ; % ; hostdown 0/1'


class Worlds(unittest.TestCase):
    """What is answered of worlds."""

    def test_a_stranger_that_is_nowhere(self) -> None:
        self.assertEqual(open_world("world 1:1 2:1 foreign 0/2 0/3 0/4")[1], ["refused NoSuch: 0/3"])

    def test_strangers_in_the_order_of_the_network(self) -> None:
        reading, first = open_world("world 1:2 2:1 foreign 0/2 1/1 0/2")
        self.assertEqual((first, reading.answers("strangers", [])), ([], ["1/1 0/2"]))
        self.assertEqual(open_world("world 1:1")[0].answers("strangers", []), ["nobody"])

    def test_rest(self) -> None:
        for network in ("world 1:1 2:1", "world 1:1 2:1 / 1-2"):
            with self.subTest(network):
                reading, _ = open_world(network)
                reading.answers("calm 20", [])
                self.assertEqual(reading.answers("rests", ["true"]), ["true"])
                reading.answers("contact 0/1 0/2", [])
                self.assertEqual(reading.answers("rests", ["true"]), ["false"])
                self.assertEqual(reading.answers("silent", []), ["false"])

    def test_rest_while_something_waits(self) -> None:
        reading, _ = open_world("world 1:3 foreign 1/1 2/1")
        for event, rests in (
            ("contact 0/1 1/1", "false"),
            ("offer 0/1", "true"),
            ("out 1/1 2/1 0 48 00080001000C", "true"),
            ("out 1/1 0/1 0 48 00080001000C", "false"),
            ("take 0/1", "true"),  # the link of its RRP is busy
            ("take 1/1", "true"),  # the RFNM that waited for it
            ("take 1/1", "false"),  # the contact, so that its RFNM waits for 0/1
            ("take 0/1", "false"),  # it has the RRP to say
            ("offer 0/1", "true"),
        ):
            with self.subTest(event):
                reading.answers(event, [])
                self.assertEqual(reading.answers("rests", [rests]), [rests])

    def test_a_turn_of_a_stranger(self) -> None:
        reading, _ = open_world("world 1:1 2:1 foreign 0/2")
        for event in ("take 0/2", "offer 0/2", "contact 0/2 0/1", "out 0/2 0/1 5 0 -"):
            self.assertEqual(reading.answers(f"turn {event}", []), ["refused NoSuch"], event)
        self.assertEqual(reading.answers("turn out 0/1 0/2 5 0 -", []), ["refused has program"])
        self.assertEqual(reading.answers("turn hostdown 0/2", []), ["ok", "down 0/2"])

    def test_refusals_by_their_texts(self) -> None:
        texts = {"IsDown": "IsDown", "NoProgram": "no program", "NoSuchSocket": "no such socket"}
        self.assertEqual({name: text_of(name) for name in texts}, texts)


class Audits(unittest.TestCase):
    """What an audit says of a changed log."""

    def test_changes(self) -> None:
        lines = ["a", "b", "c"]
        for changes, wanted in ((["2 x"], "axc"), (["+2 x"], "axbc"), (["2"], "ac"), (["1", "1", "1 y"], "y")):
            self.assertEqual("".join(with_changes(lines, changes)), wanted)

    def test_what_is_found(self) -> None:
        self.assertEqual(said_of(LOG), "kept")
        for change, wanted in (
            ("+3 in 0/1 0/2 5 8 A5", "broken messages, which is part 1, crossing 2"),
            (f"+4 {LIFE}", "malformed, life 0"),
            ("+4 handed 0 -", "malformed, list 0"),
            ("4", "bad line 4"),
        ):
            self.assertEqual(said_of(with_changes(LOG, [change])), wanted, change)

    def test_a_safe_book_may_have_no_alls(self) -> None:
        text = log_of_lives(1).decode().replace(GRANT, NOP)
        self.assertEqual(Judge().says(text.encode()), "broken grants line 14")
        self.assertEqual(said_of(text.splitlines()), "kept")


class Replays(unittest.TestCase):
    """What is answered of an input."""

    def test_a_writer_that_fails(self) -> None:
        reading, _ = open_program(INPUT)
        self.assertEqual(reading.answers("run", []), ["ok, 13 octets", "down 0/1", "end"])
        self.assertEqual(reading.answers("failing 11", []), ["refused CannotWrite, 11 octets", "down 0/1", "en"])
        self.assertEqual(reading.answers("failing 13", []), ["ok, 13 octets", "down 0/1", "end"])
        with self.assertRaises(Unread):
            reading.answers("trace", [])

    def test_faults(self) -> None:
        said = {"": "", "arpasim: bad script line 12": "BadLine(12)", "arpasim: bad arguments": "BadOptions"}
        self.assertEqual({words: fault_of(words) for words in said}, said)


class Chance(unittest.TestCase):
    """Random rows."""

    def test_they_are_the_same_each_time(self) -> None:
        for seed in (0, 1):
            rows, _ = rows_of(seed)
            self.assertEqual(rows, rows_of(seed)[0])
            (block,) = blocks_of("\n".join(rows))
            self.assertEqual([row.call for row in block.rows() if not row.answers], [])

    def test_each_event_is_in_one_call(self) -> None:
        lines = ["calm 2", "contact 0/1 0/2", "type 0/1 a ; b", *(f"take 0/{it}" for it in range(1, 60))]
        asked = {"silent", "strangers", "rests"}
        calls = [it for it in calls_of(random.Random(1), lines, True) if it not in asked]
        runs = (it[4:].split(" ; ") if it.startswith("run ") else [it.removeprefix("turn ")] for it in calls)
        self.assertEqual([line for run in runs for line in run], lines)
        self.assertIn("type 0/1 a ; b", calls)

    def test_changes_fit_their_log(self) -> None:
        chance = random.Random(2)
        for _ in range(100):
            now = with_changes(LOG, [changed(chance, LOG)])
            self.assertIn(len(now) - len(LOG), (-1, 0, 1))
            self.assertEqual(now[-1], "end")


if __name__ == "__main__":
    unittest.main()
