"""What ./explain says, over events whose output is written by hand: no program is run."""

from __future__ import annotations

import os
import unittest
from unittest import mock

from dorydate.explain.charts import chart, short_chart
from dorydate.explain.faults import diagnose, wrong_with_line
from dorydate.explain.inside import Inside
from dorydate.given import Input, shown
from dorydate.explain.past import Past
from dorydate.explain.runs import CannotTell, Happened, kept_program, ran
from dorydate.program import MOST_OCTETS, Program
from dorydate.where import found
from dorydate.explain.telling import said_beside, telling
from dorydate.explain.topology import names_of, network_by
from dorydate.model.script import read_event
from dorydate.model.topology import Topology, spelled_input
from dorydate.sentences.texts import raw_text_in_words, text_in_words
from workshop.checks.explain_faults import BAD_LINES, BAD_LINES_OF_WORLDS, BAD_TOPOLOGIES, GOOD, TOO_LONG
from workshop.checks.explain_rows import TEXTS

PAIR = Topology("subnet", True, [(1, 1), (2, 1)], [(1, 2)])
TWO = b"raw = true\n[[imp]]\nid = 1 # UCLA\nhosts = 1\n[[imp]]\nid = 2\nhosts = 1\n[[line]]\na = 1\nb = 2\n%\n"
SCRIPT = b"# routes\ncalm 1\nout 0/1 0/2 5 8 41\nout 0/1 0/2 5 0 -\ncalm 1\n"
EVENTS = [
    Happened(13, ["calm", "1"], []),
    Happened(14, ["out", "0/1", "0/2", "5", "8", "41"], ["out 0/1 0/2 5 8"]),
    Happened(15, ["out", "0/1", "0/2", "5", "0", "-"], ["refused Blocked"]),
    Happened(16, ["calm", "1"], ["in 0/1 0/2 5 8"]),
]


class Inputs(unittest.TestCase):
    def test_lines(self) -> None:
        given = Input(TWO + SCRIPT)
        self.assertEqual((given.marker, [number for number, _ in given.script]), (10, [12, 13, 14, 15, 16]))
        self.assertEqual(Input(b"no marker").script, [])

    def test_a_long_line_is_shown_without_its_middle(self) -> None:
        self.assertEqual(shown(b"x" * 72), "x" * 72)
        self.assertEqual(shown(b"x" * 73), f"{'x' * 60} .. {'x' * 8}")
        self.assertEqual(shown(b"a\tb\xff"), "a\\tb\\xff")


class Faults(unittest.TestCase):
    def test_each_bad_line_has_its_cause(self) -> None:
        for line, words in BAD_LINES:
            self.assertIn(words, diagnose(Input(GOOD + b"%\ntake 0/1\n" + line + b"\n"), "arpasim: bad script line 2\n", True))
        for line, words in BAD_LINES_OF_WORLDS:
            self.assertIn(words, wrong_with_line(line, raw=False) or "")
        for line in (b"out 0/1 0/2 5 12 FFF0", b"calm 4294967295", b"deliver 0 - 0", b"drop 0 + 3"):
            self.assertIsNone(wrong_with_line(line))

    def test_each_bad_topology_has_its_cause(self) -> None:
        for octets, words in BAD_TOPOLOGIES:
            self.assertIn(words, diagnose(Input(octets), "arpasim: bad topology\n", True))
        self.assertIn(TOO_LONG, diagnose(Input(b"#" * (MOST_OCTETS + 1)), "arpasim: input too long\n", True))


class Told(unittest.TestCase):
    def test_a_replay_line_by_line(self) -> None:
        lines = [*telling(Input(TWO + SCRIPT), EVENTS)]
        self.assertIn("15  out 0/1 0/2 5 0 -", lines)
        whole = "\n".join(lines)
        self.assertIn("Host 0/1 hands its IMP a message for host 0/2 on link 5: 8 bits. It says: “A”.", whole)
        self.assertIn("Message 0 is outstanding. It is still alive: message 0 of flow 0/1 0/2 5, in channel 0 of line 0 at IMP 1", whole)
        self.assertEqual(lines[-1], "At the end the program prints: end")

    def test_where_the_model_prints_otherwise_nothing_is_said_of_the_inside(self) -> None:
        wrong = [EVENTS[0], Happened(14, EVENTS[1].words, ["out 0/1 0/2 5 9"]), *EVENTS[2:]]
        self.assertEqual([it.sentences for it in said_beside(Input(TWO + SCRIPT), wrong)[1:]], ["", "", ""])

    def test_charts(self) -> None:
        given = Input(TWO + SCRIPT)
        network = network_by(given)
        said, names = said_beside(given, EVENTS), names_of(network) if network else {}
        drawn = chart(EVENTS, said, True, names)
        self.assertIn("participant h0_1 as Host 0/1 at UCLA", drawn)
        self.assertIn("h0_1->>network: 8 bits for 0/2 on link 5", drawn)
        self.assertIn("Note over h0_1: refused Blocked (line 15)", drawn)
        self.assertIn("h0_1->>h0_2: “A”, on link 5", short_chart(EVENTS, said, True, names))

    def test_a_text_is_told_apart_from_octets(self) -> None:
        self.assertEqual(raw_text_in_words(b"FF", 16), "“FF”")
        self.assertEqual(raw_text_in_words(b"\xff", 8), "FF")

    def test_texts(self) -> None:
        for link, octets, words in TEXTS:
            self.assertEqual(text_in_words(link, bytes.fromhex(octets), 4 * len(octets)), words)


class Copies(unittest.TestCase):
    def test_why_a_copy_is_dropped(self) -> None:
        sent = ["calm 2", "out 0/1 0/2 9 8 FF"]
        lost = ["drop 0 + 0", "enddown 1 0", "endup 1 0", "enddown 2 0", "endup 2 0", "calm 1"]
        for script, words in [
            ([*sent, "ask 0/1 0/2 9", "deliver 0 + 1", "deliver 0 + 0"], "Its number was noted as never come when it was asked for"),
            ([*sent, "deliver 0 + 0", "take 0/2", *lost[1:5], "route 2", "deliver 0 - 0", "deliver 0 + 0"], "came to its end here before"),
        ]:
            goes = Inside(PAIR)
            said = [goes.happen(read_event(it)) for it in script]
            self.assertIn(words, " ".join(said[-1].sentences))


class Programs(unittest.TestCase):
    def test_a_calm_without_a_place_for_a_message_is_stopped_and_named(self) -> None:
        network = Topology("subnet", False, [(1, 1), (2, 1)], [(1, 2)], [(1, [0]), (2, [0])])
        messages = [f"out 0/2 0/1 {link} 0 -" for link in range(17)]
        with mock.patch("dorydate.explain.runs.SECONDS", 1.0):
            with self.assertRaisesRegex(CannotTell, "1.0 seconds; all rounds of `calm 4294967295` may pass while "):
                ran(found(), spelled_input(network, ["calm 3", *messages, "calm 4294967295"]))
            self.assertEqual(ran(found(), spelled_input(network, ["calm 3", *messages[:16], "calm 4294967295"])).status, 0)

    def test_the_variable_names_another_program(self) -> None:
        found.cache_clear()
        with mock.patch.dict(os.environ, {"DORYDATE_PROGRAM": "/a/program"}):
            named = kept_program()
        found.cache_clear()
        self.assertEqual(named, Program("/a/program"))


class Pasts(unittest.TestCase):
    def test_causes_over_mailboxes(self) -> None:
        past = Past(["0/1", "0/2", "1/2"])
        self.assertEqual(past.refusal("NoSuch", ["take", "0/3"]), "The network has no host 0/3: IMP 3 has none.")
        self.assertEqual(past.refusal("NoSuch", ["take", "3/2"]), "The network has no host 3/2: IMP 2 has only 0/2, 1/2.")
        past.see(3, ["out"], "out 0/1 0/2 5 8")
        self.assertIn("That of line 3 waits for host 0/2", past.refusal("Blocked", ["out", "0/1", "0/2", "5", "0", "-"]))
        past.see(4, ["take", "0/2"], "in 0/1 0/2 5 8")
        self.assertIn("was taken in line 4, but host 0/1 has not taken the answer", past.refusal("Blocked", ["out", "0/1", "0/2", "5", "0", "-"]))
        past.see(5, ["take", "0/1"], "answer rfnm 0/1 0/2 5")
        self.assertIn("was answered in line 5", past.refusal("NotOutstanding", ["giveup", "0/1", "0/2", "5"]))
        past.see(6, ["hostdown", "0/1"], "down 0/1")
        self.assertEqual(past.refusal("IsDown", ["hostdown", "0/1"]), "Host 0/1 is down already, since line 6.")


if __name__ == "__main__":
    unittest.main()
