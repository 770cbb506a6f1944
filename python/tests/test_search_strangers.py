"""Searches in networks with strangers: what they say and take is tried, and what is found is the plain replay's."""

from __future__ import annotations

import unittest

from dorydate.explore import fast
from dorydate.explore.breadth import Asked, Lists, Walk
from dorydate.explore.campaign import BadTable, Campaign
from dorydate.explore.confirm import NotConfirmed, confirm, plain
from dorydate.explore.kinds import chosen, pools
from dorydate.explore.many import CannotRun, Many
from dorydate.explore.pattern import read
from dorydate.explore.search import Job
from dorydate.network import Host, Network
from dorydate.script import Calm, Event, Out, read_event
from dorydate.where import found

TWO = Network.joined("A", "B", carrier="plain", foreign=["B"])
THREE = Network.joined("A", "B", "C", carrier="plain", foreign=["C"])
READY = read("ready 0/1 0/2")
RST = "out 0/2 0/1 0 48 00080001000C"


def events_of(network: Network, *kinds: str) -> list[Event]:
    return [event for kind in chosen(pools(network), kinds).values() for event in kind]


class Kinds(unittest.TestCase):
    def test_strangers_say_and_programs_are_asked(self) -> None:
        found = pools(THREE)
        said = [it for it in found["out"] if isinstance(it, Out)]
        self.assertEqual({it.flow.source for it in said}, {Host(0, 3)})
        self.assertEqual({it.flow.destination for it in said}, {Host(0, 1), Host(0, 2)})
        self.assertEqual([str(it) for it in found["offer"]], ["offer 0/1", "offer 0/2"])
        self.assertEqual(len(found["take"]), 3)
        self.assertIn("contact 0/1 0/3", map(str, found["contact"]))
        self.assertNotIn("contact 0/3 0/1", map(str, found["contact"]))
        self.assertNotIn("out", pools(Network.joined("A-B")))

    def test_copies_have_the_same_strangers(self) -> None:
        topology = Many(THREE, found(), 3).topology()
        self.assertEqual([it.imp for it in topology.strangers()], [3, 6, 9])


class Found(unittest.TestCase):
    def test_random_schedules_find_what_the_replay_prints(self) -> None:
        search = Job(TWO.toml(), READY.text, ("contact", "out", "take"), 1, True).search(found())
        best = search.run(4_000, 60.0, 1)
        assert best is not None
        self.assertIn("ready 0/1 0/2", plain(TWO, READY, best, found()).lines)
        self.assertTrue(any(isinstance(it, Out) for it in best))

    def test_without_what_a_stranger_says_it_never_comes(self) -> None:
        """Where strangers were taken for programs, contact and a calm printed `ready`."""
        walk = Walk(TWO, READY, found(), [*events_of(TWO, "contact", "take"), Calm(1)])
        self.assertIsNone(walk.run(3, 60.0))
        self.assertEqual(len(walk.counts), 3)

    def test_all_states_find_the_shortest(self) -> None:
        script = Walk(TWO, READY, found(), events_of(TWO, "contact", "out", "take")).run(3, 60.0)
        self.assertEqual(list(map(str, script or ())), [RST, "take 0/1"])

    def test_lists_find_it_too(self) -> None:
        lists = Lists(TWO, READY, found(), events_of(TWO, "out", "take"))
        self.assertEqual(list(map(str, lists.run(2, 60.0) or ())), [RST, "take 0/1"])

    def test_what_the_replay_does_not_print_is_no_finding(self) -> None:
        confirm(TWO, READY, [read_event(RST), Calm(1)], found())
        with self.assertRaisesRegex(NotConfirmed, "this is no finding: contact 0/1 0/2; calm 1"):
            confirm(TWO, READY, [read_event("contact 0/1 0/2"), Calm(1)], found())

    def test_what_cannot_be_done_is_refused(self) -> None:
        with self.assertRaisesRegex(CannotRun, "the plain program knows no strangers"):
            fast.input_of(Asked(TWO, READY, (), (Calm(1),), 1, 1.0))

    def test_campaigns_name_strangers(self) -> None:
        table = "network,carrier,foreign,pattern,kinds,runs\nA B,plain,B,ready 0/1 0/2,contact out take,400\n"
        task = Campaign.read(table, "out.csv").tasks[0]
        self.assertEqual(Network.read(task.job.network), TWO)
        with self.assertRaisesRegex(BadTable, "row 1: the network has no IMP C"):
            Campaign.read(table.replace(",B,ready", ",C,ready"), "out.csv")


if __name__ == "__main__":
    unittest.main()
