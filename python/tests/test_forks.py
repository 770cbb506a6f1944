"""Copies of parts of the model, which then change in their own way."""

from __future__ import annotations

import copy
import random
import unittest
from typing import Any

from dorydate.model.chance.inputs import some_network, some_script
from dorydate.model.chance.worlds import some_script as some_script_of_world
from dorydate.model.forks import forked
from dorydate.model.names import Flow, HostName
from dorydate.model.runs import network_is_good, opened
from dorydate.model.script import BadLine, read_line


class Forks(unittest.TestCase):
    def test_what_changes_is_copied(self) -> None:
        flow = Flow(HostName(0, 1), HostName(0, 2), 5)
        whole: dict[str, Any] = {"flows": [flow], "slots": {flow: (7, {0: (True, "101")})}, "none": [None, {1}]}
        other = forked(whole)
        self.assertEqual(other, whole)
        self.assertIs(other["flows"][0], flow)
        other["slots"][flow][1][1] = (False, "1")
        other["none"][1].add(2)
        self.assertEqual(whole, {"flows": [flow], "slots": {flow: (7, {0: (True, "101")})}, "none": [None, {1}]})

    def test_a_part_that_is_there_twice_stays_one(self) -> None:
        part = [1]
        one, other = forked((part, part))
        self.assertIs(one, other)
        self.assertIsNot(one, part)

    def test_copies_of_networks_do_as_deep_copies_do(self) -> None:
        for seed in range(40):
            chance = random.Random(seed)
            network = some_network(chance)
            if not network_is_good(network):
                continue
            place = opened(network)
            for line in some_script(chance, network)[:40]:
                try:
                    event = read_line(line)
                except BadLine:
                    break
                if event is None:
                    continue
                fork, deep = forked(place), copy.deepcopy(place)
                before = [*place.printed]
                for it in (fork, deep):
                    it.happen("calm", 3)
                self.assertEqual(fork.printed, deep.printed)
                self.assertEqual(place.printed, before)
                place.happen(*event)

    def test_so_do_those_of_worlds(self) -> None:
        for seed in range(10):
            world = some_script_of_world(seed)[1].world
            fork, deep, before = forked(world), copy.deepcopy(world), [*world.printed]
            for it in (fork, deep):
                it.happen("calm", 3)
            self.assertEqual((fork.printed, fork.end_of_book()), (deep.printed, deep.end_of_book()))
            self.assertEqual(world.printed, before)


if __name__ == "__main__":
    unittest.main()
