"""Worlds with strangers, and the same without them."""

from __future__ import annotations

import unittest

from dorydate.model.chance.strangers import mixed_script
from dorydate.model.commands import RST, RTS, STR, alone, control_message, header, of_sockets
from dorydate.model.crossings import Turned
from dorydate.model.firsts import determined
from dorydate.model.host import Host
from dorydate.model.names import Flow, HostName
from dorydate.model.runs import opened_carrier
from dorydate.model.script import Event
from dorydate.model.strangers import Asked, MixedWorld, Unsaid, differs, masked
from dorydate.model.topology import Topology

FIRST, SECOND, THIRD = HostName(0, 1), HostName(0, 2), HostName(0, 3)
SEEDS = 30

# the stranger resets its pair with the second host, and takes what it says
READY: list[Event] = [("out", Flow(THIRD, SECOND, 0), control_message([alone(RST)])), ("calm", 3)]


def said(*commands: bytes) -> list[Event]:
    """The stranger says these commands to the second host, and both take what comes."""
    return [("out", Flow(THIRD, SECOND, 0), control_message(commands)), ("calm", 3)]


def world_of(events: list[Event]) -> MixedWorld:
    """The world of three hosts, the third a stranger, to which these events lead."""
    world = MixedWorld(opened_carrier(Topology("plain", False, [(1, 1), (2, 1), (3, 1)], [])), [THIRD])
    for event in events:
        world.happen(*event)
    return world


class Strangers(unittest.TestCase):
    def test_a_listening_socket_is_anybodys(self) -> None:
        asked = said(of_sockets(RTS, 16, 33, 2))
        first: list[Event] = [("contact", FIRST, SECOND), ("calm", 3), ("listen", SECOND, 33, 8), *READY, *asked]
        world = world_of([*first, ("openrecv", FIRST, SECOND, 18, 33), ("calm", 4)])
        self.assertEqual([(it.host, it.peer) for it in world.book.lives], [(SECOND, THIRD)])
        self.assertEqual(world.lives_among(), [])
        self.assertIn(Asked(SECOND, "close", (33,), False), world.moments)
        self.assertIsNone(differs(world, masked(world)))

    def test_a_crossing_of_a_stranger_is_its_stop_or_start(self) -> None:
        self.assertEqual({type(it) for it in masked(world_of(READY)).carrier.log}, {Turned})

    def test_a_byte_of_another_size_is_not_counted(self) -> None:
        data: list[Event] = [("out", Flow(THIRD, SECOND, 2), header(size, 1) + "1" * size) for size in (7, 8)]
        granted: list[Event] = [("listen", SECOND, 16, 8), *said(of_sockets(STR, 33, 16, 8)), ("grant", SECOND, 16, 2, 16)]
        world = world_of([*READY, *granted, data[0], ("calm", 2), data[1], ("calm", 2)])
        self.assertEqual([(it.bits, it.messages) for it in world.book.lives], [("1" * 8, 1)])
        self.assertFalse(determined(world.carrier.log, world.book.lives))

    def test_a_host_with_a_program_says_what_its_program_says(self) -> None:
        world = world_of([("out", Flow(FIRST, SECOND, 0), "1"), ("offer", THIRD), ("contact", THIRD, FIRST)])
        self.assertEqual(world.printed, ["refused HasProgram", "refused NoProgram", "refused NoProgram"])

    def test_moments_that_no_program_has_are_noticed(self) -> None:
        world = world_of([("contact", FIRST, SECOND), ("calm", 3)])
        world.moments = [it for it in world.moments if not isinstance(it, Asked)]
        self.assertRaises(Unsaid, masked, world)

    def test_random_worlds(self) -> None:
        for seed in range(SEEDS):
            world = mixed_script(seed, Host)[2]
            self.assertIsNone(world.judged())
            self.assertIsNone(differs(world, masked(world)))


if __name__ == "__main__":
    unittest.main()
