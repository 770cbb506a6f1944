"""What an ending means: it is so in random worlds, and isn't where a host's program lacks a rule."""

from __future__ import annotations

import unittest
from collections.abc import Iterable
from functools import partial

from dorydate.model.bits import Bits
from dorydate.model.chance.worlds import some_script
from dorydate.model.commands import ALL, CLS, of_sockets
from dorydate.model.connections import End, Pair
from dorydate.model.endings import EndingWorld
from dorydate.model.host import Host

WORLDS = 40


class DropsBits(Host):
    """A close drops the bits that are queued."""

    def settle(self, pair: Pair) -> None:
        for end in pair.ends:
            if end.close_asked and end.link not in pair.busy:
                end.waiting = ""
        super().settle(pair)


class ClosesUnanswered(Host):
    """A CLS is queued while a message has no answer."""

    def settle(self, pair: Pair) -> None:
        for end in pair.ends:
            if (end.close_asked or end.close_taken) and not end.close_queued and not end.waiting:
                end.close_queued = True
                pair.queue.append(of_sockets(CLS, end.own, end.foreign))
        super().settle(pair)


class DropsTheLast(Host):
    """The last message that was granted is dropped."""

    def take_data(self, pair: Pair, link: int, text: Bits) -> None:
        if not any(end.is_open() and end.messages == 1 for end in pair.linked(True, link)):
            super().take_data(pair, link, text)


class LosesGrants(Host):
    """A grant of one message is lost."""

    def take_open(self, pair: Pair, end: End, code: int, *numbers: int) -> int | None:
        return super().take_open(pair, end, code, *((0, numbers[1]) if code == ALL and numbers[0] == 1 else numbers))


class KeepsOpen(Host):
    """An end that the partner closes doesn't close."""

    def settle(self, pair: Pair) -> None:
        ends = [end for end in pair.ends if end.close_taken and not end.close_asked]
        for end in ends:
            end.close_taken = False
        super().settle(pair)
        for end in ends:
            end.close_taken = True


def broken(host: type[Host], seeds: Iterable[int] = range(WORLDS)) -> set[str]:
    """What is broken first in random worlds of such hosts."""
    worlds = [some_script(seed, world=partial(EndingWorld, host_program=host))[1].world for seed in seeds]
    return {part for world in worlds if isinstance(world, EndingWorld) and (part := world.judged())}


class Endings(unittest.TestCase):
    def test_worlds(self) -> None:
        self.assertEqual(broken(Host), set())

    def test_a_close_that_drops_bits(self) -> None:
        self.assertIn("the sender's CLS follows all that was handed over", broken(DropsBits))

    def test_a_close_before_the_answer(self) -> None:
        self.assertEqual(broken(ClosesUnanswered, [261]), {"all that was sent has come in"})

    def test_a_message_that_is_dropped(self) -> None:
        self.assertIn("data for an end that its user hasn't closed arrive", broken(DropsTheLast))

    def test_a_grant_that_is_lost(self) -> None:
        self.assertIn("open ends agree", broken(LosesGrants))

    def test_an_end_that_stays_open(self) -> None:
        self.assertIn("nobody has closed them there, but for a sender that drains", broken(KeepsOpen))


if __name__ == "__main__":
    unittest.main()
