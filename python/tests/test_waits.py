"""What waits, after each moment of each example: no host lacks what it has, and each named deed does something."""

from __future__ import annotations

import os
import unittest
from collections.abc import Iterator
from unittest import mock

from dorydate.explain import waits
from dorydate.explain.topology import of_model
from dorydate.model.connections import CLOSED, GONE, HEARD, READY, WANT
from dorydate.model.forks import forked
from dorydate.model.names import HostName, read_host, spell_host
from dorydate.model.runs import opened
from dorydate.model.script import read_event
from dorydate.model.strangers import Stranger
from dorydate.model.world import World
from dorydate.network import Network
from workshop.parts import ROOT, text_of

MOST_ROUNDS = 400  # of calm in an example that the model follows


def worlds() -> Iterator[tuple[str, World]]:
    """Each example whose hosts have programs, after each of its moments; the world goes on between them."""
    for name in sorted(it for it in os.listdir(f"{ROOT}/examples") if "." not in it):
        if os.path.exists(f"{ROOT}/examples/{name}.status"):
            continue
        head, _, script = text_of(f"{ROOT}/examples/{name}").partition("\n%\n")
        network = Network.read(head)
        lines = [it for it in script.split("\n") if it and not it.startswith("#")]
        rounds = sum(int(it.split(" ")[1]) for it in lines if it.startswith("calm "))
        if network.raw or len(network.imps) > 16 or rounds > MOST_ROUNDS:
            continue
        place = opened(of_model(network))
        assert isinstance(place, World)
        for number, line in enumerate(lines, 1):
            event = read_event(line, network.raw, bool(network.strangers()))
            if event[0] != "calm":
                place.happen(*event)
                yield f"{name}, {number}: {line}", place
                continue
            for round_of, _ in place.in_calm(event[1]):
                yield f"{name}, {number}: {line}, round {round_of}", place


def lacks(world: World, host: HostName, peer: HostName, socket: int, foreign: int) -> bool:
    """Whether a peer neither listens on a socket nor has an end there with the asking one."""
    program = world.hosts[peer]
    if program is None or isinstance(program, Stranger):
        return True
    pair = program.pairs.get(host)
    return foreign not in program.listening and not (pair and pair.end(foreign, socket))


def false_requests(world: World) -> list[str]:
    """The requests of which it is said, and is false, that the peer has to ask or to listen."""
    wrong = []
    said = [str(it) for it in waits.waiting(world, world.carrier)]
    for host, program in world.hosts.items():
        for peer, pair in program.pairs.items() if program else ():
            for end in pair.ends:
                start = f"the request from socket {end.own} of host {spell_host(host)}"
                words = f"{start}, for host {spell_host(peer)} to ask for the same connection"
                is_said = any(it.startswith(words) for it in said)
                if is_said and (end.own_stamp is None or not lacks(world, host, peer, end.own, end.foreign)):
                    wrong.append(words)
    return wrong


def false_contacts(world: World) -> list[str]:
    """The contacts of which a cause is said that their phases refute."""
    wrong = []
    for host, program in world.hosts.items():
        for peer, pair in program.pairs.items() if program else ():
            if pair.phase in (CLOSED, READY):
                continue
            words = f"host {spell_host(host)}'s contact with host {spell_host(peer)}, for "
            said = next(str(it) for it in waits.waiting(world, world.carrier) if str(it).startswith(words))
            there = world.hosts[peer]
            theirs = there.pairs.get(host) if there else None
            is_wrong = (
                pair.phase == WANT and "RST" not in said
                or pair.phase == GONE and "RST" not in said and "answer" not in said
                or pair.phase == HEARD and theirs is not None and theirs.owed and "none is on its way" in said
            )
            if is_wrong:
                wrong.append(said)
    return wrong


def idle_deeds(world: World) -> list[str]:
    """The waits whose first cure is an offer or a taking that would do nothing."""
    wrong = []
    for it in waits.waiting(world, world.carrier):
        words = it.cures[0].split(" ") if it.cures else ["none"]
        if words[0] in ("offer", "take"):
            ahead = forked(world)
            before = len(ahead.printed)
            ahead.happen(words[0], read_host(words[1]))
            if len(ahead.printed) == before or ahead.printed[-1].startswith("refused "):
                wrong.append(f"{it}: {' '.join(words)}")
    return wrong


class Waits(unittest.TestCase):
    def test_no_wait_is_false_at_any_moment_of_the_examples(self) -> None:
        moments = 0
        for where, world in worlds():
            moments += 1
            self.assertEqual((false_requests(world), false_contacts(world), idle_deeds(world)), ([], [], []), where)
        self.assertGreater(moments, 2000)

    def test_a_peer_that_is_always_said_to_lack_what_is_asked_for_is_found(self) -> None:
        rules = [it for it in waits.RULES if it[0] != "said" or it[1] in ("close", "contact", "initial", "request")]
        with mock.patch.object(waits, "RULES", rules):
            self.assertTrue(any(false_requests(world) for _, world in worlds()))
        with mock.patch.object(waits, "RULES", rules):
            self.assertTrue(any(false_contacts(world) for _, world in worlds()))


if __name__ == "__main__":
    unittest.main()
