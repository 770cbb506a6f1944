"""Random worlds with a program that is tried: its users, its peers and its network do anything that they may.

A peer is a host that keeps the contract and does any act that it allows next, or a stranger. What is looked at is the
own log of the program only: it has to keep the contract. So the worlds find what no dialogue asks for.
"""

from __future__ import annotations

import random
from collections.abc import Callable
from dataclasses import dataclass

from dorydate.contract.acts import Act, Answered, Comes, Starts, Stops
from dorydate.contract.ends import End, Pair
from dorydate.contract.hears import Hears, Speaks, Wrong
from dorydate.contract.worlds.chance import some_bits
from dorydate.contract.worlds.play import HOSTS, Play
from dorydate.coupling import Mute
from dorydate.model.bits import spell_bits, spelled_text
from dorydate.model.names import HostName, Refused, spell_host

MINE = HOSTS[1]
STEPS = 300


@dataclass(frozen=True)
class Found:
    """What is wrong in a world, and the own log of the program up to there, for `dorydate keeps`."""

    seed: int
    why: str
    log: tuple[str, ...]

    def __str__(self) -> str:
        return f"in world {self.seed}, line {len(self.log)} of its own log: {self.why}"


class Tried(Play):
    """A world with a program that hears lines."""

    def __init__(self, seed: int, start: Callable[[], Speaks]) -> None:
        rng = random.Random(seed)
        strange = HOSTS[2:3] if rng.random() < 0.2 else []
        super().__init__(rng, {HOSTS[0]: ()}, [MINE, *strange])
        self.start = start
        self.program = Hears(start(), spell_host(MINE))
        self.listening: set[int] = set()

    def do(self, host: HostName, act: Act) -> bool:
        if host != MINE:
            return super().do(host, act)
        try:
            self.world.do(host, act)
        except Refused:
            return False
        if isinstance(act, (Stops, Starts)):
            self.listening = set()
            self.program.turns(self.start() if isinstance(act, Starts) else None)
        elif isinstance(act, Comes):
            text = self.world.net.log[-1].text  # type: ignore[union-attr]
            self.hears(f"in {act.peer} {spell_host(MINE)} {act.link} {spell_bits(text)}")
        elif isinstance(act, Answered):
            self.hears(f"answer {act.kind} {spell_host(MINE)} {act.peer} {act.link}")
        return True

    def hears(self, line: str) -> None:
        """The program hears a line, and what it says goes out."""
        self.program.hears(line)
        for it in self.program.sent:
            self.world.do(MINE, it)

    def comes(self, host: HostName, source: HostName, destination: HostName, link: int) -> Comes:
        return Comes(spell_host(source), link, "") if host == MINE else super().comes(host, source, destination, link)

    def of_host(self, host: HostName) -> Act | None:
        if host != MINE:
            return super().of_host(host)
        request = self.request()
        if request:
            word, *rest = request.split(" ")
            self.hears(" ".join([word, spell_host(MINE), *rest]))
        return None

    # ---- what a user asks for, by what the own log says of the pair

    def request(self) -> str | None:
        rng, habits = self.rng, self.habits[MINE]
        peer = spell_host(rng.choice([it for it in self.names if it != MINE]))
        own = self.program.hearing.own
        pair = own.pair(peer)
        ends = [it for pair in own.pairs.values() for it in pair.ends.values()]
        if pair.phase == "away" and rng.random() < 0.5 or rng.random() < max(habits.contacts, 0.005):
            return f"contact {peer}"
        known = [it for it in ends if it.opened is not None]
        if known and rng.random() < 0.75:
            return self.at_end(rng.choice(known))
        return self.asks(peer, pair, {it.own for it in ends})

    def at_end(self, end: End) -> str | None:
        rng = self.rng
        if rng.random() < 0.1:
            return f"close {end.own}"
        if end.gone or end.taken or end.closing:
            return None
        if end.receives():
            if rng.random() < 0.1:
                return f"askback {end.own} 64 64"
            is_little = end.granted.messages < 20
            return f"grant {end.own} {rng.choice((1, 2))} {rng.choice((8, 36, 100))}" if is_little else None
        if end.handed.count > 100 or not end.size:
            return None
        bits = some_bits(rng, end.size * rng.choice((1, 2, 3)))
        return f"send {end.own} {len(bits)} {spelled_text(bits)}"

    def asks(self, peer: str, pair: Pair, used: set[int]) -> str | None:
        """It listens or asks, on a socket that isn't in use."""
        rng, habits = self.rng, self.habits[MINE]
        own, foreign = rng.choice(habits.receivers), rng.choice(habits.senders)
        if rng.random() < 0.5:
            own, foreign = foreign, own
        if own in used | self.listening or pair.phase != "through":
            return None
        if rng.random() < 0.6:
            self.listening.add(own)
            return f"listen {own} 8"
        return f"opensend {peer} {own} {foreign} 8" if own % 2 else f"openrecv {peer} {own} {foreign}"


def found_in(seed: int, start: Callable[[], Speaks], steps: int = STEPS) -> Found | None:
    """What is wrong with a program in a random world, None where nothing is."""
    world: Tried | None = None
    try:
        world = Tried(seed, start)
        world.run(steps)
        why = world.program.at_its_end()
        return Found(seed, why, tuple(world.program.log)) if why else None
    except (Wrong, Mute) as why_not:
        return Found(seed, str(why_not), tuple(world.program.log) if world else ())
