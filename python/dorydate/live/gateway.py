"""A network that runs while real hosts speak to it: rounds while something may happen, none until a host speaks."""

from __future__ import annotations

import asyncio
from collections.abc import Iterator
from typing import Protocol

from dorydate.live.engine import Ended
from dorydate.live.session import Session, Wish
from dorydate.live.upkeep import Upkeep
from dorydate.live.weather import Weather
from dorydate.script import Calm, HostDown

LOOKS = 0.25  # seconds after which a network is looked at again in which something waits
IN_WEATHER = 0.02


class Tends(Protocol):
    """What asks for events of its own: a server that stays, a terminal, a program."""

    def wishes(self) -> Iterator[Wish]:
        """What it asks for in this round."""


class Part(Protocol):
    """What crosses the wire at one end: the interface of a stranger, or the IMP of another network."""

    def before(self) -> Iterator[Wish]:
        """What is to happen first in a round."""

    def after(self) -> Iterator[Wish]:
        """What is to happen last."""

    def waits(self) -> bool:
        """Whether something has still to happen, without anything more from the wire."""


class Gateway:
    """The rounds of a session, and who has a part in them."""

    def __init__(self, session: Session, pace: float = 0.0) -> None:
        self.session, self.pace = session, pace
        self.parts: list[Part] = []
        self.tenders: list[Tends] = []
        self.upkeep = Upkeep(session)
        self.idle: float | None = None  # seconds after which a quiet network is looked at all the same
        self.weather: Weather | None = None
        self.awake = asyncio.Event()
        self.quiet = 0  # rounds since something was printed
        self.ended = ""

    def wake(self, anew: bool = True) -> None:
        """Something may happen: rounds begin anew, or the network is only looked at."""
        if anew:
            self.quiet = 0
        self.awake.set()

    def stop(self, why: str) -> None:
        self.ended = self.ended or why
        self.awake.set()

    def begin(self) -> None:
        """Strangers are down until they speak, and the IMPs learn the ways to one another."""
        rounds = len(self.session.network.imps) + 1
        self.session.happen([*(Wish(HostDown(it)) for it in self.session.network.strangers()), Wish(Calm(rounds))])

    def round(self) -> None:
        """One round. Quiet rounds that follow one another become longer, and none passes after enough of them."""
        wishes = [wish for it in self.parts for wish in it.before()]
        wishes += [wish for it in (*self.tenders, self.upkeep) for wish in it.wishes()]
        length, passes = 0, []
        if self.weather:
            length, passes = 1, [*self.weather.wishes()]
        elif wishes or self.quiet < self.enough():
            passes = [Wish(Calm(length := max(1, min(self.quiet, self.enough()))))]
        printed = self.session.happen([*wishes, *passes, *(wish for it in self.parts for wish in it.after())])
        self.quiet = 0 if printed else self.quiet + length

    def enough(self) -> int:
        """After how many quiet rounds nothing more happens by itself."""
        network = self.session.network
        return len(network.imps) + 4 if network.carrier == "subnet" else 2

    def waits(self) -> bool:
        """Whether something may still happen without a host that speaks."""
        known = self.session.known
        weather = self.weather is not None and not self.weather.is_over()
        return weather or bool(known.unanswered.flows) or any(it.waits() for it in self.parts)

    async def run(self) -> None:
        """Runs until the session ends."""
        try:
            while not self.ended:
                self.round()
                if self.quiet < self.enough():
                    await asyncio.sleep(self.pace)
                else:
                    await self.pause()
        except Ended as why:
            self.stop(str(why))

    async def pause(self) -> None:
        """Waits for a host that speaks, or for the time when something that waits is looked at again."""
        self.awake.clear()
        limit = (IN_WEATHER if self.weather else LOOKS) if self.waits() else self.idle
        try:
            await asyncio.wait_for(self.awake.wait(), limit)
        except asyncio.TimeoutError:
            self.quiet = 0 if self.weather else self.quiet
