"""The interface of a stranger and its IMP: when the host is up, what it has said, and what waits for it."""

from __future__ import annotations

import time
from collections import Counter, deque
from collections.abc import Iterator, Sequence
from typing import Protocol

from dorydate.export.leaders import crossing_of
from dorydate.live import messages
from dorydate.live.frames import WireFault
from dorydate.live.session import Session, Wish
from dorydate.network import Host
from dorydate.printed import refusal
from dorydate.script import GiveUp, HostDown, HostUp, Out, Take

MOST_QUEUED = 64  # messages that its IMP hasn't taken yet; more are dropped, or wait where the wire holds them
TAKINGS = 4  # that are tried in a round
HELD = ("Blocked", "NoRoom", "StillAlive")  # refusals for which an interface holds a message, and those after it
SAID_AT = (1, 10, 100, 1_000, 10_000, 100_000)  # how often something has come when it is said


class Allowance:
    """How much may come at once, and then in a second."""

    def __init__(self, most: float, a_second: float) -> None:
        self.most, self.a_second = most, a_second
        self.left, self.since = most, time.monotonic()

    def has(self) -> bool:
        """Whether one may come now."""
        now = time.monotonic()
        self.left = min(self.most, self.left + (now - self.since) * self.a_second)
        self.since = now
        return self.left >= 1

    def take(self) -> bool:
        if not self.has():
            return False
        self.left -= 1
        return True


class Faults:
    """What is refused, counted and now and then said."""

    def __init__(self, session: Session, of: str) -> None:
        self.session, self.of = session, of
        self.count: Counter[str] = Counter()

    def add(self, why: str) -> None:
        self.count[why] += 1
        if self.count[why] in SAID_AT:
            self.session.say(f"{self.of}: refused: {why} ({self.count[why]})")


class Wake(Protocol):
    """Says that something may happen, or that something is to be looked at."""

    def __call__(self, anew: bool = True) -> None: ...


class Wire(Protocol):
    """What brings a host its messages."""

    def send(self, words: bytes, ready: bool = True) -> None:
        """Sends a message, or only whether the IMP is ready."""

    def has_room(self) -> bool:
        """Whether the host takes what it is sent."""

    def where(self) -> str:
        """How and from where its host speaks."""


class Interface:
    """The interface of one stranger.

    `said` is whether its host says that it is ready, and `up` whether the network knows that. A host that falls and
    rises again between two rounds has stopped all the same, as it may have forgotten everything (`fell`).
    """

    def __init__(
        self, session: Session, host: Host, wake: Wake, marked: bool = False, silence: float | None = None
    ) -> None:
        self.session, self.host, self.wake = session, host, wake
        self.marked, self.silence = marked, silence  # seconds of silence after which its host is gone
        self.wire: Wire | None = None
        self.said = self.fell = self.refused_up = False
        self.queue: deque[Out] = deque()
        self.faults = Faults(session, str(host))
        self.datagrams = Allowance(2_000, 2_000)
        self.turns = Allowance(4, 1)  # of the ready line
        self.heard_at = time.monotonic()
        session.hears.append(self.hear)

    @property
    def up(self) -> bool:
        return self.host in self.session.known.up

    # ---- from the wire

    def comes(self, wire: Wire) -> None:
        """Its host says over a wire that it is ready."""
        self.wire, self.said, self.heard_at = wire, True, time.monotonic()
        self._turned()

    def goes(self, why: str) -> None:
        """Its host is not ready any more."""
        if self.said:
            if self.up and not self.fell:
                self.session.say(f"{self.host} is gone: {why}")
            self.said, self.fell = False, self.up
            self._turned()
        self.queue.clear()

    def _turned(self) -> None:
        """Its ready line has changed. While that has come too often, no rounds pass for it (`waits`)."""
        self.wake(self.turns.has())

    def asks(self) -> None:
        """Its host asks whether the IMP is there."""
        self.heard_at = time.monotonic()
        if self.up and not self.fell:
            self.send(messages.nop(self.host))

    def message(self, words: bytes) -> None:
        """A message of its host."""
        self.heard_at = time.monotonic()
        said = messages.read(self.host, words, self.marked)
        if said.note:
            self.session.say(said.note)
        elif said.event:
            if not self.up or self.fell:
                raise WireFault("down")
            if len(self.queue) >= MOST_QUEUED:
                raise WireFault("queue")
            self.queue.append(said.event)
            self.wake()

    def has_room(self) -> bool:
        return len(self.queue) < MOST_QUEUED

    def send(self, words: bytes) -> None:
        if self.wire:
            self.wire.send(words)

    # ---- in a round

    def before(self) -> Iterator[Wish]:
        """What is to happen first: its ready line, and its oldest message."""
        if self.silence is not None and self.said and time.monotonic() - self.heard_at > self.silence:
            self.goes(f"it has said nothing for {self.silence:g} seconds")
        if self.up and (self.fell or not self.said):
            if self.turns.take():
                yield Wish(HostDown(self.host), self._went)
        elif not self.up and self.said and self.turns.take():
            if self.refused_up:
                yield from (Wish(GiveUp(it)) for it in sorted(self.session.known.left.get(self.host, ()), key=str))
            yield Wish(HostUp(self.host), self._came)
        elif self.up and self.queue:
            yield Wish(self.queue[0], self._offered)

    def after(self) -> Iterator[Wish]:
        """What is to happen last: it takes what waits for it."""
        if self.up and self.said and not self.fell and self.wire and self.wire.has_room():
            yield from [Wish(Take(self.host), self._took)] * TAKINGS

    def waits(self) -> bool:
        """Whether something of it has still to happen, without anything more from its host."""
        return bool(self.queue) or self.up != self.said or self.fell

    def _went(self, said: Sequence[str]) -> None:
        self.fell = False

    def _came(self, said: Sequence[str]) -> None:
        name = refusal(said)
        self.refused_up = name is not None and name != "IsUp"
        if self.refused_up:
            self.turns.left += 1  # nothing has changed
            return
        self.queue.clear()
        self.session.say(f"{self.host} is ready, {self.wire.where() if self.wire else 'and gone'}")
        for _ in range(3):
            self.send(messages.nop(self.host))

    def _offered(self, said: Sequence[str]) -> None:
        name = refusal(said)
        if name not in HELD and self.queue:
            self.queue.popleft()
            if name:
                self.faults.add(name)

    def _took(self, said: Sequence[str]) -> None:
        for line in said:
            crossing = crossing_of(tuple(line.split(" ")))
            if crossing and crossing.octets:
                self.send(crossing.octets)
                self.wake()

    def hear(self, said: Sequence[str]) -> None:
        """Its IMP stops, and with it the interface."""
        if f"down {self.host}" in said and self.said and not self.fell:
            self.queue.clear()
            if self.wire:
                self.wire.send(b"", ready=False)
