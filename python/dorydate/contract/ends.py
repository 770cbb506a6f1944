"""What a host's own log makes of its connections with a peer."""

from __future__ import annotations

from collections import deque
from collections.abc import Iterable
from typing import Literal, NamedTuple

from dorydate.contract.acts import Peer
from dorydate.model.bits import Bits

Sockets = tuple[int, int]  # the own one and the foreign one
Phase = Literal["away", "gone", "heard", "through"]  # no reset; the RST is out; it was taken; the exchange is done
Fate = Literal["open", "closed", "ended", "reset", "stopped"]


class Amount(NamedTuple):
    """Messages, and the bits in all of them."""

    messages: int = 0
    bits: int = 0

    def __str__(self) -> str:
        return f"{self.messages} messages of {self.bits} bits"

    def plus(self, messages: int, bits: int) -> Amount:
        return Amount(self.messages + messages, self.bits + bits)

    def covers(self, messages: int, bits: int) -> bool:
        """Whether so much is no more than this."""
        return messages <= self.messages and bits <= self.bits


class Waiting:
    """Bits that were handed over and haven't gone out."""

    def __init__(self) -> None:
        self.parts: deque[Bits] = deque()
        self.at = 0  # of the first part this many bits have gone
        self.count = 0

    def add(self, bits: Bits) -> None:
        if bits:
            self.parts.append(bits)
            self.count += len(bits)

    def first(self, count: int) -> Bits:
        """The first bits, at most a number of them; they stay."""
        found, start = "", self.at
        for part in self.parts:
            if len(found) >= count:
                break
            found += part[start : start + count - len(found)]
            start = 0
        return found

    def drop(self, count: int) -> None:
        """The first bits have gone."""
        self.count -= count
        self.at += count
        while self.parts and self.at >= len(self.parts[0]):
            self.at -= len(self.parts.popleft())


class Came(NamedTuple):
    """A message of data that came and isn't counted yet: where, and what."""

    place: int
    size: int
    bits: Bits


class End:
    """One end of a connection, from its first request to both CLS: a life from when its user knows that it is open."""

    def __init__(self, peer: Peer, own: int, foreign: int) -> None:
        self.peer, self.own, self.foreign = peer, own, foreign
        self.asked: int | None = None  # where its request crossed
        self.partner: int | None = None  # and its partner's
        self.gone = self.taken = False  # its CLS, and its partner's
        self.crossed_last = -1  # where a CLS of it did
        self.link: int | None = None
        self.size: int | None = None
        self.was_open = False  # both requests crossed before any CLS
        self.opened: int | None = None  # where its user was notified
        self.closing = self.lost = False  # its user closed it; it passed over a message
        self.closed: int | None = None  # where its user closed it
        # of a receiver: what its user granted, what ALLs said, what RETs brought, and what its user knows of these
        self.granted = self.said = self.back = self.returned = Amount()
        # of a sender: what ALLs let it send, what RETs gave back, and what it sent
        self.allowed = self.gave = Amount()
        self.used = Amount()  # what was sent, or counted
        self.handed = Waiting()
        self.all_handed: list[Bits] = []
        self.counted: list[int] = []  # the places of its messages
        self.parts: list[Bits] = []  # and their bits
        self.waits: deque[Came] = deque()
        self.waiting = 0  # bits in these
        self.fate: Fate = "open"
        self.over: int | None = None  # where it was over

    @property
    def sockets(self) -> Sockets:
        return self.own, self.foreign

    @property
    def bits(self) -> Bits:
        return "".join(self.parts)

    def receives(self) -> bool:
        return self.own % 2 == 0

    def is_begun(self) -> bool:
        return self.asked is not None or self.partner is not None

    def has_both(self) -> bool:
        return self.asked is not None and self.partner is not None

    def is_open(self) -> bool:
        return self.has_both() and not self.gone and not self.taken

    def is_unclosed(self) -> bool:
        """Whether its user knows that it is open, and nobody has closed it."""
        return self.opened is not None and not self.closing and not self.gone and not self.taken

    def keep_waiting(self, size: int) -> None:
        """Of what waits only data of a byte size are its own."""
        self.waits = deque(it for it in self.waits if it.size == size)
        self.waiting = sum(len(it.bits) for it in self.waits)

    def count(self, place: int, bits: Bits) -> None:
        """A message is one of its life's."""
        self.counted.append(place)
        self.parts.append(bits)
        self.used = self.used.plus(1, len(bits))


class Sent(NamedTuple):
    """What has no answer yet: where it went out, what it is (`rst`, `rrp`, `plain`), and of data their end."""

    place: int
    what: str
    end: End | None = None


class Pair:
    """A host and one of its peers."""

    def __init__(self, why: str = "through") -> None:
        self.phase: Phase = "away"
        self.why = why  # the rule by which it is away
        self.early = self.owed = False
        self.out: dict[int, Sent] = {}  # by links
        self.ends: dict[Sockets, End] = {}
        self.on_link: dict[tuple[int, bool], list[End]] = {}  # by links, and whether they receive
        self.unlinked: set[Sockets] = set()  # whose RTS named a link that isn't free here, or that no connection has
        self.just: list[End] = []  # ends that what crossed last ended
        self.past: dict[Sockets, tuple[End, str]] = {}  # the last end that is over, and the rule by which

    def away(self, why: str) -> None:
        self.phase, self.why = "away", why

    def on(self, link: int, receives: bool) -> End | None:
        """The end that has a link: the open one if there is one."""
        found = self.on_link.get((link, receives), ())
        return next((it for it in found if it.is_open()), found[0] if found else None)

    def enter(self, peer: Peer, sockets: Sockets) -> End:
        """The end of two sockets, from now on if there was none."""
        if sockets not in self.ends:
            self.ends[sockets] = End(peer, *sockets)
        return self.ends[sockets]

    def give_link(self, end: End, link: int | None) -> None:
        """An end has a link, or none any more."""
        self._unlink(end)
        end.link = link
        if link is not None:
            self.on_link.setdefault((link, end.receives()), []).append(end)

    def restore(self, ends: Iterable[End]) -> None:
        """Ends that are over are there all the same."""
        for end in ends:
            self.ends[end.sockets] = end
            self.give_link(end, end.link)

    def _unlink(self, end: End) -> None:
        if end.link is not None and end in (found := self.on_link[end.link, end.receives()]):
            found.remove(end)

    def finish(self, end: End, fate: Fate, place: int, rule: str) -> None:
        """An end is over."""
        self._unlink(end)
        del self.ends[end.sockets]
        end.fate, end.over = fate, place
        self.just.append(end)
        self.past[end.sockets] = end, rule
