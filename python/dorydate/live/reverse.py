"""The host program of this project as a host of somebody else's network: its IMP is at the other end of a wire.

The world has plain mailboxes. The host runs the proved program, and every other host is a stranger that does what the
IMP says: a message that comes is the stranger's `out`, an RFNM its `take`, Dead its stop. What is proved of such a
world is proved here, where the other network's word is believed (docs/live.md).
"""

from __future__ import annotations

import asyncio
import itertools
from collections import Counter, deque
from collections.abc import Callable, Iterator, Sequence
from functools import partial
from typing import Any, NamedTuple

from dorydate.export.leaders import REGULAR, leader
from dorydate.live.frames import LAST, READY, Assembly, Frame, WireFault
from dorydate.live.interface import MOST_QUEUED, Faults
from dorydate.live.messages import LEADER, NOP, unmarked
from dorydate.live.record import FROM_HOST, TO_HOST, UDP, Address
from dorydate.live.session import Session, Wish
from dorydate.network import MOST_HOSTS, MOST_IMPS, Host, Imp, Network
from dorydate.printed import refusal
from dorydate.script import MOST_BITS, Flow, GiveUp, HostDown, HostUp, Out, Take, Text

RFNM, DEAD, INCOMPLETE = 5, 7, 9  # types of leaders from an IMP
AT_ONCE = 16  # messages of the IMP in a round
ASKS = 0.3  # seconds between two frames that ask whether the IMP is there


def network_of(own: Host) -> Network:
    """Plain mailboxes for all hosts that there can be, of which all but one are strangers."""
    numbers = range(1, MOST_IMPS + 1)
    foreign = {it: tuple(host for host in range(MOST_HOSTS) if Host(host, it) != own) for it in numbers}
    return Network(tuple(Imp(it, MOST_HOSTS, "", "", foreign[it]) for it in numbers), (), carrier="plain")


class FromImp(NamedTuple):
    """A message of the IMP: its type, the other host, the link, and the text of a regular message."""

    kind: int
    peer: Host
    link: int
    text: Text = Text()


def read(words: bytes) -> FromImp | None:
    """What an IMP says; None of a NOP."""
    if len(words) < LEADER:
        raise WireFault("leader")
    kind, address, link = words[0] & 15, words[1], words[2]
    if kind == NOP:
        return None
    if kind not in (REGULAR, RFNM, DEAD, INCOMPLETE):
        raise WireFault(f"type {kind}")
    if not address & MOST_IMPS:
        raise WireFault("imp")
    text = unmarked(words[LEADER:]) if kind == REGULAR else Text()
    if text.bits > MOST_BITS:
        raise WireFault("text")
    return FromImp(kind, Host(address >> 6, address & MOST_IMPS), link, text)


class FarImp(asyncio.DatagramProtocol):
    """The IMP of another network, and what strangers do because of what it says.

    Messages to a peer wait in its mailbox (`sent`, the oldest first), and the peer takes the oldest. So an RFNM of a
    later one is kept (`answered`) until those before it are answered or given up. A peer's mailbox gives answers before
    messages: `owed` is how many it has to take first.
    """

    def __init__(self, session: Session, own: Host, wake: Callable[[], None]) -> None:
        self.session, self.own, self.wake = session, own, wake
        self.faults = Faults(session, f"the IMP of {own}")
        self.transport: asyncio.DatagramTransport | None = None
        self.sequence, self.assembly, self.ready = 0, Assembly(), False
        self.inbox: deque[FromImp] = deque()
        self.sent: dict[Host, list[int]] = {}
        self.answered: dict[Host, set[int]] = {}
        self.owed: Counter[Host] = Counter()
        self.stopped: set[Host] = set()  # peers that are to come up again
        session.hears.append(self.hear)

    # ---- the wire

    def connection_made(self, transport: Any) -> None:
        self.transport = transport

    async def call(self) -> None:
        """Says that the host is ready, until the IMP says so too."""
        while True:
            if not self.ready:
                self.send(b"")
            await asyncio.sleep(ASKS)

    def send(self, words: bytes) -> None:
        if self.transport is not None:
            frame = Frame(self.sequence, READY | (LAST if words else 0), words).octets()
            self.sequence += 1
            self.session.record.crossed(UDP, FROM_HOST, self.own, frame)
            self.transport.sendto(frame)

    def error_received(self, exc: Exception) -> None:
        self.turned(False, "its port is closed")

    def turned(self, ready: bool, why: str) -> None:
        """The IMP is there, or isn't any more: then what it has still to answer is given up in time."""
        if ready != self.ready:
            self.ready = ready
            self.session.say(f"the IMP of {self.own} is {'there' if ready else 'gone'}: {why}")
            self.wake()

    def datagram_received(self, data: bytes, addr: Address) -> None:
        try:
            frame = Frame.read(data)
            words = self.assembly.add(frame)
            self.session.record.crossed(UDP, TO_HOST, self.own, data)
            self.turned(bool(frame.flags & READY), "it says so")
            said = read(words) if words else None
            if said and len(self.inbox) >= MOST_QUEUED:
                raise WireFault("queue")
            if said:
                self.inbox.append(said)
                self.wake()
        except WireFault as why:
            self.faults.add(str(why))

    # ---- in a round

    def before(self) -> Iterator[Wish]:
        """What strangers do because of what the IMP has said."""
        for peer in sorted(self.stopped, key=Host.order):
            yield Wish(HostUp(peer), partial(self._is_up, peer))
        yield from (Wish(Take(peer)) for peer in self.owed.elements())
        seen: set[Host] = set()
        for _ in range(min(AT_ONCE, len(self.inbox))):
            if self.inbox[0].peer in seen | self.stopped:
                break  # one thing of a peer in a round, in its order
            said = self.inbox.popleft()
            seen.add(said.peer)
            yield from self.because_of(said)
        for peer, waits in self.sent.items():
            taken = itertools.takewhile(self.answered.get(peer, set()).__contains__, waits)
            yield from (Wish(Take(peer)) for _ in taken)

    def because_of(self, said: FromImp) -> Iterator[Wish]:
        waits = self.sent.setdefault(said.peer, [])
        if said.kind == REGULAR:
            yield Wish(Out(Flow(said.peer, self.own, said.link), said.text), lambda it: self._said(said, it))
        elif said.link not in waits:
            self.faults.add("an answer to no message")
        elif said.kind == RFNM:
            self.answered.setdefault(said.peer, set()).add(said.link)
        elif said.kind == INCOMPLETE:
            yield Wish(GiveUp(Flow(self.own, said.peer, said.link)))
        else:  # what else waits for it may have been taken, so only this one is said to be dead
            yield from (Wish(GiveUp(Flow(self.own, said.peer, it))) for it in waits if it != said.link)
            yield Wish(HostDown(said.peer), lambda it: self.stopped.add(said.peer))

    def after(self) -> Iterator[Wish]:
        """Nothing: an answer that a round has made is taken in the next one, when it is known."""
        yield from ()

    def waits(self) -> bool:
        return bool(self.inbox or self.stopped) or self.owed.total() > 0

    def _said(self, said: FromImp, printed: Sequence[str]) -> None:
        name = refusal(printed)
        if name == "Blocked":
            self.inbox.appendleft(said)  # the answer to its last message there has not been taken yet
        elif name:
            self.faults.add(f"refused {name}")

    def _is_up(self, peer: Host, said: Sequence[str]) -> None:
        if refusal(said) in (None, "IsUp"):
            self.stopped.discard(peer)

    def _is_over(self, peer: Host, link: int) -> None:
        if link in (waits := self.sent.get(peer, [])):
            waits.remove(link)
        self.answered.get(peer, set()).discard(link)

    def hear(self, said: Sequence[str]) -> None:
        """Sends what the program says, and keeps account of mailboxes."""
        own = str(self.own)
        for line in said:
            match line.split(" "):
                case ["out", source, peer, link, bits, octets] if source == own:
                    self.sent.setdefault(Host.read(peer), []).append(int(link))
                    text = Text.read(bits, octets).octets
                    self.send(leader(REGULAR, Host.read(peer), int(link)) + text + b"\0" * (len(text) % 2))
                case ["in", peer, destination, *_] if destination == own:
                    self.owed[Host.read(peer)] += 1
                    self.wake()
                case ["in", source, peer, link, *_] if source == own:
                    self._is_over(Host.read(peer), int(link))
                case ["answer", answer, source, peer, link] if source == own:
                    if answer != "rfnm":
                        self._is_over(Host.read(peer), int(link))
                case ["answer", _, peer, *_]:
                    self.owed[Host.read(peer)] -= 1
                case ["down", peer]:
                    self.owed.pop(Host.read(peer), None)
