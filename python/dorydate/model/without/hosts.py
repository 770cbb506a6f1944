"""Programs of hosts that lack a rule each, and a world in which a host keeps its program when it starts again."""

from __future__ import annotations

from collections.abc import Callable
from typing import TypeVar

from dorydate.model.bits import Bits
from dorydate.model.commands import ALL, GVB, RET, RRP, RTS, STR, read_numbers
from dorydate.model.connections import GONE, HEARD, READY, WANT, End, Pair
from dorydate.model.crossings import Carrier
from dorydate.model.host import Host, Outgoing
from dorydate.model.names import HostName
from dorydate.model.without.network import Held

T = TypeVar("T")


# ---- resets


class RepliesAtOnce(Host):
    """An RRP counts also before the RFNM of one's own RST."""

    def take_command(self, peer: HostName, pair: Pair, command: bytes, stamp: int) -> None:
        if command[0] == RRP and pair.phase == GONE:
            pair.phase = HEARD
        super().take_command(peer, pair, command, stamp)


class RepliesForgotten(Host):
    """An RRP that comes before the RFNM of one's own RST isn't remembered."""

    def take_command(self, peer: HostName, pair: Pair, command: bytes, stamp: int) -> None:
        if command[0] != RRP or pair.phase != GONE:
            super().take_command(peer, pair, command, stamp)


class ResetsAmidData(Host):
    """RST and RRP wait for link 0 only."""

    def next_of(self, pair: Pair) -> Outgoing | None:
        if pair.phase != WANT and not pair.owed:
            return super().next_of(pair)
        busy, pair.busy = pair.busy, [it for it in pair.busy if it == 0]
        try:
            return super().next_of(pair)
        finally:
            pair.busy = busy


class TalksWhileOwing(Host):
    """Other messages go while an RRP waits to go."""

    def next_of(self, pair: Pair) -> Outgoing | None:
        found = super().next_of(pair)
        if found or pair.phase != READY or not pair.owed:
            return found
        pair.owed = False
        try:
            return super().next_of(pair)
        finally:
            pair.owed = True


class FailuresIgnored(Host):
    """A message that was lost doesn't end the stay."""

    def take_answer(self, peer: HostName, pair: Pair, kind: str, link: int) -> None:
        super().take_answer(peer, pair, "rfnm" if pair.phase == READY else kind, link)


class KeepsEnds(Pair):
    """A pair that a reset leaves the ends that its host has asked to open."""

    def forget(self) -> None:
        self.ends = [end for end in self.ends if end.mine and end.own_stamp is None and not end.is_closing()]
        kept = [[end.own, end.foreign] for end in self.ends]
        self.queue = [it for it in self.queue if it[0] in (RTS, STR) and read_numbers(it, 4, 4) in kept]


class EndsStay(Host):
    """A reset doesn't drop the ends that are still to be opened."""

    make_pair = KeepsEnds


class Immortal(Held):
    """A host that starts again continues with the program that it had."""

    def __init__(self, carrier: Carrier, host_program: type[Host] = Host) -> None:
        super().__init__(carrier, host_program)
        self.former: dict[HostName, Host | None] = {}

    def stop(self, host: HostName) -> None:
        self.former[host] = self.hosts[host]
        super().stop(host)

    def carry(self, call: Callable[[], T]) -> T:
        given = super().carry(call)
        for host in [host for host in self.former if self.hosts[host] is not None]:
            self.hosts[host] = self.former.pop(host)
        return given


# ---- connections


class EndsAtOwnClose(Host):
    """An end is over when its own CLS has gone."""

    def sweep(self, peer: HostName, pair: Pair) -> None:
        for end in [end for end in pair.ends if end.close_sent]:
            end.close_taken = True
        super().sweep(peer, pair)


class LowestLink(Pair):
    """A pair in which the lowest link is always free."""

    def free_link(self) -> int | None:
        return 2


class OneLink(Host):
    """Each receiving end takes the lowest link, whoever has it."""

    make_pair = LowestLink


class LinksUnlooked(Host):
    """A request is taken though a sending end of the pair has its link."""

    def take_rts(self, peer: HostName, pair: Pair, foreign: int, own: int, link: int, stamp: int) -> int | None:
        found = pair.linked(False, link)
        for end in found:
            end.link = None
        wrong = super().take_rts(peer, pair, foreign, own, link, stamp)
        for end in found:
            end.link = link
        return wrong


class LinksShared(LinksUnlooked):
    """Neither the receiver nor the sender looks whether a link is in use."""

    make_pair = LowestLink


class ClosesEarly(Host):
    """A sending end queues its CLS when all has gone, answered or not."""

    def settle(self, pair: Pair) -> None:
        busy, pair.busy = pair.busy, []
        super().settle(pair)
        pair.busy = busy


class Remembers(End):
    """An end that remembers the data of its last message."""

    last: Bits = ""


class SendsAgain(Host):
    """After another answer than RFNM the same bits go out once more, in the same life."""

    make_end = Remembers

    def data_gone(self, end: End) -> None:
        if isinstance(end, Remembers):
            end.last = end.waiting[: end.bytes_to_send() * end.size]
        super().data_gone(end)

    def take_answer(self, peer: HostName, pair: Pair, kind: str, link: int) -> None:
        ends = [end for end in pair.linked(False, link) if end.is_open()]
        if kind == "rfnm" or pair.phase != READY or not ends:
            return super().take_answer(peer, pair, kind, link)
        end = ends[0]
        assert isinstance(end, Remembers)
        end.waiting, end.messages, end.bits = end.last + end.waiting, end.messages + 1, end.bits + len(end.last)
        super().take_answer(peer, pair, "rfnm", link)


class AnyLink(Host):
    """Data whose link no open end has are taken by another open end."""

    def take_data(self, pair: Pair, link: int, text: Bits) -> None:
        if not any(end.is_open() for end in pair.linked(True, link)):
            link = next((end.known_link() for end in pair.ends if end.receives() and end.is_open()), link)
        super().take_data(pair, link, text)


# ---- allocation


class GrantsReplace(Host):
    """ALL takes the place of what was granted before."""

    def take_open(self, pair: Pair, end: End, code: int, *numbers: int) -> int | None:
        if code == ALL:
            end.messages = end.bits = 0
        return super().take_open(pair, end, code, *numbers)


class Unsubtracted(Host):
    """A command after which counters are as before."""

    command: int

    def take_open(self, pair: Pair, end: End, code: int, *numbers: int) -> int | None:
        before = end.messages, end.bits
        wrong = super().take_open(pair, end, code, *numbers)
        if code == self.command:
            end.messages, end.bits = before
        return wrong


class ReturnsKept(Unsubtracted):
    """A sender returns what it was granted, and keeps it."""

    command = GVB


class ReturnsUnseen(Unsubtracted):
    """A receiver doesn't subtract what was returned to it."""

    command = RET


class CountsMessages(End):
    """An end that looks at the messages that it was granted, and not at the bits."""

    def bytes_to_send(self) -> int:
        bits, self.bits = self.bits, 8023
        try:
            return super().bytes_to_send()
        finally:
            self.bits = bits


class OneCounter(Host):
    """A sender looks at the messages that it was granted, and not at the bits."""

    make_end = CountsMessages

    def offered(self, stamp: int) -> list[str]:
        notices = super().offered(stamp)
        for end in [end for pair in self.pairs.values() for end in pair.ends]:
            end.bits = max(end.bits, 0)
        return notices
