"""Programs that mix up their peers, so that what one says reaches what the host has with another, and two that ask wrongly.
`check worlds --mixed` finds them."""

from __future__ import annotations

from collections.abc import Callable, Iterator

from dorydate.model.bits import Bits
from dorydate.model.commands import ALL, CLS, GVB, INR, INS, LINKS, RET, RST, RTS, STR, of_sockets, read_numbers
from dorydate.model.connections import End, Pair
from dorydate.model.host import Host
from dorydate.model.names import HostName


class Leak(Host):
    """A program that looks for what a command is about at the peer that says it, and then at all others."""

    leaks: tuple[int, ...] = ()

    def found(self, pair: Pair, has: Callable[[Pair], bool]) -> Pair:
        """The pair itself if it has what is looked for, else another that has it."""
        return next((it for it in (pair, *self.pairs.values()) if has(it)), pair)

    def take_ready(self, peer: HostName, pair: Pair, command: bytes, stamp: int) -> int | None:
        code = command[0]
        if code in self.leaks and code in (RTS, STR, CLS):
            foreign, own = read_numbers(command, 4, 4)
            pair = self.found(pair, lambda it: it.end(own, foreign) is not None)
        elif code in self.leaks:
            pair = self.found(pair, lambda it: any(True for _ in it.linked(code in (RET, INS), command[1])))
        return super().take_ready(peer, pair, command, stamp)


class LeakedRequests(Leak):
    """A request opens another peer's end."""

    leaks = (RTS, STR)


class LeakedCloses(Leak):
    """A CLS closes another peer's end."""

    leaks = (CLS,)


class LeakedGrants(Leak):
    """An ALL grants on another peer's link."""

    leaks = (ALL, GVB, RET, INR, INS)


class LeakedData(Leak):
    """Data arrive on another peer's link."""

    def take_data(self, pair: Pair, link: int, text: Bits) -> None:
        super().take_data(self.found(pair, lambda it: any(True for _ in it.linked(True, link))), link, text)


class LeakedResets(Leak):
    """An RST drops the connections with all peers."""

    def take_command(self, peer: HostName, pair: Pair, command: bytes, stamp: int) -> None:
        for other in self.pairs.values() if command[0] == RST else ():
            other.forget()
        super().take_command(peer, pair, command, stamp)


class LeakedAnswers(Leak):
    """An RFNM frees its link with all peers. The network refuses what goes out too early, and it is said again."""

    def take_answer(self, peer: HostName, pair: Pair, kind: str, link: int) -> None:
        for other in self.others(pair) if kind == "rfnm" else ():
            other.busy = [it for it in other.busy if it != link]
        super().take_answer(peer, pair, kind, link)

    def others(self, pair: Pair) -> Iterator[Pair]:
        """The other peers' pairs."""
        return (it for it in self.pairs.values() if it is not pair)


class SecondRequest(Host):
    """A second request of the partner opens the end again."""

    def take_ready(self, peer: HostName, pair: Pair, command: bytes, stamp: int) -> int | None:
        if command[0] in (RTS, STR):
            foreign, own = read_numbers(command, 4, 4)
            end = pair.end(own, foreign)
            if end is not None and end.mine:
                end.asked = False
        return super().take_ready(peer, pair, command, stamp)


class OtherLink(Host):
    """An RTS names another link than that of its end."""

    def ask_to_receive(self, pair: Pair, end: End, link: int) -> None:
        super().ask_to_receive(pair, end, link)
        pair.queue[-1] = of_sockets(RTS, end.own, end.foreign, LINKS[0] if link == LINKS[-1] else link + 1)


LEAKS: tuple[type[Host], ...] = (LeakedRequests, LeakedCloses, LeakedGrants, LeakedData, LeakedResets)
HARMLESS: type[Host] = LeakedAnswers

# what a stranger makes of them breaks what is promised toward it
MISTAKES: tuple[type[Host], ...] = (SecondRequest, OtherLink)
