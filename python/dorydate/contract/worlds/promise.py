"""The promise among hosts that keep the contract, over all that crossed and the lives that their own logs have.

Each clause has a name; `broken` gives those that don't hold. `same` compares messages by their places, and `bits` what
is in them. Lives with strangers are left out, as nothing of these clauses is promised of them.
"""

from __future__ import annotations

from bisect import bisect_right
from collections.abc import Collection, Iterator, Sequence
from dataclasses import dataclass, field

from dorydate.contract.acts import Peer
from dorydate.contract.ends import End
from dorydate.model.crossings import Answered, Crossing, Passed
from dorydate.model.names import Flow, read_host, spell_host

Request = tuple[object, ...]  # a message's place, the two hosts and the two sockets, as its sender has them


@dataclass
class Life:
    """An end that its user knew, and its host."""

    host: Peer
    end: End

    def flow(self, link: int | None) -> Flow:
        """The messages on its link: from its partner if it receives, else to it."""
        own, peer = read_host(self.host), read_host(self.end.peer)
        return Flow(peer, own, link or 0) if self.end.receives() else Flow(own, peer, link or 0)


@dataclass
class Seen:
    """What crossed, by flows."""

    came_from: dict[int, int] = field(default_factory=dict)  # of a message that was taken: where it went out
    outs: dict[Flow, list[int]] = field(default_factory=dict)
    ins: dict[Flow, list[int]] = field(default_factory=dict)
    arrived: list[tuple[Flow, int, int]] = field(default_factory=list)  # data with an RFNM: where they went and came

    @staticmethod
    def of(log: Sequence[Crossing]) -> Seen:
        seen = Seen()
        for at, crossing in enumerate(log):
            if isinstance(crossing, Passed):
                (seen.outs if crossing.kind == "out" else seen.ins).setdefault(crossing.flow, []).append(at)
                if crossing.kind == "in":
                    seen.came_from[at] = seen.outs[crossing.flow][-1]
            elif isinstance(crossing, Answered) and crossing.answer == "rfnm" and crossing.flow.link:
                seen.arrived.append((crossing.flow, seen.outs[crossing.flow][-1], seen.ins[crossing.flow][-1]))
        return seen


class Promise:
    """The clauses."""

    def __init__(self, log: Sequence[Crossing], lives: Sequence[Life], keepers: Collection[Peer]) -> None:
        self.seen = Seen.of(log)
        self.keepers = keepers
        self.lives = [it for it in lives if it.end.peer in keepers]
        self.by_own = {self.own(it): it for it in self.lives}

    def own(self, life: Life) -> Request:
        end = life.end
        return end.asked, life.host, end.peer, end.own, end.foreign

    def partner(self, life: Life) -> Request:
        end = life.end
        place = None if end.partner is None else self.seen.came_from.get(end.partner)
        return place, end.peer, life.host, end.foreign, end.own

    def match(self, life: Life) -> Life | None:
        """The life that it matches: each has the other's request for its partner's."""
        other = self.by_own.get(self.partner(life))
        return other if other is not None and self.partner(other) == self.own(life) else None

    def broken(self) -> set[str]:
        """The clauses that don't hold."""
        found = {*self.of_requests(), *self.of_rfnms(), *self.joined()}
        for life in self.lives:
            found.update(self.received(life) if life.end.receives() else self.sent(life))
        return found

    # ---- requests

    def of_requests(self) -> Iterator[str]:
        if len(self.by_own) < len(self.lives):
            yield "own_once"
        partners = [self.partner(it) for it in self.lives]
        if len({*partners}) < len(partners):
            yield "partner_once"
        for life, partner in zip(self.lives, partners):
            if partner[0] is None or life.end.asked is None:
                yield "named"
            if partner in self.by_own and self.match(life) is None:
                yield "both_ways"
            over = life.end.over
            if over is not None and any(it > over for it in life.end.counted):
                yield "over"

    def joined(self) -> Iterator[str]:
        """Two lives that continue, crosswise on the same sockets, match."""
        going = {(it.host, it.end.peer, *it.end.sockets): it for it in self.lives if it.end.over is None}
        for (host, peer, own, foreign), life in going.items():
            other = going.get((peer, host, foreign, own))
            if other is not None and self.match(life) is not other:
                yield "joined"

    # ---- data

    def firsts(self, life: Life, crossed: dict[Flow, list[int]], after: int | None) -> list[int]:
        """Where messages on a life's link crossed after a place."""
        places = crossed.get(life.flow(life.end.link), [])
        return places[bisect_right(places, -1 if after is None else after) :]

    def received(self, life: Life) -> Iterator[str]:
        end, other = life.end, self.match(life)
        firsts = self.firsts(life, self.seen.ins, end.asked)
        if firsts[: len(end.counted)] != end.counted:
            yield "formed"
        if end.counted and other is None:
            yield "source"
        if not end.granted.covers(*end.used.plus(*end.returned)):
            yield "taken"
        if other is not None:
            yield from self.matched(end, other.end)
        if end.fate == "open" and end.closed is None and not end.taken and len(firsts) != len(end.counted):
            yield "arrived"

    def matched(self, end: End, sender: End) -> Iterator[str]:
        """What a receiving life has of the sending one that it matches."""
        sources = [self.seen.came_from[it] for it in end.counted]
        if sources != sender.counted[: len(sources)]:
            yield "same"
        if not sender.bits.startswith(end.bits):
            yield "bits"
        if not end.granted.covers(*sender.used.plus(*end.returned)):
            yield "sent"
        has_all = len(end.counted) == len(sender.counted)
        if end.fate == "ended" and not has_all:
            yield "whole"
        if end.fate == "open" and end.closed is None and end.taken and not has_all:
            yield "closed"

    def sent(self, life: Life) -> Iterator[str]:
        end = life.end
        after = max(-1 if it is None else it for it in (end.asked, end.partner))
        if self.firsts(life, self.seen.outs, after)[: len(end.counted)] != end.counted:
            yield "formed"
        if not "".join(end.all_handed).startswith(end.bits):
            yield "handed"

    def of_rfnms(self) -> Iterator[str]:
        """A message belongs to one life. Data with an RFNM are counted by one that sends, and if open by its match."""
        counted: dict[int, Life] = {}
        for life in self.lives:
            for place in life.end.counted:
                if place in counted:
                    yield "owner"
                counted[place] = life
        for flow, out, taken in self.seen.arrived:
            if spell_host(flow.source) not in self.keepers or spell_host(flow.destination) not in self.keepers:
                continue
            sender = counted.get(out)
            if sender is None:
                yield "answered"
                continue
            other = self.match(sender)
            is_open = other is not None and other.end.fate == "open" and other.end.closed is None
            if is_open and counted.get(taken) is not other:
                yield "answered"


def broken(log: Sequence[Crossing], lives: Sequence[Life], keepers: Collection[Peer]) -> set[str]:
    """The clauses of the promise that don't hold among these hosts."""
    return Promise(log, lives, keepers).broken()
