"""What one host's own log comes to, and what breaks a rule."""

from __future__ import annotations

from collections.abc import Collection
from typing import NamedTuple

from dorydate.contract.acts import Peer
from dorydate.contract.ends import End, Fate, Pair
from dorydate.contract.rules import RULES

# what is asked only where a log has what users do and hear
TOLD_ONLY = frozenset(("handed", "grants", "willed", "opens", "takes", "all", "returned", "ended"))


class Broken(Exception):
    """A rule that is broken, and why in words."""

    def __init__(self, rule: str, why: str) -> None:
        super().__init__(f"{rule}: {why}")
        self.rule, self.why = RULES[rule], why


class Known(NamedTuple):
    """What a log has."""

    deeds: bool = True  # what users do and hear
    whole: bool = True  # it begins when its host starts; else pairs may have been through a reset before


class State:
    """One host, as its own log has it so far.

    A rule that is left out is asked of nobody; where it says what becomes of connections, these are then as a host that
    lacks the rule has them.
    """

    def __init__(self, host: str, without: Collection[str] = (), known: Known = Known()) -> None:
        self.host, self.known = host, known
        self.lacks = frozenset(without)
        self.without = self.lacks if known.deeds else self.lacks | TOLD_ONLY
        self.pairs: dict[Peer, Pair] = {}
        self.lives: list[End] = []  # ends whose users knew them, the oldest first
        self.place = -1  # of the last crossing
        self.pending: list[End] = []  # with messages that came and aren't counted
        self.touched: list[Pair] = []  # with ends that the last crossing ended
        self.assumed: set[Peer] = set()  # taken as through a reset when the log began
        self.why = "through"  # the rule by which the host is away from one whom it hasn't met

    def breaks(self, rule: str, why: str) -> None:
        """Something is against a rule."""
        if rule not in self.without:
            raise Broken(rule, why)

    def pair(self, peer: Peer) -> Pair:
        if peer not in self.pairs:
            self.pairs[peer] = Pair(self.why)
        return self.pairs[peer]

    def begin(self, peer: Peer, pair: Pair, is_signal: bool) -> None:
        """A log that doesn't begin with its host may begin when two hosts were through a reset."""
        is_new = pair.phase == "away" and pair.why == "through" and not pair.owed and peer not in self.assumed
        if not self.known.whole and is_new and not is_signal:
            self.assumed.add(peer)
            pair.phase = "through"

    def settle(self) -> None:
        """All that users hear of the crossing before is reported: an end that counted not all that came has a gap."""
        for end in self.pending:
            if end.opened is not None and end.waits:
                if end.is_unclosed():
                    first = end.waits[0].place
                    self.breaks("all", f"{named(end)} is open, and its message of line {first} isn't counted")
                end.lost = end.lost or "takes" not in self.lacks
                end.waits.clear()
                end.waiting = 0
        self.pending = [it for it in self.pending if it.waits]
        for pair in self.touched:
            pair.just = []
        self.touched = []

    def may_open(self, end: End) -> None:
        """One of its requests has crossed."""
        end.was_open = end.is_open()
        if end.was_open and not self.known.deeds:
            self.begins(end)

    def begins(self, end: End) -> None:
        """A life begins."""
        end.opened = self.place
        self.lives.append(end)

    def both_closed(self, pair: Pair, end: End) -> None:
        self.finish(pair, end, "closed" if end.closing else "ended", "over")

    def drop(self, pair: Pair, fate: Fate = "reset", rule: str = "forgets") -> None:
        """All connections of a pair are over."""
        for end in [*pair.ends.values()]:
            self.finish(pair, end, fate, rule)

    def finish(self, pair: Pair, end: End, fate: Fate, rule: str) -> None:
        pair.finish(end, fate, self.place, rule)
        self.touched.append(pair)


def named(end: End | None) -> str:
    return f"the end {end.own} {end.foreign} with {end.peer}" if end else "no end"
