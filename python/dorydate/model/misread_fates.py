"""Judges of logs that read what becomes of lives wrongly, each in one place."""

from __future__ import annotations

from collections.abc import Hashable, Sequence
from typing import cast

from dorydate.model.book import Life
from dorydate.model.commands import CLS
from dorydate.model.crossings import Crossing
from dorydate.model.fates import LEAVES, Begun, Fates, Over
from dorydate.model.firsts import Placed
from dorydate.model.log import Book
from dorydate.model.names import HostName
from dorydate.model.verdict import Judge


class NoFates(Judge):
    """Fates are not looked at."""

    def of_fates(self, book: Book) -> str | None:
        return None


class BelievesOpen(Fates):
    """Any life may be open."""

    leaves = {by: {*fates, "open"} for by, fates in LEAVES.items()}


class NeverReset(Fates):
    """No life is reset but by what crosses."""

    leaves = {by: fates if by == "reset" else fates - {"reset"} for by, fates in LEAVES.items()}


class OneEnd(Fates):
    """Of a life that is over by CLS its own user has closed."""

    leaves = {**LEAVES, "closed in": {"closed"}}


class NoStops(Fates):
    """A host that stops ends no life."""

    def is_turned(self, host: HostName, life: Life) -> bool:
        return False


class PeersStop(Fates):
    """A peer that stops ends a life, too."""

    def is_turned(self, host: HostName, life: Life) -> bool:
        return host in (life.host, life.peer)


class OwnRstOnly(Fates):
    """An RST that is taken resets nothing."""

    def cut(self, word: str, way: str, owes: bool) -> str | None:
        return None if (word, way) == ("rst", "in") else super().cut(word, way, owes)


class PeersRstOnly(Fates):
    """An RST that is sent resets nothing."""

    def cut(self, word: str, way: str, owes: bool) -> str | None:
        return None if (word, way) == ("rst", "out") else super().cut(word, way, owes)


class RrpTaken(Fates):
    """An RRP that is taken resets."""

    def cut(self, word: str, way: str, owes: bool) -> str | None:
        return "reset" if word == "rrp" and way == "in" else super().cut(word, way, owes)


class AnyRrp(Fates):
    """An RRP that is owed resets."""

    def cut(self, word: str, way: str, owes: bool) -> str | None:
        return super().cut(word, way, owes and word != "rrp")


class NoRrp(Fates):
    """No RRP resets anything."""

    def cut(self, word: str, way: str, owes: bool) -> str | None:
        return None if word == "rrp" else super().cut(word, way, owes)


class Owing(Fates):
    """A host that stopped still owes an RRP."""

    def owes(self, word: str, way: str, owes: bool) -> bool:
        return owes if word in ("down", "up") else super().owes(word, way, owes)


class NoFailures(Fates):
    """A message that fails resets nothing."""

    def cut(self, word: str, way: str, owes: bool) -> str | None:
        return None if word == "fails" else super().cut(word, way, owes)


class AnyFailure(Fates):
    """A message that fails resets while an RRP is owed, too."""

    def cut(self, word: str, way: str, owes: bool) -> str | None:
        return super().cut(word, way, owes and word != "fails")


class OneCls(Fates):
    """One CLS ends a life."""

    def are_closed(self, closed: Sequence[str]) -> bool:
        return bool(closed)


class AnyCls(Fates):
    """A CLS of other sockets counts."""

    def word(self, command: bytes, own: int, foreign: int, is_stamp: bool) -> str | None:
        return "closes" if command[0] == CLS else super().word(command, own, foreign, is_stamp)


class EndedFirst(Fates):
    """A life whose own CLS was the first may be ended."""

    leaves = {**LEAVES, "closed out": {"closed", "ended", "reset"}}


class ResetLast(Fates):
    """A contact may come before the own CLS, where that is the second."""

    leaves = {**LEAVES, "closed in": {"closed", "ended", "reset"}}


class SecondFirst(Fates):
    """Of two CLS the later counts as the first."""

    def over(self, log: Sequence[Crossing], life: Life) -> Over | None:
        over = super().over(log, life)
        return over and over._replace(closed=over.closed[::-1])


class NeverEarly:
    """A reading by which nothing comes too early for a life."""

    def is_early(self, asked: set[str]) -> bool:
        return False


class EarlyTillBoth:
    """A reading by which all is too early for a life before both of its requests."""

    def is_early(self, asked: set[str]) -> bool:
        return len(asked) < 2


class AnyBegin(NeverEarly, Fates):
    """What ends lives may come between a life's two requests."""


class EarlyBegin(EarlyTillBoth, Fates):
    """What ends lives may not come before a life's requests."""


class EachByItself(Fates):
    """A contact may reset one life of several."""

    def outlasts(self, one: Begun, other: Begun) -> bool:
        return False


class WithAnyPeer(Fates):
    """A contact resets all lives of its host, with any peer."""

    def reset_with(self, life: Life) -> Hashable:
        return life.host


class OfBothHosts(Fates):
    """A contact resets the lives of the peer, too."""

    def reset_with(self, life: Life) -> Hashable:
        return frozenset([life.host, life.peer])


class OverToo(Fates):
    """A contact resets lives that are over."""

    def end(self, begun: Begun) -> float:
        return 0


class OfThoseThatContinue(Fates):
    """A contact before a stop, or before the partner's CLS, resets one life of several."""

    def was_contacted(self, begun: Begun) -> bool:
        return super().was_contacted(begun) and begun.over.by is None


class StopsReset(Fates):
    """A stop drops connections: it may reset one life and stop another."""

    def was_contacted(self, begun: Begun) -> bool:
        return super().was_contacted(begun) and begun.over.by != "stopped"


class ClsResets(Fates):
    """The partner's CLS may reset a life whose own came first."""

    def was_contacted(self, begun: Begun) -> bool:
        return super().was_contacted(begun) and begun.over.by != "closed"


class DropsAreContacts(Fates):
    """A life that was reset by what crossed was so by a contact."""

    def was_contacted(self, begun: Begun) -> bool:
        return begun.life.fate == "reset"


class AnyStretch(Fates):
    """A contact resets lives that begin after a cut, too."""

    def stretch(self, log: Sequence[Crossing], life: Life) -> int:
        return 0


class NoStopBetween(Fates):
    """A stop isn't a cut."""

    def is_cut(self, by: str | None) -> bool:
        return by == "reset"


class NoResetBetween(Fates):
    """A reset isn't a cut."""

    def is_cut(self, by: str | None) -> bool:
        return by == "stopped"


class NotTogether(Fates):
    """What is over with a life that a contact reset may be over otherwise."""

    def outlasts(self, one: Begun, other: Begun) -> bool:
        return super().outlasts(one, other) and (self.end(one) != self.end(other) or one.over.by is None)


class OnlyTogether(Fates):
    """Only what is over with a life that a contact reset is reset by it."""

    def outlasts(self, one: Begun, other: Begun) -> bool:
        return super().outlasts(one, other) and self.end(one) == self.end(other)


class CountsOn(Judge):
    """A life may count messages that crossed after it was over."""

    def is_in_time(self, over: Over, placed: Placed) -> bool:
        return True


def by(fates: type[Fates]) -> type[Judge]:
    """A judge with these fates, which says of itself what they read wrongly."""
    return cast(type[Judge], type(fates.__name__, (Judge,), {"__doc__": fates.__doc__, "fates": fates}))


FATES: list[type[Fates]] = [
    BelievesOpen, NeverReset, OneEnd, NoStops, PeersStop, OwnRstOnly, PeersRstOnly, RrpTaken,
    AnyRrp, NoRrp, Owing, NoFailures, AnyFailure, OneCls, AnyCls, EndedFirst,
    ResetLast, SecondFirst, AnyBegin, EarlyBegin, EachByItself, WithAnyPeer, OfBothHosts, OverToo,
    OfThoseThatContinue, StopsReset, ClsResets, DropsAreContacts, AnyStretch, NoStopBetween, NoResetBetween,
    NotTogether,
    OnlyTogether,
]  # fmt: skip
JUDGES: list[type[Judge]] = [NoFates, CountsOn, *map(by, FATES)]
