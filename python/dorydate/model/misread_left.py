"""Wrong readings of which fates lives are left: some book by hand has to distinguish each from the right one."""

from __future__ import annotations

from collections.abc import Iterator, Sequence

from dorydate.model.book import Life
from dorydate.model.crossings import Crossing
from dorydate.model.fates import Deed
from dorydate.model.left import LEFT, Contact, Leaving, Left
from dorydate.model.misread_fates import EarlyTillBoth, NeverEarly


class EndedByPartner(Left):
    """A life whose own CLS was the first of two may be ended."""

    fates: Leaving = {**LEFT, ("closed", "out"): {"closed", "ended"}}


class OpenAfterCls(Left):
    """A life whose own CLS has gone may be open."""

    fates: Leaving = {**LEFT, (None, "out"): {"open", "closing"}}


class LastCls(Left):
    """Of two CLS the later counts as the first."""

    def first(self, closed: list[str]) -> str:
        return closed[-1]


class BetweenRequests(NeverEarly, Left):
    """What would end a life may come between its two requests."""


class BeforeRequests(EarlyTillBoth, Left):
    """What would end a life may not come before its requests."""


class NoContacts(Left):
    """A contact ends no life."""

    def all_deeds(self, log: Sequence[Crossing], contacts: Sequence[Contact], life: Life) -> Iterator[Deed]:
        yield from self.deeds(log, life)


class OfEitherHost(Left):
    """A contact of the peer ends a life too."""

    def all_deeds(self, log: Sequence[Crossing], contacts: Sequence[Contact], life: Life) -> Iterator[Deed]:
        two = {life.host, life.peer}
        both = [(life.host, life.peer, place) for host, peer, place in contacts if {host, peer} == two]
        yield from super().all_deeds(log, both, life)


class ContactLast(Left):
    """A contact comes after what crosses at its place."""

    def all_deeds(self, log: Sequence[Crossing], contacts: Sequence[Contact], life: Life) -> Iterator[Deed]:
        yield from super().all_deeds(log, [(host, peer, place + 1) for host, peer, place in contacts], life)


class CountsOn(Left):
    """A life may count messages that crossed after what ended it."""

    def is_within(self, log: Sequence[Crossing], contacts: Sequence[Contact], life: Life) -> bool:
        return True


MISREADINGS = (
    CountsOn,
    EndedByPartner,
    OpenAfterCls,
    LastCls,
    BetweenRequests,
    BeforeRequests,
    NoContacts,
    OfEitherHost,
    ContactLast,
)
