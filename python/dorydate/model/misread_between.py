"""Wrong readings of between which lives messages of data went: some log by hand has to distinguish each from the right one."""

from __future__ import annotations

from collections.abc import Collection

from dorydate.model.between import Between
from dorydate.model.book import Life
from dorydate.model.crossings import Crossing, Passed
from dorydate.model.names import HostName
from dorydate.model.was_sent import Lives, Log, WasSent


class SenderOnly(Between):
    """A sending life is enough."""

    def has_taker(self, log: Log, lives: Lives, sender: Life) -> bool:
        return True


class AnyTaker(Between):
    """Any receiving life of the other host will do."""

    def has_taker(self, log: Log, lives: Lives, sender: Life) -> bool:
        return any(it.receives() and (it.host, it.peer) == (sender.peer, sender.host) for it in lives)


class AnySender(Between):
    """The sending life needn't count it: it crossed on its link."""

    def counted(self, log: Log, life: Life) -> list[int]:
        return WasSent().crossed(log, life)


class TakenOnly(Between):
    """Only a message that was taken needs lives."""

    def is_asked(self, crossing: Crossing, strangers: Collection[HostName]) -> bool:
        return False

    def broken(self, log: Log, lives: Lives, strangers: Collection[HostName] = ()) -> int | None:
        taken = {it.flow for it in log if isinstance(it, Passed) and it.kind == "in"}
        bare = (
            at for at in Between().bare(log, lives, strangers) if isinstance(it := log[at], Passed) and it.flow in taken
        )
        return next(bare, None)


class OfCommandsToo(Between):
    """A message of commands has lives, too."""

    def is_asked(self, crossing: Crossing, strangers: Collection[HostName]) -> bool:
        return isinstance(crossing, Passed) and crossing.kind == "out"


class OfStrangersToo(Between):
    """A message to or from a stranger has lives, too."""

    def is_asked(self, crossing: Crossing, strangers: Collection[HostName]) -> bool:
        return super().is_asked(crossing, ())


class AllOfThem(Between):
    """Each sending life that counts it has one that matches, and where none counts it nothing is asked."""

    def has_lives(self, log: Log, lives: Lives, senders: Lives) -> bool:
        return all(self.has_taker(log, lives, it) for it in senders)


MISREADINGS = [SenderOnly, AnyTaker, AnySender, TakenOnly, OfCommandsToo, OfStrangersToo, AllOfThem]
