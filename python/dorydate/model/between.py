"""Between which lives each message of data went: a sending one that counts it, and a receiving one that matches this.

It was written from docs/headline.md, in another language and another form than the definitions.
"""

from __future__ import annotations

from collections.abc import Collection, Iterator

from dorydate.model.audit import match
from dorydate.model.book import Life
from dorydate.model.crossings import Crossing, Passed
from dorydate.model.names import HostName
from dorydate.model.was_sent import Lives, Log, WasSent

CONTROL = 0  # the link of commands
SENT = WasSent()


class Between:
    """Finds the lives of messages. `misread_between` has wrong readings."""

    def is_asked(self, crossing: Crossing, strangers: Collection[HostName]) -> bool:
        """Whether a message of data went out by a crossing, from a host that is no stranger to another one."""
        if not isinstance(crossing, Passed) or crossing.kind != "out" or crossing.flow.link == CONTROL:
            return False
        return not {crossing.flow.source, crossing.flow.destination} & {*strangers}

    def counted(self, log: Log, life: Life) -> list[int]:
        """Where the messages went out that a sending life counts."""
        return SENT.counted(log, life)

    def has_taker(self, log: Log, lives: Lives, sender: Life) -> bool:
        """Whether a receiving life matches a sending one."""
        return any(match(log, it, sender) for it in lives)

    def has_lives(self, log: Log, lives: Lives, senders: Lives) -> bool:
        """Whether one of the lives that count a message is one that a receiving life matches."""
        return any(self.has_taker(log, lives, it) for it in senders)

    def bare(self, log: Log, lives: Lives, strangers: Collection[HostName] = ()) -> Iterator[int]:
        """The places of the messages of data that haven't two lives."""
        senders: dict[int, list[Life]] = {}
        for life in lives:
            for place in [] if life.receives() else self.counted(log, life):
                senders.setdefault(place, []).append(life)
        for place, crossing in enumerate(log):
            if self.is_asked(crossing, strangers) and not self.has_lives(log, lives, senders.get(place, [])):
                yield place

    def broken(self, log: Log, lives: Lives, strangers: Collection[HostName] = ()) -> int | None:
        """The place of the first of these, None where there is none."""
        return next(self.bare(log, lives, strangers), None)


broken = Between().broken
