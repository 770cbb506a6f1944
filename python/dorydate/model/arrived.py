"""What RFNM of data means: they are among the bits of the receiving life, if that is open or has ended.

It was written from docs/headline.md, in another language and another form than the definitions.
"""

from __future__ import annotations

from collections.abc import Iterator, Sequence
from typing import NamedTuple

from dorydate.model.audit import CONTROL, match
from dorydate.model.book import Life
from dorydate.model.crossings import Answered, Crossing, Passed
from dorydate.model.firsts import flow_of, messages_of
from dorydate.model.names import Flow

Log = Sequence[Crossing]
Lives = Sequence[Life]


class Rfnm(NamedTuple):
    """A message of data of which its host got RFNM: its flow, and the places where it went out and came in."""

    flow: Flow
    out: int
    taken: int


class Arrived:
    """What an open life has, and what RFNM of data means. `misread_arrived` has wrong readings."""

    def is_unclosed(self, life: Life) -> bool:
        """Whether nobody at its host closed a life, and it was neither reset nor stopped."""
        return life.fate in ("open", "ended")

    def places(self, log: Log, life: Life) -> list[int]:
        """Where the messages on a life's link crossed after both its requests."""
        return [at for at, _ in messages_of(log, life)]

    def counted(self, log: Log, life: Life) -> list[int]:
        """Where those crossed whose data are its bits."""
        return self.places(log, life)[: life.messages]

    def has_all(self, log: Log, life: Life) -> bool:
        """Whether a receiving life counts all that came in on its link, if it is open."""
        return life.fate != "open" or life.messages == len(self.places(log, life))

    def rfnms(self, log: Log) -> Iterator[Rfnm]:
        """The messages of data of which their hosts got RFNM."""
        went: dict[Flow, int] = {}
        came: dict[Flow, int] = {}
        for at, crossing in enumerate(log):
            if isinstance(crossing, Passed):
                (went if crossing.kind == "out" else came)[crossing.flow] = at
            elif isinstance(crossing, Answered) and crossing.answer == "rfnm" and crossing.flow.link != CONTROL:
                yield Rfnm(crossing.flow, went[crossing.flow], came[crossing.flow])

    def has_arrived(self, log: Log, lives: Lives, message: Rfnm) -> bool:
        """Whether a message is one of a sending life, and of the receiving one that this matches."""
        on_flow = [it for it in lives if not it.receives() and flow_of(log, it) == message.flow]
        senders = [it for it in on_flow if message.out in self.counted(log, it)]
        unclosed = [it for it in lives if it.receives() and self.is_unclosed(it)]
        receivers = [it for it in unclosed for sender in senders if match(log, it, sender)]
        have_it = all(message.taken in self.counted(log, it) for it in receivers)
        return len(senders) == 1 and message.out < message.taken and have_it

    def broken(self, log: Log, lives: Lives) -> str | None:
        """What a book breaks."""
        if not all(self.has_all(log, it) for it in lives if it.receives()):
            return "an open life has all that came in on its link"
        have_arrived = all(self.has_arrived(log, lives, it) for it in self.rfnms(log))
        return None if have_arrived else "an RFNM of data means that they arrived"


broken = Arrived().broken
