"""Which message of its partner each one is that a receiving life counts: the k-th of the one is the k-th of the other, whatever their bits.

It was written from docs/headline.md, in another language and another form than the definitions.
"""

from __future__ import annotations

from collections.abc import Sequence

from dorydate.model.audit import last_out, match
from dorydate.model.book import Life
from dorydate.model.crossings import Crossing
from dorydate.model.firsts import RIGHT, on_link
from dorydate.model.names import Flow

Log = Sequence[Crossing]
Lives = Sequence[Life]


class WasSent:
    """Of which message of its partner each one is that a life counts. `misread_sent` has wrong readings."""

    def flow(self, log: Log, life: Life) -> Flow | None:
        """The flow of a life's messages, on the link that the RTS of its two requests names."""
        links, _ = RIGHT.requested(log, life)
        return on_link(life, links[0]) if links else None

    def counted(self, log: Log, life: Life) -> list[int]:
        """Where the messages crossed that a life counts: the first on its link after both its requests."""
        return self.crossed(log, life)[: life.messages]

    def crossed(self, log: Log, life: Life) -> list[int]:
        """Where messages crossed on a life's link after both its requests."""
        flow = self.flow(log, life)
        return [at for at, _ in RIGHT.messages_on(log, life, flow)] if flow else []

    def went_out(self, log: Log, flow: Flow, taken: int) -> int | None:
        """Where a message went out that was taken at a place: the last one of its flow before that."""
        return last_out(log, flow, taken)

    def outs(self, log: Log, receiver: Life) -> list[int | None]:
        """Where the messages went out that a receiving life counts."""
        flow = self.flow(log, receiver)
        return [self.went_out(log, flow, at) for at in self.counted(log, receiver)] if flow else []

    def is_nth(self, outs: Sequence[int | None], nth: int, sent: Sequence[int]) -> bool:
        """Whether the one with a number of these is the one with that number of those that a life sent."""
        return nth < len(sent) and outs[nth] == sent[nth]

    def is_kept(self, log: Log, lives: Lives, receiver: Life) -> bool:
        """Whether each message that a receiving life counts is, with its number, one that a life counts which it matches."""
        outs, sent = self.outs(log, receiver), [self.counted(log, it) for it in lives if match(log, receiver, it)]
        return all(any(self.is_nth(outs, nth, it) for it in sent) for nth in range(len(outs)))

    def broken(self, log: Log, lives: Lives) -> Life | None:
        """The first receiving life that counts another message than its partner; None where there is none."""
        return next((it for it in lives if it.receives() and not self.is_kept(log, lives, it)), None)


broken = WasSent().broken
