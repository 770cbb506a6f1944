"""Wrong readings of which message of its partner each one is that a life counts: some log by hand has to distinguish each from the right one."""

from __future__ import annotations

from collections.abc import Iterator, Sequence

from dorydate.model.book import Life
from dorydate.model.crossings import Passed
from dorydate.model.names import Flow
from dorydate.model.was_sent import Lives, Log, WasSent


class FirstOut(WasSent):
    """A message that was taken is the first of its flow that went out."""

    def went_out(self, log: Log, flow: Flow, taken: int) -> int | None:
        return next((at for at, it in enumerate(log[:taken]) if isinstance(it, Passed) and (it.kind, it.flow) == ("out", flow)), None)


class OnAnyLink(WasSent):
    """It may have gone out on another link."""

    def went_out(self, log: Log, flow: Flow, taken: int) -> int | None:
        outs = [at for at, it in enumerate(log[:taken]) if isinstance(it, Passed) and it.kind == "out" and it.flow[:2] == flow[:2]]
        return outs[-1] if outs else None


class AnyOrder(WasSent):
    """Any of the partner's messages will do."""

    def is_nth(self, outs: Sequence[int | None], nth: int, sent: Sequence[int]) -> bool:
        return outs[nth] in sent


class InOrder(WasSent):
    """The partner's messages come in their order, some of them not at all."""

    def is_nth(self, outs: Sequence[int | None], nth: int, sent: Sequence[int]) -> bool:
        left: Iterator[int | None] = iter(sent)
        return all(at in left for at in outs[: nth + 1])


class AsMany(WasSent):
    """There are as many messages."""

    def is_nth(self, outs: Sequence[int | None], nth: int, sent: Sequence[int]) -> bool:
        return nth < len(sent)


class AllOfThem(WasSent):
    """All that the partner sent was taken."""

    def is_nth(self, outs: Sequence[int | None], nth: int, sent: Sequence[int]) -> bool:
        return [*outs] == [*sent]


class OfOlderToo(WasSent):
    """What went out on the link before both requests is the partner's too."""

    def counted(self, log: Log, life: Life) -> list[int]:
        if life.receives():
            return super().counted(log, life)
        flow = self.flow(log, life)
        return [at for at, it in enumerate(log) if isinstance(it, Passed) and (it.kind, it.flow) == ("out", flow)][: life.messages]


class AllOnTheLink(WasSent):
    """A life counts all that crossed on its link."""

    def counted(self, log: Log, life: Life) -> list[int]:
        return self.crossed(log, life)


class WithoutPartner(WasSent):
    """A life that took no bits needs no partner."""

    def is_kept(self, log: Log, lives: Lives, receiver: Life) -> bool:
        return not receiver.bits or super().is_kept(log, lives, receiver)


MISREADINGS = FirstOut, OnAnyLink, AnyOrder, InOrder, AsMany, AllOfThem, OfOlderToo, AllOnTheLink, WithoutPartner
