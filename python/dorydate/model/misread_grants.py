"""Wrong readings of what ALLs grant a life that sends: some log by hand has to distinguish each from the right one."""

from __future__ import annotations

from collections.abc import Iterator, Sequence

from dorydate.model.audit import CONTROL, Log, is_passed
from dorydate.model.book import Life
from dorydate.model.commands import ALL, RET, read_numbers
from dorydate.model.crossings import Crossing, Passed
from dorydate.model.firsts import Firsts
from dorydate.model.names import Flow
from dorydate.model.verdict import Judge

Amounts = tuple[int, int]  # messages and bits


class Alls(Firsts):
    """Sums ALLs, each of whose conditions is a method."""

    def first(self, life: Life) -> int:
        """The first place whose ALLs count."""
        return max(life.own + 1, life.partner)

    def is_taken(self, crossing: Crossing, life: Life) -> bool:
        """Whether this is a message with commands that the life's host took from the peer."""
        return is_passed(crossing, "in", Flow(life.peer, life.host, CONTROL))

    def counts(self, command: bytes, link: int) -> bool:
        """Whether a command is an ALL on a link."""
        return command[0] == ALL and command[1] == link

    def alls(self, log: Sequence[Crossing], life: Life, link: int) -> Iterator[Amounts]:
        """What each ALL grants."""
        for crossing in log[self.first(life) :]:
            if isinstance(crossing, Passed) and self.is_taken(crossing, life):
                for command in filter(lambda it: self.counts(it, link), self.commands(crossing.text)):
                    _, messages, bits = read_numbers(command, 1, 2, 4)
                    yield messages, bits

    def granted(self, log: Sequence[Crossing], life: Life, link: int) -> Amounts:
        found = [*self.alls(log, life, link)]
        return sum(it for it, _ in found), sum(it for _, it in found)


class OnAnyLink(Alls):
    def counts(self, command: bytes, link: int) -> bool:
        return command[0] == ALL


class BeforeItsOwnRequest(Alls):
    def first(self, life: Life) -> int:
        return life.partner


class BeforeBothRequests(Alls):
    def first(self, life: Life) -> int:
        return life.own + 1


class AfterThePartners(Alls):
    def first(self, life: Life) -> int:
        return max(life.own, life.partner) + 1


class FirstAll(Alls):
    def granted(self, log: Sequence[Crossing], life: Life, link: int) -> Amounts:
        return next(self.alls(log, life, link), (0, 0))


class WhatWentOut(Alls):
    def is_taken(self, crossing: Crossing, life: Life) -> bool:
        return is_passed(crossing, "out", Flow(life.peer, life.host, CONTROL))


class OfAnyHost(Alls):
    def is_taken(self, crossing: Crossing, life: Life) -> bool:
        return isinstance(crossing, Passed) and (crossing.kind, crossing.flow[1:]) == ("in", (life.host, CONTROL))


class LessWhatCameBack(Alls):
    def granted(self, log: Sequence[Crossing], life: Life, link: int) -> Amounts:
        messages, bits = super().granted(log, life, link)
        for crossing in log[self.first(life) :]:
            if isinstance(crossing, Passed) and is_passed(crossing, "out", Flow(life.host, life.peer, CONTROL)):
                for command in self.commands(crossing.text):
                    if command[0] == RET and command[1] == link:
                        _, fewer, shorter = read_numbers(command, 1, 2, 4)
                        messages, bits = messages - fewer, bits - shorter
        return messages, bits


class NoAlls(Judge):
    """What ALLs grant is not looked at."""

    def is_within(self, log: Log, life: Life) -> bool:
        return True


class OfAnyLink(Judge):
    """An ALL on another link counts."""

    firsts = OnAnyLink


class Sooner(Judge):
    """An ALL counts that came in before the life's own request went out."""

    firsts = BeforeItsOwnRequest


class SoonerThanItsPartner(Judge):
    """An ALL counts that came in before the partner's request."""

    firsts = BeforeBothRequests


class Later(Judge):
    """An ALL in the message with the partner's request doesn't count."""

    firsts = AfterThePartners


class NoSecond(Judge):
    """Only the first ALL counts."""

    firsts = FirstAll


class NotTaken(Judge):
    """An ALL counts that went out, whether it was taken or not."""

    firsts = WhatWentOut


class OfAnybody(Judge):
    """Any host's ALL counts."""

    firsts = OfAnyHost


class Returned(Judge):
    """RET takes off what ALLs grant."""

    firsts = LessWhatCameBack


class BitsAlone(Judge):
    """Only the bits are looked at."""

    def is_within(self, log: Log, life: Life) -> bool:
        links, _ = self.firsts().requested(log, life)
        return not links or len(life.bits) <= self.firsts().granted(log, life, links[0])[1]


class MessagesAlone(Judge):
    """Only the messages are looked at."""

    def is_within(self, log: Log, life: Life) -> bool:
        links, _ = self.firsts().requested(log, life)
        return not links or life.messages <= self.firsts().granted(log, life, links[0])[0]


class NoLink(Judge):
    """Of a life whose link no RTS names nothing may be sent."""

    def is_within(self, log: Log, life: Life) -> bool:
        return bool(self.firsts().requested(log, life)[0]) and super().is_within(log, life)


class AtOnce(Judge):
    """An ALL counts that came in before the life's first message went out."""

    def is_within(self, log: Log, life: Life) -> bool:
        links, _ = self.firsts().requested(log, life)
        out = [at for at, it in enumerate(log) if links and is_passed(it, "out", Flow(life.host, life.peer, links[0]))]
        return super().is_within(log[: out[0]] if out else log, life)


JUDGES = NoAlls, OfAnyLink, Sooner, SoonerThanItsPartner, Later, NoSecond, NotTaken, OfAnybody, Returned, BitsAlone, MessagesAlone, NoLink, AtOnce
