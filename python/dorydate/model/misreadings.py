"""Readings of the safe book that are wrong in one place each: some book by hand distinguishes each from the right one."""

from __future__ import annotations

from collections.abc import Sequence

from dorydate.model.audit import Asked, Lives, Log, SafeBook, Sent, is_passed
from dorydate.model.bits import Bits
from dorydate.model.book import Life
from dorydate.model.names import Flow

# ---- messages


class AnyText(SafeBook):
    """A taking may have another text than what went out."""

    def may_be_taken(self, messages: Sequence[Sent], text: Bits) -> bool:
        return bool(messages) and not messages[-1].is_taken


class TakenTwice(SafeBook):
    """A message may be taken twice."""

    def may_be_taken(self, messages: Sequence[Sent], text: Bits) -> bool:
        return bool(messages) and messages[-1].text == text


class TakenUnsent(SafeBook):
    """A taking needs no message."""

    def may_be_taken(self, messages: Sequence[Sent], text: Bits) -> bool:
        return not messages or super().may_be_taken(messages, text)


class AnsweredUntaken(SafeBook):
    """An RFNM needs no taking."""

    def may_be_answered(self, messages: Sequence[Sent]) -> bool:
        return bool(messages)


class AnsweredLate(SafeBook):
    """An RFNM may be about an older message."""

    def may_be_answered(self, messages: Sequence[Sent]) -> bool:
        return any(it.is_taken for it in messages)


# ---- partners


class PlaceOnly(SafeBook):
    """A request is known by its place only."""

    def own_request(self, life: Life) -> Asked:
        return life.own, 0, 0

    def partner_request(self, log: Log, life: Life) -> Asked:
        return super().partner_request(log, life)[0], 0, 0


class WhereTaken(SafeBook):
    """A partner's request is where it was taken."""

    def partner_request(self, log: Log, life: Life) -> Asked:
        return life.partner, life.foreign, life.socket


class FirstOfFlow(SafeBook):
    """A partner's request is the first of its flow."""

    def last_out(self, log: Log, flow: Flow, place: int) -> int | None:
        return next((at for at in range(place) if is_passed(log[at], "out", flow)), None)


class OneOwn(SafeBook):
    """Two lives may have one own request."""

    def own_differ(self, own: Sequence[Asked]) -> bool:
        return True


class OnePartner(SafeBook):
    """Two lives may have one partner's request."""

    def partners_differ(self, partner: Sequence[Asked]) -> bool:
        return True


class OtherPartner(SafeBook):
    """A partner may have another partner."""

    def are_mutual(self, own: Sequence[Asked], partner: Sequence[Asked]) -> bool:
        return True


class NoRequest(SafeBook):
    """A life needs no partner's request."""

    def went_out(self, partner: Sequence[Asked]) -> bool:
        return True


class AnyHost(SafeBook):
    """A partner may be another host's."""

    def hosts_fit(self, lives: Lives, own: Sequence[Asked], partner: Sequence[Asked]) -> bool:
        return True


class BothLive(SafeBook):
    """Every life has a partner's life."""

    def are_mutual(self, own: Sequence[Asked], partner: Sequence[Asked]) -> bool:
        return {*partner} <= {*own} and super().are_mutual(own, partner)


# ---- streams


class SameSockets(SafeBook):
    """The same sockets are a match."""

    def have_same_requests(self, log: Log, receiver: Life, sender: Life) -> bool:
        return True


class TookWithoutMatch(SafeBook):
    """A life that took anything needs no match."""

    def has_its_sender(self, receiver: Life, senders: Sequence[Life]) -> bool:
        return len(senders) <= 1


class MatchForNothing(SafeBook):
    """A life that took nothing needs a match."""

    def has_its_sender(self, receiver: Life, senders: Sequence[Life]) -> bool:
        return len(senders) == 1


class AllThatWasSent(SafeBook):
    """What was taken is all that was sent."""

    def is_prefix(self, taken: Bits, sent: Bits) -> bool:
        return sent == taken


class EndOfWhatWasSent(SafeBook):
    """What was taken is the end of what was sent."""

    def is_prefix(self, taken: Bits, sent: Bits) -> bool:
        return sent.endswith(taken)


class PartOfWhatWasSent(SafeBook):
    """What was taken is somewhere in what was sent."""

    def is_prefix(self, taken: Bits, sent: Bits) -> bool:
        return taken in sent


class NotHandedOver(SafeBook):
    """What was sent need not be handed over."""

    def was_handed_over(self, life: Life) -> bool:
        return True


class AllHandedOver(SafeBook):
    """What was sent is all that was handed over."""

    def was_handed_over(self, life: Life) -> bool:
        return life.handed == life.bits


# ---- grants


class AnyMessages(SafeBook):
    """Messages are not granted."""

    def is_granted(self, receiver: Life, messages: int, bits: int) -> bool:
        return bits + receiver.returned[1] <= receiver.granted[1]


class AnyBits(SafeBook):
    """Bits are not granted."""

    def is_granted(self, receiver: Life, messages: int, bits: int) -> bool:
        return messages + receiver.returned[0] <= receiver.granted[0]


class ReturnedIsSent(SafeBook):
    """What was returned may be sent."""

    def is_granted(self, receiver: Life, messages: int, bits: int) -> bool:
        return messages <= receiver.granted[0] and bits <= receiver.granted[1]


class SentUngranted(SafeBook):
    """What was sent need not be granted."""

    def counted(self, receiver: Life, senders: Sequence[Life]) -> list[Life]:
        return [receiver]


class TakenUngranted(SafeBook):
    """What was taken need not be granted."""

    def counted(self, receiver: Life, senders: Sequence[Life]) -> list[Life]:
        return [*senders]


MISREADINGS: list[type[SafeBook]] = [
    AnyText, TakenTwice, TakenUnsent, AnsweredUntaken, AnsweredLate,
    PlaceOnly, WhereTaken, FirstOfFlow, OneOwn, OnePartner, OtherPartner, NoRequest, AnyHost, BothLive,
    SameSockets, TookWithoutMatch, MatchForNothing, AllThatWasSent, EndOfWhatWasSent, PartOfWhatWasSent, NotHandedOver, AllHandedOver,
    AnyMessages, AnyBits, ReturnedIsSent, SentUngranted, TakenUngranted,
]  # fmt: skip
