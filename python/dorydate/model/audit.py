"""Whether a book of connections is safe, computed over a log, its lives and what was handed over to be sent.

It was written from the safe book as docs/world.md has it, in another language and another form than the definitions. It
looks at crossings and lives only, and knows nothing of hosts' programs. Each word of it that can be read in another way is
a method of its own: `misreadings` has those readings.
"""

from __future__ import annotations

from collections.abc import Iterable, Iterator, Sequence
from dataclasses import dataclass
from typing import Optional

from dorydate.model.bits import Bits
from dorydate.model.book import Life
from dorydate.model.crossings import Answered, Crossing, Passed
from dorydate.model.names import Flow, HostName

CONTROL = 0  # the link of requests
PARTS = ["messages", "partners", "streams", "grants"]

Log = Sequence[Crossing]
Lives = Sequence[Life]
Asked = tuple[Optional[int], int, int]  # a request: the place where its message went out, and its two sockets as its sender sees them


@dataclass
class Sent:
    """A message that went out: its text, and whether it was taken."""

    text: Bits
    is_taken: bool = False


class SafeBook:
    """The safe book, part by part."""

    # ---- messages

    def may_be_taken(self, messages: Sequence[Sent], text: Bits) -> bool:
        """Whether a text may be taken on a flow on which these messages went out: it is that of the last one, which was not taken."""
        return bool(messages) and not messages[-1].is_taken and messages[-1].text == text

    def may_be_answered(self, messages: Sequence[Sent]) -> bool:
        """Whether an RFNM may come on a flow on which these messages went out: the last one was taken."""
        return bool(messages) and messages[-1].is_taken

    def messages_are_kept(self, log: Log) -> bool:
        """Each RFNM belongs to one message that was taken once, with its text; and no message is taken twice."""
        sent: dict[Flow, list[Sent]] = {}
        for crossing in log:
            if isinstance(crossing, Passed):
                messages = sent.setdefault(crossing.flow, [])
                if crossing.kind == "in" and not self.may_be_taken(messages, crossing.text):
                    return False
                if crossing.kind == "out" or not messages:
                    messages.append(Sent(crossing.text))
                messages[-1].is_taken = crossing.kind == "in"
            elif isinstance(crossing, Answered) and crossing.answer == "rfnm":
                if not self.may_be_answered(sent.get(crossing.flow, [])):
                    return False
        return True

    # ---- requests and partners

    def last_out(self, log: Log, flow: Flow, place: int) -> int | None:
        """The place of a flow's last message that went out before a place, None where there is none."""
        for at in range(place - 1, -1, -1):
            crossing = log[at]
            if crossing.kind == "out" and crossing.flow == flow:
                return at
        return None

    def own_request(self, life: Life) -> Asked:
        """The request of a life: its stamp names its message."""
        return life.own, life.socket, life.foreign

    def partner_request(self, log: Log, life: Life) -> Asked:
        """The partner's request was taken from the peer's last control message that went out before."""
        place = self.last_out(log, Flow(life.peer, life.host, CONTROL), life.partner)
        return place, life.foreign, life.socket

    def is_well_formed(self, log: Log, lives: Iterable[Life]) -> bool:
        """Whether the stamps of each life name a control message that went out and one that came in."""
        for life in lives:
            if not (life.own < len(log) and is_passed(log[life.own], "out", Flow(life.host, life.peer, CONTROL))):
                return False
            came = life.partner < len(log) and is_passed(log[life.partner], "in", Flow(life.peer, life.host, CONTROL))
            if not came or self.partner_request(log, life)[0] is None:
                return False
        return True

    def own_differ(self, own: Sequence[Asked]) -> bool:
        """No request is two lives' own."""
        return len({*own}) == len(own)

    def partners_differ(self, partner: Sequence[Asked]) -> bool:
        """No request is two lives' partner's."""
        return len({*partner}) == len(partner)

    def went_out(self, partner: Sequence[Asked]) -> bool:
        """Each life's partner's request went out."""
        return all(place is not None for place, *_ in partner)

    def hosts_fit(self, lives: Lives, own: Sequence[Asked], partner: Sequence[Asked]) -> bool:
        """Where a life's partner's request is another life's own, each is of the other one's peer."""
        ends = {mine: (life.host, life.peer) for mine, life in zip(own, lives)}
        return all(ends[asked] == (life.peer, life.host) for asked, life in zip(partner, lives) if asked in ends)

    def are_mutual(self, own: Sequence[Asked], partner: Sequence[Asked]) -> bool:
        """The partner of a life's partner is that life."""
        return all(partner[own.index(asked)] == mine for mine, asked in zip(own, partner) if asked in own)

    def partners_are_kept(self, log: Log, lives: Lives) -> bool:
        """No request is two lives' own, or two lives' partner's; each life has one of its partner's, and the partner of a life's partner is that life."""
        own = [self.own_request(life) for life in lives]
        partner = [self.partner_request(log, life) for life in lives]
        differ = self.own_differ(own) and self.partners_differ(partner)
        return differ and self.went_out(partner) and self.hosts_fit(lives, own, partner) and self.are_mutual(own, partner)

    # ---- streams

    def have_same_requests(self, log: Log, receiver: Life, sender: Life) -> bool:
        """Whether each life's partner's request is the other's own."""
        return self.partner_request(log, receiver) == self.own_request(sender) and self.partner_request(log, sender) == self.own_request(receiver)

    def match(self, log: Log, receiver: Life, sender: Life) -> bool:
        """Whether a receiving life and a sending one are one connection."""
        return (
            receiver.receives()
            and not sender.receives()
            and (receiver.peer, receiver.foreign) == (sender.host, sender.socket)
            and (sender.peer, sender.foreign) == (receiver.host, receiver.socket)
            and self.have_same_requests(log, receiver, sender)
        )

    def matches(self, log: Log, lives: Lives) -> Iterator[tuple[Life, list[Life]]]:
        """Each receiving life with the sending lives that it matches."""
        senders: dict[tuple[HostName, int, HostName, int], list[Life]] = {}
        for life in lives:
            senders.setdefault((life.host, life.socket, life.peer, life.foreign), []).append(life)
        for life in filter(Life.receives, lives):
            found = senders.get((life.peer, life.foreign, life.host, life.socket), [])
            yield life, [it for it in found if self.match(log, life, it)]

    def has_its_sender(self, receiver: Life, senders: Sequence[Life]) -> bool:
        """A life that took anything has one sender; one that took nothing has at most one."""
        return len(senders) == 1 or not senders and not receiver.bits

    def is_prefix(self, taken: Bits, sent: Bits) -> bool:
        """Whether what was taken is a prefix of what was sent."""
        return sent.startswith(taken)

    def was_handed_over(self, life: Life) -> bool:
        """Whether what was sent is a prefix of what was handed over."""
        return life.handed.startswith(life.bits)

    def streams_are_kept(self, log: Log, lives: Lives) -> bool:
        """What was taken is a prefix of what the one sender sent, and that a prefix of what was handed over to it."""
        for receiver, senders in self.matches(log, lives):
            if not self.has_its_sender(receiver, senders) or not all(self.is_prefix(receiver.bits, it.bits) for it in senders):
                return False
        return all(life.receives() or self.was_handed_over(life) for life in lives)

    # ---- grants

    def is_granted(self, receiver: Life, messages: int, bits: int) -> bool:
        """Whether so much, with what was returned, is no more than was granted."""
        return messages + receiver.returned[0] <= receiver.granted[0] and bits + receiver.returned[1] <= receiver.granted[1]

    def counted(self, receiver: Life, senders: Sequence[Life]) -> list[Life]:
        """The lives whose counts have to be granted: that which took, and that which sent."""
        return [receiver, *senders]

    def grants_are_kept(self, log: Log, lives: Lives) -> bool:
        """What was taken, and what was sent, is with what was returned no more than was granted."""
        for receiver, senders in self.matches(log, lives):
            if not all(self.is_granted(receiver, it.messages, len(it.bits)) for it in self.counted(receiver, senders)):
                return False
        return True

    # ---- the book

    def audit(self, log: Log, lives: Lives) -> str | None:
        """The first part that a book breaks, "malformed" where its stamps name nothing, None where it is safe."""
        if not self.is_well_formed(log, lives):
            return "malformed"
        if not self.messages_are_kept(log):
            return "messages"
        if not self.partners_are_kept(log, lives):
            return "partners"
        if not self.streams_are_kept(log, lives):
            return "streams"
        return None if self.grants_are_kept(log, lives) else "grants"


def is_passed(crossing: Crossing, kind: str, flow: Flow) -> bool:
    """Whether a crossing is a message of this flow that went out, or came in."""
    return isinstance(crossing, Passed) and crossing.kind == kind and crossing.flow == flow


RIGHT = SafeBook()
audit, match, is_granted, is_well_formed = RIGHT.audit, RIGHT.match, RIGHT.is_granted, RIGHT.is_well_formed
messages_are_kept, partners_are_kept = RIGHT.messages_are_kept, RIGHT.partners_are_kept
last_out, own_request, partner_request = RIGHT.last_out, RIGHT.own_request, RIGHT.partner_request
