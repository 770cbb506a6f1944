"""What a log says of the bits of its lives: those of the first messages on each life's link, after both of its requests. So a log determines them.

It was written from docs/headline.md and docs/audit.md, in another language and another form than the definitions.
"""

from __future__ import annotations

from collections.abc import Iterable, Iterator, Sequence
from typing import NamedTuple, Optional

from dorydate.model.audit import CONTROL, is_passed
from dorydate.model.bits import Bits, octets
from dorydate.model.book import Life
from dorydate.model.commands import ALL, CONTROL_TEXT, HEADER, LENGTHS, LINKS, RTS, STR, read_numbers, split
from dorydate.model.crossings import Crossing, Passed
from dorydate.model.names import Flow

Data = Optional[Bits]  # None where a text that comes in is malformed


class Placed(NamedTuple):
    """A life, the flow of its link, and the places of the messages that it counts."""

    life: Life
    flow: Flow
    places: list[int]


class Firsts:
    """Finds the messages of lives. `misread_logs` has readings that are wrong in one place each."""

    def commands(self, text: Bits) -> Iterator[bytes]:
        """The commands of a control text, up to the first that has no code or not all its octets."""
        parts = split(text)
        short = parts is not None and parts.size == 8 and parts.number <= CONTROL_TEXT
        left = octets(parts.following[: 8 * parts.number]) if parts and short else b""
        while left and left[0] in LENGTHS and len(left) >= LENGTHS[left[0]]:
            yield left[: LENGTHS[left[0]]]
            left = left[LENGTHS[left[0]] :]

    def named(self, text: Bits, own: int, foreign: int) -> Iterator[int]:
        """What the requests of two sockets name in a control text: an RTS a link, an STR a byte size."""
        return self.named_in(self.commands(text), own, foreign)

    def named_in(self, commands: Iterable[bytes], own: int, foreign: int) -> Iterator[int]:
        """The same of commands."""
        code, may_be = (STR, range(1, 256)) if own % 2 else (RTS, LINKS)
        for command in commands if own % 2 != foreign % 2 else ():
            if command[0] == code and read_numbers(command, 4, 4) == [own, foreign] and command[9] in may_be:
                yield command[9]

    def named_at(self, log: Sequence[Crossing], place: int, kind: str, flow: Flow, own: int, foreign: int) -> list[int]:
        """The same of the message of a flow that went out, or came in, at a place."""
        crossing = log[place] if place < len(log) else None
        return [*self.named(crossing.text, own, foreign)] if isinstance(crossing, Passed) and is_passed(crossing, kind, flow) else []

    def requested(self, log: Sequence[Crossing], life: Life) -> tuple[list[int], list[int]]:
        """What a life's two requests name, in what crossed at its stamps: the RTS links, and the STR byte sizes."""
        own = self.named_at(log, life.own, "out", Flow(life.host, life.peer, CONTROL), life.socket, life.foreign)
        partner = self.named_at(log, life.partner, "in", Flow(life.peer, life.host, CONTROL), life.foreign, life.socket)
        return (own, partner) if life.receives() else (partner, own)

    def links(self, log: Sequence[Crossing], life: Life) -> list[int]:
        """The links that the RTS of a life's two requests names, where the STR crossed too: several where its message holds more than one."""
        links, sizes = self.requested(log, life)
        return links if sizes else []

    def link(self, log: Sequence[Crossing], life: Life) -> int | None:
        """The link of a life: the first request of its sockets in a message counts."""
        return next(iter(self.links(log, life)), None)

    def granted(self, log: Sequence[Crossing], life: Life, link: int) -> tuple[int, int]:
        """How many messages and bits the ALLs on a link grant that a sending life's host took from the peer, after its own request and in the
        message with the peer's or after it."""
        messages, bits = 0, 0
        for crossing in log[max(life.own + 1, life.partner) :]:
            if isinstance(crossing, Passed) and is_passed(crossing, "in", Flow(life.peer, life.host, CONTROL)):
                for command in self.commands(crossing.text):
                    if command[0] == ALL and command[1] == link:
                        _, more, longer = read_numbers(command, 1, 2, 4)
                        messages, bits = messages + more, bits + longer
        return messages, bits

    def begun(self, life: Life) -> int:
        """The place after which a life's messages cross."""
        return max(life.own, life.partner)

    def messages_on(self, log: Sequence[Crossing], life: Life, flow: Flow) -> list[tuple[int, Data]]:
        """The data of the messages on a flow after both of a life's requests, each with its place, the oldest first."""
        way, first = "in" if life.receives() else "out", self.begun(life) + 1
        return [(at, data(it.text, life.receives())) for at, it in enumerate(log[first:], first) if isinstance(it, Passed) and it.kind == way and it.flow == flow]

    def are_enough(self, life: Life, first: Sequence[tuple[int, Data]]) -> bool:
        """Whether there are as many messages as a life counts."""
        return len(first) == life.messages

    def placed(self, log: Sequence[Crossing], life: Life) -> Placed | None:
        """A life with the first messages on its link; None where they aren't as many as it counts, or have other bits."""
        link = self.link(log, life)
        return None if link is None else self.placed_on(log, life, on_link(life, link))

    def placed_on(self, log: Sequence[Crossing], life: Life, flow: Flow) -> Placed | None:
        """A life with the first messages on a flow, if they are as many as it counts, and have its bits."""
        first = self.messages_on(log, life, flow)[: life.messages]
        bits = [bits for _, bits in first if bits is not None]
        is_made = self.are_enough(life, first) and len(bits) == len(first) and "".join(bits) == life.bits
        return Placed(life, flow, [at for at, _ in first]) if is_made else None


def on_link(life: Life, link: int) -> Flow:
    """The flow of a life's messages on a link."""
    return Flow(life.peer, life.host, link) if life.receives() else Flow(life.host, life.peer, link)


def data(text: Bits, comes: bool) -> Data:
    """The data of a text: where it comes in what its header announces, and where it goes out all after the header."""
    parts = split(text)
    if not comes:
        return text[HEADER:]
    return parts.following[: parts.size * parts.number] if parts else None


RIGHT = Firsts()
placed = RIGHT.placed


def flow_of(log: Sequence[Crossing], life: Life) -> Flow | None:
    """The flow of a life's messages; None where its requests didn't cross at its stamps."""
    link = RIGHT.link(log, life)
    return None if link is None else on_link(life, link)


def messages_of(log: Sequence[Crossing], life: Life) -> list[tuple[int, Data]]:
    """The data of the messages on a life's link after both of its requests, each with its place, the oldest first."""
    flow = flow_of(log, life)
    return RIGHT.messages_on(log, life, flow) if flow else []


def determined(log: Sequence[Crossing], lives: Sequence[Life]) -> bool:
    """Whether each life's messages are the first on its link, each message out is of one sending life, and lives of one flow follow one another."""
    found = [placed(log, life) for life in lives]
    known = [it for it in found if it is not None]
    sending = [it for it in known if not it.life.receives()]
    out = [at for at, it in enumerate(log) if isinstance(it, Passed) and it.kind == "out" and it.flow.link]
    follow = all(
        max(one.places, default=-1) < max(next_one.life.own, next_one.life.partner)
        for at, one in enumerate(sending)
        for next_one in sending[at + 1 :]
        if one.flow == next_one.flow and next_one.places
    )
    return len(known) == len(lives) and follow and sorted(at for it in sending for at in it.places) == out
