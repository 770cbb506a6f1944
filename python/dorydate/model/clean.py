"""What a host may take after a reset, computed over a log and the contacts that users asked for.

It was written from the law of clean resets as docs/world.md has it, in another language and another form than the
definitions: it knows no phases, only what was asked for, what crossed and what was answered.
"""

from __future__ import annotations

from collections.abc import Collection, Iterable, Sequence
from typing import Literal

from dorydate.model.bits import Bits
from dorydate.model.commands import RRP, RST, split
from dorydate.model.crossings import Answered, Crossing, Passed, Turned
from dorydate.model.names import Flow, HostName


def signal_of(link: int, text: Bits) -> int | None:
    """RST or RRP where a message is just one of them, else None."""
    parts = split(text) if link == 0 else None
    if parts is None or (parts.size, parts.number) != (8, 1):
        return None
    code = int(parts.following[:8], 2)
    return code if code in (RST, RRP) else None


class Watch:
    """What a log says so far of one host's resets with one peer, since that host came up."""

    def __init__(self) -> None:
        self.is_pending = False  # a contact
        self.reset: Literal["out", "answered"] | None = None  # its last RST
        self.is_early = False  # an RRP came between that RST and its RFNM
        self.since: set[int] = set()  # links of messages that went out after that RST and have no answer
        self.is_owed = False  # an RRP
        self.clean: int | None = None  # the place of the last clean point

    def ask(self) -> None:
        """The user asks for a contact."""
        self.is_pending, self.reset, self.is_early, self.since = True, None, False, set()

    def say(self, link: int, signal: int | None) -> None:
        """A message goes out to the peer."""
        if signal == RST:
            self.reset, self.is_early, self.since = "out", False, set()
        else:
            self.is_owed = self.is_owed and signal != RRP
            if self.reset:
                self.since.add(link)

    def hear_answer(self, kind: str, link: int) -> None:
        """An answer comes about a message to the peer."""
        if link == 0 and self.reset == "out":
            self.reset = "answered"
            self.is_pending = self.is_pending and kind == "rfnm"
        elif link in self.since:
            self.since.remove(link)
            self.is_pending = self.is_pending and (kind == "rfnm" or self.is_owed)

    def hear(self, signal: int, place: int) -> None:
        """An RST or RRP comes from the peer."""
        if signal == RST:
            self.is_owed = True
            self.clean = self.clean if self.is_pending else place
        elif signal == RRP and self.is_pending and self.reset == "out":
            self.is_early = True
        elif signal == RRP and self.is_pending and self.reset == "answered" and not self.is_early:
            self.clean, self.is_pending = place, False


class Watches:
    """What a log says so far of the resets of all hosts."""

    def __init__(self) -> None:
        self.watches: dict[tuple[HostName, HostName], Watch] = {}
        self.outs: dict[Flow, int] = {}  # of each flow: where its last message went out

    def of(self, host: HostName, peer: HostName) -> Watch:
        """That of a host with a peer."""
        return self.watches.setdefault((host, peer), Watch())

    def cross(self, place: int, crossing: Crossing, has_effect: bool) -> bool:
        """Notes a crossing: whether what it had an effect by went out after the last clean point."""
        if isinstance(crossing, Turned):
            self.watches = {pair: it for pair, it in self.watches.items() if pair[0] != crossing.host}
            return True
        source, destination, link = crossing.flow
        if isinstance(crossing, Answered):
            self.of(source, destination).hear_answer(crossing.answer, link)
        elif crossing.kind == "out":
            self.outs[crossing.flow] = place
            self.of(source, destination).say(link, signal_of(link, crossing.text))
        else:
            return self.comes_in(place, crossing, has_effect)
        return True

    def comes_in(self, place: int, crossing: Passed, has_effect: bool) -> bool:
        """The same of a message that comes in."""
        source, destination, link = crossing.flow
        signal = signal_of(link, crossing.text)
        if signal is not None:
            self.of(destination, source).hear(signal, place)
        elif has_effect:
            clean = self.of(destination, source).clean
            return clean is not None and self.outs[crossing.flow] >= clean
        return True


def unclean(log: Iterable[Crossing], contacts: Sequence[tuple[HostName, HostName, int]], effects: Collection[int]) -> int | None:
    """The first message other than RST and RRP that had an effect on its host, and went out before that host's last clean point
    for its sender, or came where there is none. `effects` are the places of messages that had one. None where there is no such."""
    watches, asked = Watches(), [*contacts]
    for place, crossing in enumerate(log):
        while asked and asked[0][2] <= place:
            host, peer, _ = asked.pop(0)
            watches.of(host, peer).ask()
        if not watches.cross(place, crossing, place in effects):
            return place
    return None
