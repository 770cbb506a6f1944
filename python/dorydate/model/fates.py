"""Which fates what crossed leaves a life of a log: where it begins, and by what it is over.

It was written from docs/audit.md, in another language and another form than the definitions.
"""

from __future__ import annotations

import math
from collections.abc import Hashable, Iterator, Sequence
from typing import NamedTuple

from dorydate.model.audit import CONTROL
from dorydate.model.book import Life
from dorydate.model.commands import CLS, RRP, RST, RTS, STR, read_numbers
from dorydate.model.crossings import Answered, Crossing, Passed
from dorydate.model.firsts import RIGHT
from dorydate.model.names import Flow, HostName

WAYS = ("out", "in")  # a life's own commands go out, and those of its partner come in
# by what a life is over, None where it continues, and by both CLS with whose was the first: the fates that this leaves.
# A contact doesn't cross; but it can't have come before the own CLS, if that was the second: an RST would have gone out
LEAVES: dict[str | None, set[str]] = {
    None: {"open", "closing", "reset"},
    "reset": {"reset"},
    "stopped": {"stopped", "reset"},
    "closed out": {"closed", "reset"},
    "closed in": {"closed", "ended"},
}


class Deed(NamedTuple):
    """Something that may begin or end a life: what it is, and the place at which it crossed."""

    what: str
    place: int


class Over(NamedTuple):
    """By what a life is over, None where it continues; what crossed then, and where; whose CLS had crossed, the first
    of them first; and what ended it between its two requests, None where nothing did."""

    by: str | None
    last: Deed | None
    closed: tuple[str, ...]
    early: Deed | None

    def left(self) -> str | None:
        """By what it is over, and whose CLS was the first of two."""
        return f"closed {self.closed[0]}" if self.by == "closed" else self.by


class Begun(NamedTuple):
    """A life that has begun: how it is over, and how many cuts of its host with its peer came before it began."""

    life: Life
    over: Over
    stretch: int


class Fates:
    """Says of lives how they are over. `misread_logs` has readings that are wrong in one place each."""

    leaves = LEAVES

    def over(self, log: Sequence[Crossing], life: Life) -> Over | None:
        """By what a life is over by what crossed; None where it hasn't begun."""
        asked: set[str] = set()
        closed: tuple[str, ...] = ()
        early, owes = None, False
        for deed in self.deeds(log, life):
            word, way = deed.what.split()
            cut = self.cut(word, way, owes)
            owes = self.owes(word, way, owes)
            if len(asked) < len(WAYS):
                early = early or (deed if (cut or word == "closes") and self.is_early(asked) else None)
                asked |= {way} if word == "asks" else set()
            elif cut:
                return Over(cut, deed, closed, early)
            elif word == "closes" and way not in closed:
                closed = (*closed, way)
                if self.are_closed(closed):
                    return Over("closed", deed, closed, early)
        return Over(None, None, closed, early) if len(asked) == len(WAYS) else None

    def suits(self, log: Sequence[Crossing], life: Life) -> bool:
        """Whether what crossed leaves a life its fate. Of one that hasn't begun nothing is said."""
        over = self.over(log, life)
        return over is None or (over.early is None and life.fate in self.leaves[over.left()])

    def first_strange(self, log: Sequence[Crossing], lives: Sequence[Life]) -> int | None:
        """The place, counted from 1, of the first life that doesn't suit what crossed, or that disagrees with an
        earlier one on a contact; None where there is none."""
        earlier: list[Begun] = []
        for place, life in enumerate(lives, 1):
            if not self.suits(log, life):
                return place
            begun = self.begun(log, life)
            if begun is not None:
                if self.at_odds(earlier, begun):
                    return place
                earlier.append(begun)
        return None

    def begun(self, log: Sequence[Crossing], life: Life) -> Begun | None:
        """What becomes of a life that has begun; None of another."""
        over = self.over(log, life)
        return None if over is None else Begun(life, over, self.stretch(log, life))

    def at_odds(self, earlier: Sequence[Begun], begun: Begun) -> Begun | None:
        """The first of some lives with which one disagrees on a contact, None where there is none."""
        return next((it for it in earlier if self.outlasts(it, begun) or self.outlasts(begun, it)), None)

    def outlasts(self, one: Begun, other: Begun) -> bool:
        """Whether a contact reset one of two lives that begin between the same two cuts, and the other, which isn't
        `reset`, is over after it, or with it."""
        alike = self.reset_with(one.life) == self.reset_with(other.life) and one.stretch == other.stretch
        is_spared = self.was_contacted(one) and other.life.fate != "reset"
        return alike and is_spared and self.end(one) <= self.end(other)

    def was_contacted(self, begun: Begun) -> bool:
        """Whether a contact reset a life: it is `reset`, and nothing that crossed dropped its connections."""
        return begun.life.fate == "reset" and begun.over.by != "reset"

    def end(self, begun: Begun) -> float:
        """The place at which a life is over, and one after all where it continues."""
        return begun.over.last.place if begun.over.by and begun.over.last else math.inf

    def stretch(self, log: Sequence[Crossing], life: Life) -> int:
        """How many times the connections of its host with its peer are cut before a life begins."""
        asked: set[str] = set()
        cuts, owes = 0, False
        for deed in self.deeds(log, life):
            word, way = deed.what.split()
            cuts += self.is_cut(self.cut(word, way, owes))
            owes = self.owes(word, way, owes)
            asked |= {way} if word == "asks" else set()
            if len(asked) == len(WAYS):
                break
        return cuts

    def is_cut(self, by: str | None) -> bool:
        """Whether what ends lives so cuts all connections of the host with the peer."""
        return by is not None

    def continues(self, log: Sequence[Crossing], life: Life) -> bool:
        """Whether a life has begun, and nothing that crossed has ended it."""
        over = self.over(log, life)
        return over is not None and over.by is None

    def reset_with(self, life: Life) -> Hashable:
        """What a life has in common with all that the same contact resets: its host and its peer."""
        return life.host, life.peer

    def together(self, log: Sequence[Crossing], lives: Sequence[Life], life: Life) -> list[Life]:
        """The other lives that a contact would reset with this one: all continue by what crossed."""
        alike = [it for it in lives if it is not life and self.reset_with(it) == self.reset_with(life)]
        return [it for it in alike if self.continues(log, it)] if self.continues(log, life) else []

    def is_early(self, asked: set[str]) -> bool:
        """Whether what would end a life comes too early, where these of its requests have crossed."""
        return len(asked) == 1

    def are_closed(self, closed: Sequence[str]) -> bool:
        """Whether the CLS that crossed are enough."""
        return len(closed) == len(WAYS)

    def cut(self, word: str, way: str, owes: bool) -> str | None:
        """How a life that continues ends by this, if it does: its pair is reset, or its host stops."""
        if word == "down":
            return "stopped"
        resets = word == "rst" or (word, way, owes) == ("rrp", "out", False) or (word, owes) == ("fails", False)
        return "reset" if resets else None

    def owes(self, word: str, way: str, owes: bool) -> bool:
        """Whether the host owes its peer an RRP after this."""
        return (owes or (word, way) == ("rst", "in")) and word not in ("down", "up") and (word, way) != ("rrp", "out")

    def deeds(self, log: Sequence[Crossing], life: Life) -> Iterator[Deed]:
        """What may begin or end a life, the oldest first, each with the way that it goes."""
        for place, crossing in enumerate(log):
            if isinstance(crossing, Passed):
                yield from self.commands(crossing, place, life)
            elif isinstance(crossing, Answered):
                if crossing.answer != "rfnm" and crossing.flow[:2] == (life.host, life.peer):
                    yield Deed("fails out", place)
            elif self.is_turned(crossing.host, life):
                yield Deed(f"{crossing.kind} out", place)

    def is_turned(self, host: HostName, life: Life) -> bool:
        """Whether a host that stops or starts is a life's."""
        return host == life.host

    def commands(self, crossing: Passed, place: int, life: Life) -> Iterator[Deed]:
        """The commands of a message between the two hosts that may begin or end a life."""
        for way, source, destination, stamp, own, foreign in (
            ("out", life.host, life.peer, life.own, life.socket, life.foreign),
            ("in", life.peer, life.host, life.partner, life.foreign, life.socket),
        ):
            if (crossing.kind, crossing.flow) == (way, Flow(source, destination, CONTROL)):
                for command in RIGHT.commands(crossing.text):
                    word = self.word(command, own, foreign, place == stamp)
                    if word:
                        yield Deed(f"{word} {way}", place)

    def word(self, command: bytes, own: int, foreign: int, is_stamp: bool) -> str | None:
        """What a command does to a life with these sockets, of its sender and of the other; None for nothing."""
        code = command[0]
        if code in (RST, RRP):
            return "rst" if code == RST else "rrp"
        if code in (RTS, STR):
            return "asks" if is_stamp and any(RIGHT.named_in([command], own, foreign)) else None
        return "closes" if code == CLS and read_numbers(command, 4, 4) == [own, foreign] else None


RIGHT_FATES = Fates()
over, together, first_strange = RIGHT_FATES.over, RIGHT_FATES.together, RIGHT_FATES.first_strange
begun, at_odds = RIGHT_FATES.begun, RIGHT_FATES.at_odds
