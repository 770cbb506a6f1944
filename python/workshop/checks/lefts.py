"""Books by hand whose lives are left their fates, and books that are wrong in one place, for `./check worlds`."""

from __future__ import annotations

from collections.abc import Callable, Iterator
from dataclasses import replace
from typing import Any

from dorydate.model.book import Book
from dorydate.model.crossings import Crossing, Passed, Turned
from dorydate.model.left import Left, late, strange
from dorydate.model.misread_left import MISREADINGS
from dorydate.model.names import HostName
from dorydate.model.world import World

Kept = tuple[list[Crossing], Book]  # a log, and the book of what its hosts report and their users ask for
FIRST, SECOND = HostName(0, 1), HostName(0, 2)
AT = 10  # in a world that is open, where the first host took the second's request; it had sent its own


def kept(world: World) -> Kept:
    """What a world keeps."""
    return world.carrier.log, world.book


def changed(world: World, **fields: Any) -> Kept:
    """What a world keeps, with some fields changed of the life of its first host."""
    log, book = kept(world)
    book.lives = [replace(life, **fields) if life.host == FIRST else life for life in book.lives]
    return log, book


def stopped_at(world: World, place: int) -> Kept:
    """What a world keeps, where the first host stops between its own request and its partner's."""
    log, book = changed(world, partner=place + 1)
    log.insert(place, Turned("down", FIRST))
    return log, book


def called_at(world: World, place: int, fate: str) -> Kept:
    """What a world keeps, where a user of the first host asks for contact too; and the fate of its life."""
    log, book = changed(world, fate=fate)
    book.contacts.append((FIRST, SECOND, place))
    return log, book


def stopped_before_data(world: World) -> Kept:
    """What a world keeps, where the first host stops before data come in for it."""
    log, book = changed(world, fate="stopped")
    place = next(at for at, it in enumerate(log) if isinstance(it, Passed) and it.kind == "in" and it.flow.link != 0)
    log.insert(place, Turned("down", FIRST))
    return log, book


class Books:
    """Books by hand, of a world that is open, and of the same where more happens."""

    more: tuple[list[str], ...] = (
        [],
        ["close 0/2 33", "calm 3"],
        ["close 0/1 16", "calm 3"],
        ["contact 0/1 0/2"],
        ["contact 0/2 0/1"],
        ["close 0/1 16", "offer 0/1"],
        ["grant 0/1 16 2 100", "send 0/2 33 8 41", "calm 2", "close 0/2 33", "calm 3"],
    )

    def __init__(self, goes_on: Callable[[list[str]], World]) -> None:
        self.goes_on = goes_on

    def right(self) -> Iterator[Kept]:
        """Books whose lives are left their fates."""
        for more in self.more:
            yield kept(self.goes_on(more))

    def wrong(self) -> Iterator[Kept]:
        """Books with a life that isn't."""
        yield changed(self.goes_on(["close 0/1 16", "calm 3"]), fate="ended")
        yield changed(self.goes_on(["close 0/1 16", "offer 0/1"]), fate="open")
        yield changed(self.goes_on([]), fate="closed")
        yield changed(self.goes_on([]), partner=AT + 1)
        yield stopped_at(self.goes_on([]), AT)
        yield called_at(self.goes_on([]), AT, "reset")
        yield called_at(self.goes_on([]), AT + 1, "open")
        yield stopped_before_data(self.goes_on(["grant 0/1 16 2 100", "send 0/2 33 8 41", "calm 2"]))

    def are_judged(self, reading: Left) -> bool:
        """Whether a reading judges each of these books as it should be judged."""
        wronged = [strange(*it, reading) or late(*it, reading) for it in self.right()]
        return not any(wronged) and all(strange(*it, reading) or late(*it, reading) for it in self.wrong())

    def unnoticed(self) -> Iterator[str]:
        """The right reading where it misjudges a book, and each wrong one that misjudges none."""
        if not self.are_judged(Left()):
            yield str(Left.__doc__)
        yield from (str(kind.__doc__) for kind in MISREADINGS if self.are_judged(kind()))
