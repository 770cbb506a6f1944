"""What the crossings and contacts of a book leave its lives: when each begins, by what it is over, with which fates,
and which messages it may count.

It was written from docs/headline.md, in another language and another form than the definitions. Of a log, which has no
contacts, `fates` judges the same.
"""

from __future__ import annotations

from collections.abc import Iterator, Sequence
from typing import NamedTuple, Optional

from dorydate.model.book import Book, Life
from dorydate.model.crossings import Crossing
from dorydate.model.fates import Deed, Fates
from dorydate.model.firsts import messages_of
from dorydate.model.names import HostName

Contact = tuple[HostName, HostName, int]
# the fates that are left, by what a life is over, and by whose CLS was the first: none, its own host's, its partner's
Leaving = dict[tuple[Optional[str], Optional[str]], set[str]]
LEFT: Leaving = {
    (None, None): {"open", "closing"},
    (None, "out"): {"closing"},
    (None, "in"): {"open", "closing"},
    ("closed", "out"): {"closed"},
    ("closed", "in"): {"closed", "ended"},
}


class Course(NamedTuple):
    """A life that has begun: whether what ends lives came before, by what it is over, whose CLS was the first, and how
    much crossed before it was over."""

    early: bool
    by: str | None
    first: str | None
    place: int | None


class Left(Fates):
    """Says of lives whether they are left their fates. `misread_left` has readings that are wrong in one place each."""

    fates: Leaving = LEFT

    def course(self, log: Sequence[Crossing], contacts: Sequence[Contact], life: Life) -> Course | None:
        """What becomes of a life; None where it never begins."""
        asked: set[str] = set()
        closed: list[str] = []
        early = owes = False
        for deed in self.all_deeds(log, contacts, life):
            word, way = deed.what.split()
            cut = "reset" if word == "contact" else self.cut(word, way, owes)
            owes = self.owes(word, way, owes)
            if len(asked) < 2:
                early = early or (self.is_early(asked) and (cut is not None or word == "closes"))
                asked |= {way} if word == "asks" else set()
            elif cut:
                return Course(early, cut, None, deed.place)
            elif word == "closes" and way not in closed:
                closed.append(way)
                if len(closed) == 2:
                    return Course(early, "closed", self.first(closed), deed.place)
        return Course(early, None, closed[0] if closed else None, None) if len(asked) == 2 else None

    def is_early(self, asked: set[str]) -> bool:
        """Whether what would end a life comes too early, where these of its requests have crossed."""
        return len(asked) == 1

    def first(self, closed: list[str]) -> str:
        """Whose CLS was the first of two."""
        return closed[0]

    def is_left(self, log: Sequence[Crossing], contacts: Sequence[Contact], life: Life) -> bool:
        """Whether a life begins as it should, and has a fate that is left to it."""
        course = self.course(log, contacts, life)
        if course is None or course.early:
            return False
        return life.fate in self.fates.get((course.by, course.first), {course.by or ""})

    def all_deeds(self, log: Sequence[Crossing], contacts: Sequence[Contact], life: Life) -> Iterator[Deed]:
        """What may begin or end a life, the oldest first, with the contacts of its host with its peer."""
        called = sorted({place for host, peer, place in contacts if (host, peer) == (life.host, life.peer)})
        for deed in self.deeds(log, life):
            while called and called[0] <= deed.place:
                yield Deed("contact out", called.pop(0))
            yield deed
        for place in called:
            yield Deed("contact out", place)


    def is_within(self, log: Sequence[Crossing], contacts: Sequence[Contact], life: Life) -> bool:
        """Whether a life that is over counts no message that crossed after what ended it."""
        course = self.course(log, contacts, life)
        return course is None or course.place is None or len(messages_of(log[: course.place], life)) >= life.messages


def late(log: Sequence[Crossing], book: Book, reading: Left | None = None) -> Life | None:
    """The first life of a book that counts a message which crossed after the life was over."""
    reading = reading or Left()
    return next((life for life in book.lives if not reading.is_within(log, book.contacts, life)), None)


def strange(log: Sequence[Crossing], book: Book, reading: Left | None = None) -> Life | None:
    """The first life of a book that isn't left its fate."""
    reading = reading or Left()
    return next((life for life in book.lives if not reading.is_left(log, book.contacts, life)), None)
