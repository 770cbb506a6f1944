"""Readers and judges, each wrong in one place about strangers: some log by hand distinguishes it from the right one."""

from __future__ import annotations

from collections.abc import Sequence
from dataclasses import replace

from dorydate.model.audit import is_granted
from dorydate.model.book import Life
from dorydate.model.log import FOREIGN, Book, Entry, LogReader, in_order
from dorydate.model.mailboxes import first_break, hosts_of
from dorydate.model.names import HostName
from dorydate.model.script import BadLine
from dorydate.model.strangers import ends_of
from dorydate.model.verdict import Judge

# ---- readers


class NobodyNamed(LogReader):
    """A log names no strangers."""

    def read_entry(self, line: str) -> Entry:
        if FOREIGN.fullmatch(line):
            raise BadLine
        return super().read_entry(line)


class NamedLater(LogReader):
    """Strangers may be named later."""

    def may_follow(self, kind: int, part: int) -> bool:
        return kind == 0 or super().may_follow(kind, part)


class NamedAnyhow(LogReader):
    """Strangers are named in any order."""

    def is_next(self, strangers: Sequence[HostName], host: HostName) -> bool:
        return host not in strangers


class NamedTwice(LogReader):
    """A stranger may be named again."""

    def is_next(self, strangers: Sequence[HostName], host: HostName) -> bool:
        return not strangers or in_order(strangers[-1]) <= in_order(host)


class NamedByNumber(LogReader):
    """Strangers come by their numbers, and those of one number by their IMPs."""

    def is_next(self, strangers: Sequence[HostName], host: HostName) -> bool:
        return not strangers or strangers[-1] < host


class OneOfAnImp(LogReader):
    """Of an IMP one stranger is named."""

    def is_next(self, strangers: Sequence[HostName], host: HostName) -> bool:
        return not strangers or strangers[-1].imp < host.imp


# ---- judges of who is a stranger


class NobodyStrange(Judge):
    """Who is named a stranger is a host as any other."""

    def is_strange(self, book: Book, host: HostName) -> bool:
        return False


class FirstNamed(Judge):
    """Only the first that is named is a stranger."""

    def is_strange(self, book: Book, host: HostName) -> bool:
        return host in book.strangers[:1]


class LastNamed(Judge):
    """Only the last that is named is a stranger."""

    def is_strange(self, book: Book, host: HostName) -> bool:
        return host in book.strangers[-1:]


class WholeImp(Judge):
    """All hosts of a stranger's IMP are strangers."""

    def is_strange(self, book: Book, host: HostName) -> bool:
        return host.imp in {it.imp for it in book.strangers}


class AnyImp(Judge):
    """All hosts of a stranger's number are strangers."""

    def is_strange(self, book: Book, host: HostName) -> bool:
        return host.number in {it.number for it in book.strangers}


# ---- judges of the lives among programs


class HostsOnly(Judge):
    """Lives toward strangers are judged as those among programs."""

    def is_among(self, book: Book, life: Life) -> bool:
        return not self.is_strange(book, life.host)


class PeersOnly(Judge):
    """A stranger's lives are judged as those among programs."""

    def is_among(self, book: Book, life: Life) -> bool:
        return not self.is_strange(book, life.peer)


class BothStrange(Judge):
    """Only a life between two strangers isn't judged as those among programs."""

    def is_among(self, book: Book, life: Life) -> bool:
        return not self.is_strange(book, life.host) or not self.is_strange(book, life.peer)


def of_all(part: str) -> type[Judge]:
    """A judge by which a part is about all lives."""

    class OfAll(Judge):
        def judged(self, name: str, book: Book) -> list[int]:
            return [*range(1, len(book.lives) + 1)] if name == part else super().judged(name, book)

    OfAll.__doc__ = f"What is asked of {part} is asked of lives with strangers, too."
    return OfAll


class ListsAmong(Judge):
    """Lists are those of the lives among programs, in their order."""

    def with_list(self, book: Book, place: int) -> Life:
        places = self.judged("streams", book)
        at = places.index(place) if place in places else place - 1
        return replace(super().with_list(book, place), handed=book.handed[at])


class FormsAmong(Judge):
    """Only lives among programs have to be well formed."""

    def of_form(self, book: Book) -> str | None:
        said = super().of_form(book)
        is_among = said and any(self.line(book, place) == int(said.split()[-1]) for place in self.judged("form", book))
        return said if is_among or len(book.lives) != len(book.handed) else None


# ---- judges of what crossed


def without_strangers(book: Book) -> Book:
    """A book without the crossings of strangers."""
    return book._replace(log=[it for it in book.log if not {*ends_of(it)} & {*book.strangers}])


class RunAmong(Judge):
    """What crosses from and to strangers needn't be a run."""

    def of_run(self, book: Book) -> str | None:
        log = without_strangers(book).log
        return super().of_run(book) if first_break(hosts_of(log), log) is not None else None


class MessagesAmong(Judge):
    """What is promised of messages isn't promised of those from and to strangers."""

    def of_messages(self, book: Book) -> str | None:
        return super().of_messages(book) if super().of_messages(without_strangers(book)) else None


class PlacesAmong(Judge):
    """Places are counted without what crosses from and to strangers."""

    def verdict(self, book: Book) -> str:
        return super().verdict(without_strangers(book))


# ---- judges of lines


class CrossingsFirst(Judge):
    """The line of a crossing is counted without those of strangers."""

    def crossing_line(self, book: Book, place: int) -> int:
        return super().crossing_line(book, place) - len(book.strangers)


class LivesFirst(Judge):
    """The line of a life is counted without those of strangers."""

    def line(self, book: Book, place: int) -> int:
        return super().line(book, place) - len(book.strangers)


class CountedAmong(Judge):
    """The line of a life is counted among those of lives among programs."""

    def line(self, book: Book, place: int) -> int:
        places = self.judged("lines", book)
        return super().line(book, places.index(place) + 1 if place in places else place)


# ---- judges of what is promised toward a stranger


class NothingToward(Judge):
    """Toward a stranger nothing is promised."""

    def of_toward(self, book: Book) -> str | None:
        return None


class StrangersLive(Judge):
    """A stranger may have lives."""

    def is_broken_toward(self, book: Book, life: Life) -> bool:
        return not self.is_strange(book, life.host) and super().is_broken_toward(book, life)


class StrangersKeep(Judge):
    """A stranger may have lives that keep what is promised toward one."""

    def is_broken_toward(self, book: Book, life: Life) -> bool:
        return not self.is_among(book, life) and not self.keeps_toward(life)


class StrangersToward(Judge):
    """A stranger may have lives with strangers."""

    def is_broken_toward(self, book: Book, life: Life) -> bool:
        both = self.is_strange(book, life.host) and self.is_strange(book, life.peer)
        return not both and super().is_broken_toward(book, life)


class TakenAnyhow(Judge):
    """What is taken from a stranger may be more than was granted."""

    def keeps_toward(self, life: Life) -> bool:
        return life.receives() or super().keeps_toward(life)


class SentAnyhow(Judge):
    """What is sent to a stranger needn't have been handed over."""

    def keeps_toward(self, life: Life) -> bool:
        return not life.receives() or super().keeps_toward(life)


class BitsGranted(Judge):
    """Messages of a stranger needn't be granted."""

    def keeps_toward(self, life: Life) -> bool:
        return is_granted(life, 0, len(life.bits)) if life.receives() else super().keeps_toward(life)


class MessagesGranted(Judge):
    """Bits of a stranger needn't be granted."""

    def keeps_toward(self, life: Life) -> bool:
        return is_granted(life, life.messages, 0) if life.receives() else super().keeps_toward(life)


class NothingReturned(Judge):
    """What a stranger returned may be taken again."""

    def keeps_toward(self, life: Life) -> bool:
        return super().keeps_toward(replace(life, returned=[0, 0]))


class AllOfIt(Judge):
    """All that was granted to a stranger has to be taken."""

    def keeps_toward(self, life: Life) -> bool:
        used = [life.messages + life.returned[0], len(life.bits) + life.returned[1]]
        return used == life.granted if life.receives() else super().keeps_toward(life)


class SentAsMuch(Judge):
    """To a stranger no more is sent than was handed over, and it may be something else."""

    def keeps_toward(self, life: Life) -> bool:
        return super().keeps_toward(life) if life.receives() else len(life.bits) <= len(life.handed)


class SentWhole(Judge):
    """All that was handed over is sent to a stranger."""

    def keeps_toward(self, life: Life) -> bool:
        return super().keeps_toward(life) if life.receives() else life.bits == life.handed


class SentPast(Judge):
    """What was handed over is a prefix of what was sent to a stranger."""

    def keeps_toward(self, life: Life) -> bool:
        return super().keeps_toward(life) if life.receives() else life.bits.startswith(life.handed)


class TakenHanded(Judge):
    """What is taken from a stranger is a prefix of what was handed over, too."""

    def keeps_toward(self, life: Life) -> bool:
        return super().keeps_toward(life) and life.handed.startswith(life.bits)


class LastToward(Judge):
    """The last life that breaks what is promised toward a stranger is named."""

    def named_toward(self, broken: Sequence[int]) -> int:
        return broken[-1]


class TowardAnyhow(Judge):
    """What is promised toward a stranger is asked of a malformed log, too."""

    def is_asked_toward(self, book: Book) -> bool:
        return True

    def with_list(self, book: Book, place: int) -> Life:
        return replace(book.lives[place - 1], handed="".join(book.handed[place - 1 : place]))


class TowardAlone(Judge):
    """What is promised toward a stranger is asked of a log only that keeps all else."""

    def is_asked_toward(self, book: Book) -> bool:
        return not any([self.of_run(book), self.of_lives(book), *self.of_book(book), self.of_fates(book)])


class TowardFirst(Judge):
    """What is broken toward a stranger is printed before the fates."""

    def parts(self, book: Book) -> list[str | None]:
        *others, fates, toward = super().parts(book)
        return [*others, toward, fates]


class SafeToward(Judge):
    """What is promised toward a stranger is promised of this program only."""

    def word(self, found: Sequence[str]) -> list[str]:
        is_toward = found and found[-1].startswith("broken toward")
        return super().word([*found[:-1], "broken fates "] if is_toward else found)


READERS: list[type[LogReader]] = [NobodyNamed, NamedLater, NamedAnyhow, NamedTwice, NamedByNumber, OneOfAnImp]
JUDGES: list[type[Judge]] = [
    NobodyStrange, FirstNamed, LastNamed, WholeImp, AnyImp, HostsOnly, PeersOnly, BothStrange, ListsAmong, FormsAmong,
    *map(of_all, ("lives", "partners", "streams", "grants", "closes", "fates")),
    RunAmong, MessagesAmong, PlacesAmong, CrossingsFirst, LivesFirst, CountedAmong,
    NothingToward, StrangersLive, StrangersKeep, StrangersToward, TakenAnyhow, SentAnyhow, BitsGranted, MessagesGranted,
    NothingReturned, AllOfIt, SentAsMuch, SentWhole, SentPast, TakenHanded, LastToward, TowardAnyhow, TowardAlone,
    TowardFirst, SafeToward,
]  # fmt: skip
