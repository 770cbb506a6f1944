"""What `arpasim --audit` says of a log, with the lines that show it: an independent judge.

It was written from docs/audit.md, in another language and another form than the definitions, over the safe book as
`audit` reads it. Where a log names strangers, the lives among the other hosts are judged as a book of their own, over
all that crossed; the others by what is promised toward a stranger.
"""

from __future__ import annotations

from collections.abc import Callable, Iterable, Sequence
from dataclasses import replace
from typing import TypeVar

from dorydate.model.audit import (
    PARTS,
    Lives,
    Log,
    is_granted,
    is_well_formed,
    match,
    messages_are_kept,
    partners_are_kept,
)
from dorydate.model.book import Life
from dorydate.model.fates import Fates, Over
from dorydate.model.firsts import Firsts, Placed
from dorydate.model.log import BadLog, Book, LogReader
from dorydate.model.mailboxes import Mailboxes, first_break, hosts_of
from dorydate.model.names import HostName
from dorydate.model.runs import End
from dorydate.model.was_sent import WasSent

LIVES = [*PARTS[1:], "sent", "closes"]  # the parts that are about lives
OF_ENDS = "broken closes ", "broken fates "  # what is promised of this program only
T = TypeVar("T")


def ended(said: str) -> End:
    """How the program ends where this is said of a log."""
    if said.startswith("bad log"):
        return 2, "", f"arpasim: {said}\n"
    return 0 if said == "kept" else 4, f"{said}\n", ""


class Judge:
    """Says of logs what is to be said. `misread_logs` has judges that are wrong in one place each."""

    reader = LogReader()
    mailboxes: type[Mailboxes] = Mailboxes
    firsts: type[Firsts] = Firsts
    fates: type[Fates] = Fates
    was_sent: type[WasSent] = WasSent

    def says(self, octets: bytes) -> str:
        """What is to be said of a log, with the lines at which it is bad, malformed or broken."""
        try:
            return self.verdict(self.reader.read_log(octets))
        except BadLog as line:
            return f"bad log line {line}"

    def verdict(self, book: Book) -> str:
        """What is to be said of a book, with the lines that show it: all that is wrong with it, and the word."""
        found = [part for part in self.parts(book) if part is not None]
        return "\n".join([*found, *self.word(found)])

    def parts(self, book: Book) -> list[str | None]:
        """What is wrong with each part of a book, None where nothing is."""
        return [self.of_run(book), self.of_lives(book), *self.of_book(book), self.of_fates(book), self.of_toward(book)]

    def word(self, found: Sequence[str]) -> list[str]:
        """The word of a book of which this is wrong: `kept` of none, `safe` where all of it is about how lives end."""
        is_safe = all(part.startswith(OF_ENDS) for part in found)
        return ["safe" if found else "kept"] if is_safe else []

    def of_run(self, book: Book) -> str | None:
        """What is wrong with what crossed, None where it is a run of the mailboxes between the hosts that it names."""
        place = first_break(hosts_of(book.log), book.log, self.mailboxes)
        return None if place is None else f"broken run line {self.crossing_line(book, place + 1)}"

    def of_lives(self, book: Book) -> str | None:
        """The first life among programs that isn't made of messages that crossed before its end, None where all are."""
        places = self.judged("lives", book)
        place = next((place for place in places if not self.is_made(book.log, book.lives[place - 1])), None)
        return None if place is None else f"broken lives line {self.line(book, place)}"

    def is_made(self, log: Log, life: Life) -> bool:
        """Whether a life is made of the messages that crossed, and counts none that crossed after it was over."""
        placed, over = self.firsts().placed(log, life), self.fates().over(log, life)
        return placed is not None and (over is None or self.is_in_time(over, placed))

    def is_in_time(self, over: Over, placed: Placed) -> bool:
        """Whether a life counts no message that crossed after it was over."""
        return over.last is None or max(placed.places, default=-1) < over.last.place

    def of_fates(self, book: Book) -> str | None:
        """The first life among programs whose fate isn't one that what crossed leaves it, or that disagrees with an
        earlier one on a contact; None where there is none."""
        places = self.judged("fates", book)
        found = self.fates().first_strange(book.log, [book.lives[place - 1] for place in places])
        return None if found is None else f"broken fates line {self.line(book, places[found - 1])}"

    def of_book(self, book: Book) -> list[str | None]:
        """What is wrong with a book. Partners, streams, grants, sent and closes are about requests, so they are judged where each stamp names one."""
        found = [self.of_form(book), self.of_messages(book)]
        return found if found[0] else [*found, *(self.of_part(part, book) for part in LIVES)]

    def of_form(self, book: Book) -> str | None:
        """Where a book is malformed: the first life or list without the other, or else the first life whose stamps name no requests."""
        place = self.unmatched(book.lives, book.handed)
        if place is None and not is_well_formed(book.log, book.lives):
            place = self.first(book.lives, lambda life: not is_well_formed(book.log, [life]))
        return f"malformed line {self.line(book, place)}" if place else None

    def of_messages(self, book: Book) -> str | None:
        """The first crossing with which messages are broken."""
        if messages_are_kept(book.log):
            return None
        return f"broken messages line {self.crossing_line(book, self.first_break(book.log, messages_are_kept))}"

    def of_part(self, part: str, book: Book) -> str | None:
        """The one or two lives among programs that break a part."""
        places = self.judged(part, book)
        found = self.shown(part, book.log, [self.with_list(book, place) for place in places])
        return f"broken {part} {in_words(self.line(book, places[it - 1]) for it in found)}" if found else None

    # ---- strangers

    def judged(self, part: str, book: Book) -> list[int]:
        """The places, counted from 1, of the lives that a part is about: those between hosts with programs."""
        return [place for place, life in enumerate(book.lives, 1) if self.is_among(book, life)]

    def is_among(self, book: Book, life: Life) -> bool:
        """Whether no stranger is at an end of a life."""
        return not self.is_strange(book, life.host) and not self.is_strange(book, life.peer)

    def is_strange(self, book: Book, host: HostName) -> bool:
        """Whether a host is a stranger."""
        return host in book.strangers

    def with_list(self, book: Book, place: int) -> Life:
        """The life at a place, with what was handed over in it."""
        return replace(book.lives[place - 1], handed=book.handed[place - 1])

    def of_toward(self, book: Book) -> str | None:
        """The first life that breaks what is promised toward a stranger, None where none does or nothing is asked."""
        if not self.is_asked_toward(book):
            return None
        lives = [self.with_list(book, place) for place in range(1, len(book.lives) + 1)]
        broken = [place for place, life in enumerate(lives, 1) if self.is_broken_toward(book, life)]
        return f"broken toward line {self.line(book, self.named_toward(broken))}" if broken else None

    def is_asked_toward(self, book: Book) -> bool:
        """Whether what is promised toward a stranger is judged: where partners are."""
        return self.of_form(book) is None

    def named_toward(self, broken: Sequence[int]) -> int:
        """Which of the lives that break what is promised toward a stranger is named."""
        return broken[0]

    def is_broken_toward(self, book: Book, life: Life) -> bool:
        """Whether a life is a stranger's, who has none, or is toward one and breaks what is promised there."""
        return self.is_strange(book, life.host) or self.is_strange(book, life.peer) and not self.keeps_toward(life)

    def keeps_toward(self, life: Life) -> bool:
        """Whether a life toward a stranger took no more than it granted, or sent a prefix of what was handed over."""
        return is_granted(life, life.messages, len(life.bits)) if life.receives() else life.handed.startswith(life.bits)

    # ---- lines

    def crossing_line(self, book: Book, place: int) -> int:
        """The line of the crossing at a place, counted from 1."""
        return book.crossing_line(place - 1)

    def line(self, book: Book, place: int) -> int:
        """The line of the life at a place, counted from 1."""
        return book.life_line(place - 1)

    # ---- lives and lists

    def unmatched(self, lives: Sequence[Life], handed: Sequence[str]) -> int | None:
        """Where the lives and the lists differ in number: the place of the first that has none of the other, counted from 1 after the crossings."""
        if len(lives) > len(handed):
            return self.life_too_many(lives, handed)
        return self.list_too_many(lives, handed) if len(handed) > len(lives) else None

    def life_too_many(self, lives: Sequence[Life], handed: Sequence[str]) -> int | None:
        """The place of the first life without a list."""
        return len(handed) + 1

    def list_too_many(self, lives: Sequence[Life], handed: Sequence[str]) -> int | None:
        """The place of the first list without a life."""
        return 2 * len(lives) + 1

    # ---- places

    def first(self, lives: Iterable[Life], is_meant: Callable[[Life], bool]) -> int:
        """The place of the first life that is meant, counted from 1."""
        return next(place for place, life in enumerate(lives, 1) if is_meant(life))

    def first_break(self, entries: Sequence[T], are_kept: Callable[[Sequence[T]], bool]) -> int:
        """The place, counted from 1, of the entry with which those up to it first break what is promised of them."""
        return next(count for count in range(1, len(entries) + 1) if not are_kept(entries[:count]))

    def shown(self, part: str, log: Log, lives: Lives) -> list[int]:
        """The places, counted from 1, of the one or two lives that break a part; none where it is kept."""
        if part == "partners":
            return [] if partners_are_kept(log, lives) else self.at_odds(log, lives)
        if not any(self.fails(part, log, lives, life) for life in lives):
            return []
        place = self.first(lives, lambda life: self.fails(part, log, lives, life))
        return self.with_match(
            place, [other for other, life in enumerate(lives, 1) if match(log, lives[place - 1], life)]
        )

    def at_odds(self, log: Log, lives: Lives) -> list[int]:
        """The second life that is at odds with an earlier one, after that."""
        second = self.first_break(lives, lambda lives: partners_are_kept(log, lives))
        return [self.first(lives, lambda life: not partners_are_kept(log, [life, lives[second - 1]])), second]

    def with_match(self, place: int, matching: Sequence[int]) -> list[int]:
        """A life and then its first match, if it has one."""
        return [place, *matching[:1]]

    # ---- whether a part fails at a life

    def fails(self, part: str, log: Log, lives: Lives, life: Life) -> bool:
        """Whether a part fails at a life."""
        fails = {
            "streams": self.stream_fails,
            "grants": self.grant_fails,
            "sent": self.sent_fails,
            "closes": self.close_fails,
        }
        return fails[part](log, lives, life)

    def stream_fails(self, log: Log, lives: Lives, life: Life) -> bool:
        """A sending life sent something else than was handed over; a receiving one took something that no life sent that it matches. That it matches one at most is of partners."""
        if not life.receives():
            return not life.handed.startswith(life.bits)
        return life.bits != "" and not any(match(log, life, it) and it.bits.startswith(life.bits) for it in lives)

    def grant_fails(self, log: Log, lives: Lives, life: Life) -> bool:
        """A receiving life took more than it granted, or its sender sent more; a sending one sent more than ALLs granted."""
        if not life.receives():
            return not self.is_within(log, life)
        return not all(
            is_granted(life, it.messages, len(it.bits)) for it in [life, *(it for it in lives if match(log, life, it))]
        )

    def is_within(self, log: Log, life: Life) -> bool:
        """Whether a sending life sent no more than ALLs grant on the link that its partner's RTS names; so too where none does."""
        links, _ = self.firsts().requested(log, life)
        if not links:
            return True
        messages, bits = self.firsts().granted(log, life, links[0])
        return life.messages <= messages and len(life.bits) <= bits

    def sent_fails(self, log: Log, lives: Lives, life: Life) -> bool:
        """A receiving life counts a message that isn't, with its number, one that a life counts which it matches."""
        return life.receives() and not self.was_sent().is_kept(log, lives, life)

    def close_fails(self, log: Log, lives: Lives, life: Life) -> bool:
        """A receiving life that its partner ended took less than a life sent that it matches, or than was handed over there."""
        return self.is_judged(life) and any(match(log, life, it) and not self.took_all(life, it) for it in lives)

    def is_judged(self, life: Life) -> bool:
        """Whether a life is one that has to have taken all."""
        return life.receives() and life.fate == "ended"

    def took_all(self, life: Life, sender: Life) -> bool:
        """Whether a life took all that another sent, and all that was handed over there."""
        return (life.messages, life.bits) == (sender.messages, sender.bits) and life.bits == sender.handed


def in_words(numbers: Iterable[int]) -> str:
    """Lines by their numbers."""
    found = [*numbers]
    return f"line{'s' if len(found) > 1 else ''} {' '.join(map(str, found))}"


RIGHT = Judge()
says, verdict = RIGHT.says, RIGHT.verdict


def ends_audit(octets: bytes) -> End:
    """How `--audit` ends on a log."""
    return ended(says(octets))
