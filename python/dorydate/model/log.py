"""Logs, as `arpasim --log` prints them and `arpasim --audit` reads them: an independent reader and speller.

It was written from docs/program.md and docs/audit.md, in another language and another form than the definitions. A log is
read into a book: who runs no program, its crossings, its lives, and a list of bits for each life that was handed over to
be sent. What a book keeps or breaks says `verdict`. `check audit` and `check stops` compare the program with this.
"""

from __future__ import annotations

import re
from collections.abc import Iterable, Iterator, Sequence
from typing import NamedTuple, Union

from dorydate.model.bits import Bits, spell_bits, spelled_text
from dorydate.model.book import Fate, Life
from dorydate.model.crossings import Answer, Answered, Crossing, Passed, Turned, spell_crossing
from dorydate.model.names import HostName, spell_flow, spell_host
from dorydate.model.runs import End, Place, log_of, opened
from dorydate.model.script import FLOW, HOST, MOST_TEXT, BadLine, host_of, read_flow, read_line, read_number, read_text
from dorydate.model.topology import Topology
from dorydate.model.world import World

NUMBER = r"(0|[1-9][0-9]{0,38})"  # none of 128 bits has more digits
OCTETS = r"(-|(?:[0-9A-F][0-9A-F])+)"
FOREIGN = re.compile(f"foreign {HOST}")
MESSAGE = re.compile(f"(out|in) {FLOW} {NUMBER} {OCTETS}")
ANSWER = re.compile(f"answer (rfnm|dead|incomplete|nottaken) {FLOW}")
OF_HOST = re.compile(f"(down|up) {HOST}")
FATES: dict[str, Fate] = {"open": "open", "closed": "closed", "ended": "ended", "reset": "reset", "stopped": "stopped"}
LIFE = re.compile(f"life {HOST} {NUMBER} {HOST} {NUMBER} {NUMBER} {NUMBER} (send|receive)" + f" {NUMBER}" * 6 + f" ({'|'.join(FATES)}) {OCTETS}")
HANDED = re.compile(f"handed {NUMBER} {OCTETS}")
ANSWERS: dict[str, Answer] = {"rfnm": "rfnm", "dead": "dead", "incomplete": "incomplete", "nottaken": "nottaken"}


class Book(NamedTuple):
    """What a log says. A life's own list of bits that were handed over is not looked at: the lists are beside the lives."""

    log: list[Crossing]  # the oldest first
    lives: list[Life]
    handed: list[Bits]
    strangers: tuple[HostName, ...] = ()  # the hosts that run no program, in the order of their lines

    def crossing_line(self, place: int) -> int:
        """The line of the crossing at a place, counted from 0."""
        return len(self.strangers) + place + 1

    def life_line(self, place: int) -> int:
        """The line of the life at a place, counted from 0."""
        return self.crossing_line(len(self.log) + place)

    def list_line(self, place: int) -> int:
        """The line of the list at a place, counted from 0."""
        return self.life_line(len(self.lives) + place)


Entry = Union[HostName, Crossing, Life, Bits]  # a host is a stranger's
PART_OF: dict[type, int] = {HostName: 0, Passed: 1, Answered: 1, Turned: 1, Life: 2, str: 3}


class BadLog(Exception):
    """The number of the first line that no log has."""


class LogReader:
    """Reads logs. `misread_logs` has readers that are wrong in one place each."""

    most_text = MOST_TEXT
    socket_bits, stamp_bits, amount_bits = 32, 64, 128

    def lines_of(self, octets: bytes) -> tuple[list[str], str]:
        """The lines of a log, and what follows the last line feed."""
        *lines, rest = octets.decode("latin-1").split("\n")
        return lines, rest

    def follows(self, lines: Sequence[str], rest: str) -> bool:
        """Whether anything follows the end of a log that should not."""
        return bool(lines) or rest != ""

    def unended(self, lines: Sequence[str], book: Book) -> Book:
        """What a log is that has no end."""
        raise BadLog(len(lines) + 1)

    def may_follow(self, kind: int, part: int) -> bool:
        """Whether an entry of a part may follow one of another: strangers (0), crossings (1), lives (2), lists (3)."""
        return kind >= part

    def is_next(self, strangers: Sequence[HostName], host: HostName) -> bool:
        """Whether a stranger may follow these: they come by IMPs, and those of one IMP by numbers, each once."""
        return not strangers or in_order(strangers[-1]) < in_order(host)

    def kind_fits(self, life: Life, kind: str) -> bool:
        """Whether a life is of the kind that its line says."""
        return life.receives() == (kind == "receive")

    def fate_of(self, word: str) -> Fate:
        """The fate that a word names."""
        return FATES[word]

    def read_log(self, octets: bytes) -> Book:
        """The book of a log."""
        lines, rest = self.lines_of(octets)
        book, part = Book([], [], []), 0
        for number, line in enumerate(lines, 1):
            if line == "end":
                if self.follows(lines[number:], rest):
                    raise BadLog(number + 1)
                return book
            try:
                entry = self.read_entry(line)
            except BadLine:
                raise BadLog(number) from None
            kind = PART_OF[type(entry)]
            if not self.may_follow(kind, part):
                raise BadLog(number)
            if isinstance(entry, HostName) and not self.is_next(book.strangers, entry):
                raise BadLog(number)
            book, part = self.added(book, entry), kind
        return self.unended(lines, book)

    def added(self, book: Book, entry: Entry) -> Book:
        """A book with an entry more, which is in its list."""
        if isinstance(entry, HostName):
            return book._replace(strangers=(*book.strangers, entry))
        if isinstance(entry, Life):
            book.lives.append(entry)
        elif isinstance(entry, str):
            book.handed.append(entry)
        else:
            book.log.append(entry)
        return book

    def read_entry(self, line: str) -> Entry:
        """What a line adds to a book."""
        if found := LIFE.fullmatch(line):
            return self.read_life(*found.groups())
        if found := HANDED.fullmatch(line):
            return read_text(found[1], found[2])
        if found := FOREIGN.fullmatch(line):
            return host_of(found[1], found[2])
        return self.read_crossing(line)

    def read_crossing(self, line: str) -> Crossing:
        """The crossing of a line."""
        if found := MESSAGE.fullmatch(line):
            text = read_text(found[7], found[8])
            if len(text) <= self.most_text:
                return Passed("out" if found[1] == "out" else "in", read_flow(found.groups()[1:6]), text)
        if found := ANSWER.fullmatch(line):
            return Answered("answer", ANSWERS[found[1]], read_flow(found.groups()[1:]))
        if found := OF_HOST.fullmatch(line):
            return Turned("down" if found[1] == "down" else "up", host_of(found[2], found[3]))
        raise BadLine

    def read_life(self, *words: str) -> Life:
        """A life by the words of its line, a host being two of them."""
        host, peer = host_of(words[0], words[1]), host_of(words[3], words[4])
        socket, foreign = (read_number(word, self.socket_bits) for word in (words[2], words[5]))
        own, partner = (read_number(word, self.stamp_bits) for word in words[6:8])
        kind, count, bits, *counts, state, octets = words[8:]
        messages, *amounts = (read_number(word, self.amount_bits) for word in [count, *counts])
        life = Life(host, socket, peer, foreign, own, partner, read_text(bits, octets), messages, amounts[:2], amounts[2:], self.fate_of(state))
        if not self.kind_fits(life, kind):
            raise BadLine
        return life


read_log = LogReader().read_log


def in_order(host: HostName) -> tuple[int, int]:
    """By what strangers come: IMP and number."""
    return host.imp, host.number


# ---- spelling


def spelled_log(book: Book) -> bytes:
    """The octets of a log."""
    return "".join(f"{line}\n" for line in lines_of(book)).encode("latin-1")


def lines_of(book: Book) -> Iterator[str]:
    """The lines of a log."""
    yield from (f"foreign {spell_host(it)}" for it in book.strangers)
    yield from map(spell_entry, book.log)
    for life in book.lives:
        yield f"{life.spell_as(logged_fate(life.fate))} {spelled_text(life.bits)}"
    for bits in book.handed:
        yield f"handed {spell_bits(bits)}"
    yield "end"


def logged_fate(fate: Fate) -> Fate:
    """What a log says of a fate: of a life that continues it doesn't say whether somebody has closed it."""
    return "open" if fate == "closing" else fate


def spell_entry(crossing: Crossing) -> str:
    """The line of a crossing: with its text, and an answer by its own word, though a replay prints `incomplete` for not taken, too."""
    if isinstance(crossing, Answered):
        return f"answer {crossing.answer} {spell_flow(crossing.flow)}"
    return spell_crossing(crossing) + (f" {spelled_text(crossing.text)}" if isinstance(crossing, Passed) else "")


def book_of(network: Topology, place: Place) -> Book:
    """The book of a world, or of a raw network."""
    lives = place.book.lives if isinstance(place, World) else []
    strangers = tuple(sorted(network.strangers(), key=in_order))
    return Book(log_of(place), lives, [life.handed for life in lives], strangers)


def ends_log(network: Topology, lines: Iterable[str]) -> End:
    """How `--log` ends on a network that can be replayed and the lines of a script."""
    place = opened(network)
    for number, line in enumerate(lines, 1):
        try:
            event = read_line(line, network[1], strangers=bool(network.foreign))
        except BadLine:
            return 2, "", f"arpasim: bad script line {number}\n"
        if event:
            place.happen(*event)
    return 0, spelled_log(book_of(network, place)).decode(), ""
