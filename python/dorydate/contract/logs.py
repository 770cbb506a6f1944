"""A log of one host or of several, read line by line: crossings, what users do and hear, and lives."""

from __future__ import annotations

import re
from collections.abc import Iterable
from dataclasses import dataclass, field

from dorydate.contract.acts import Comes, Crosses
from dorydate.contract.lines import CROSSES, DEEDS, IGNORED, crossed, crossing_of
from dorydate.model.bits import Bits
from dorydate.model.book import Life
from dorydate.model.log import LogReader
from dorydate.model.names import HostName, spell_host
from dorydate.model.script import HOST, OF_PROGRAM, BadLine

READER = LogReader()
NUMBER = r"(0|[1-9][0-9]{0,38})"
FORMS = {
    "opened": re.compile(f"opened {HOST} {NUMBER} {HOST} {NUMBER}( {NUMBER} {NUMBER})?"),
    "ended": re.compile(f"ended {HOST} {NUMBER} {HOST} {NUMBER}"),
    "arrived": re.compile(f"arrived {HOST} {NUMBER} {NUMBER}( (-|(?:[0-9A-F][0-9A-F])+))?"),
    "returned": re.compile(f"returned {HOST} {NUMBER} {NUMBER} {NUMBER}"),
    IGNORED: re.compile(f"{IGNORED} {HOST}( {NUMBER})*"),
}


class BadLog(Exception):
    """A line that no own log has, in words."""


@dataclass
class Line:
    """A line of one host's log: its number in the file, and what it says."""

    number: int
    words: list[str]
    crosses: Crosses | None = None
    is_refused: bool = False  # a request that was refused


@dataclass
class Lived:
    """A life as `arpasim --log` writes it, with the line."""

    line: int
    life: Life
    handed: Bits


@dataclass
class Log:
    """What a file has of each host."""

    hosts: dict[str, list[Line]] = field(default_factory=dict)
    lives: list[Lived] = field(default_factory=list)
    strangers: set[str] = field(default_factory=set)
    places: list[int] = field(default_factory=list)  # the line of each crossing
    is_ended: bool = False  # it has the line `end`, and so the lives of all its hosts

    def has_deeds(self, host: str) -> bool:
        """Whether it says what users of a host do and hear."""
        return any(it.crosses is None for it in self.hosts[host])


class Reader:
    """Reads a log."""

    def __init__(self) -> None:
        self.log = Log()
        self.lives: list[tuple[int, Life]] = []
        self.handed: list[Bits] = []
        self.last: Line | None = None

    def read(self, lines: Iterable[str]) -> Log:
        """The log of these lines. Raises BadLog."""
        for number, text in enumerate(lines, 1):
            if text == "%":
                raise BadLog(f"line {number} is the marker of an input, and this is no log: `arpasim --log` prints one")
            try:
                self.line(number, text)
            except (BadLine, ValueError):
                raise BadLog(f"line {number} is none of an own log: {text[:200]}") from None
        lists = [*self.handed, *[""] * len(self.lives)]
        self.log.lives = [Lived(number, life, handed) for (number, life), handed in zip(self.lives, lists)]
        return self.log

    def line(self, number: int, text: str) -> None:
        words = text.split(" ")
        if text.startswith("#") or not text or self.log.is_ended:
            return
        if words[0] in CROSSES:
            crossing = crossing_of(text)
            host, act = crossed(crossing)
            self.log.places.append(number)
            self.add(host, Line(number, words, act))
        elif words[0] in DEEDS or words[0] in FORMS:
            if not (OF_PROGRAM if words[0] in DEEDS else FORMS)[words[0]].fullmatch(text):
                raise BadLine
            self.told(number, words)
        elif words[0] == "refused":
            if self.last is not None and self.last.words[0] in DEEDS:
                self.last.is_refused = True
        else:
            self.other(number, words, text)

    def add(self, host: str, line: Line) -> None:
        self.log.hosts.setdefault(host, []).append(line)
        self.last = line

    def told(self, number: int, words: list[str]) -> None:
        """Something that a user does or hears, or which requests of a text its host doesn't enter."""
        before = self.log.hosts.get(words[1], [])
        if words[0] != IGNORED:
            self.add(words[1], Line(number, words))
        elif before and isinstance(taken := before[-1].crosses, Comes):
            before[-1].crosses = Comes(taken.peer, taken.link, taken.text, frozenset(map(int, words[2:])))
        else:
            raise BadLine

    def other(self, number: int, words: list[str], text: str) -> None:
        """A line of `arpasim --log` that no host hears or says, or one that the contract asks nothing about."""
        if words[0] == "end":
            self.log.is_ended = True
        elif words[0] in ("life", "handed", "foreign"):
            entry = READER.read_entry(text)
            if isinstance(entry, Life):
                self.lives.append((number, entry))
            elif isinstance(entry, HostName):
                self.log.strangers.add(spell_host(entry))
            elif isinstance(entry, str):
                self.handed.append(entry)


def read_log(lines: Iterable[str]) -> Log:
    """The log of these lines. Raises BadLog."""
    return Reader().read(lines)
