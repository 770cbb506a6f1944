"""The lives of a program that says its notices: a log of its network in which it is judged as the proved program is.

A life is what the program notified its user of: when it opened, what arrived, what came back and how it ended. What it
sent is what went out on the connection's link. So a program that says something else than crossed has a broken life.
"""

from __future__ import annotations

from collections.abc import Iterator, Sequence
from dataclasses import dataclass, field
from typing import Protocol

from dorydate.contract.acts import Comes, Goes
from dorydate.contract.ends import Amount, End
from dorydate.contract.lines import CROSSES, DEEDS, Hearing, crossed, crossing_of
from dorydate.contract.logs import FORMS
from dorydate.contract.rules import RULES
from dorydate.contract.texts import data_of
from dorydate.model.bits import Bits, read_bits, spell_bits, spelled_text
from dorydate.model.script import OF_PROGRAM


class Shown(Protocol):
    """A step of a replay."""

    @property
    def texts(self) -> Sequence[str]: ...


class Replayed(Protocol):
    """A replay with its log."""

    @property
    def steps(self) -> Sequence[Shown]: ...

    @property
    def log(self) -> str: ...


@dataclass
class Life:
    """What a program said of an end."""

    end: End
    parts: list[Bits] = field(default_factory=list)
    granted: Amount = Amount()
    returned: Amount = Amount()
    handed: list[Bits] = field(default_factory=list)
    is_closed: bool = False
    fate: str = "open"

    def line(self, host: str) -> str:
        """Its line in a log."""
        end, bits = self.end, "".join(self.parts)
        kind = "receive" if end.receives() else "send"
        counts = len(self.parts), len(bits), *self.granted, *self.returned
        stamps = end.asked or 0, end.partner or 0
        words = host, end.own, end.peer, end.foreign, *stamps, kind, *counts, self.fate, spelled_text(bits)
        return " ".join(["life", *map(str, words)])


class Told:
    """The lives of one host, made of what its program hears and says. Whatever it says is taken down."""

    def __init__(self, host: str) -> None:
        self.host = host
        self.hearing = Hearing(host)
        self.hearing.own.without = frozenset(RULES)  # nothing is refused, and each rule keeps its meaning
        self.lives: list[Life] = []
        self.place = -1
        self.came: list[Bits] = []  # data that were just taken

    def open(self, own: int | None = None, peer: str | None = None) -> list[Life]:
        """The lives that aren't over, of a socket or with a peer."""
        found = [it for it in self.lives if it.fate == "open"]
        return [it for it in found if own in (None, it.end.own) and peer in (None, it.end.peer)]

    def crosses(self, line: str) -> None:
        """Something crosses in its network."""
        self.place += 1
        host, act = crossed(crossing_of(line))
        if host != self.host:
            return
        if isinstance(act, Goes) and act.link:
            end = self.hearing.own.pair(act.peer).on(act.link, False)
            data = data_of(act.text)
            for life in self.lives:
                if life.end is end and life.fate == "open" and data is not None:
                    life.parts.append(data.bits)
        self.came = [data.bits] if isinstance(act, Comes) and act.link and (data := data_of(act.text)) else []
        self.hearing.crosses(self.place, act)
        if line.startswith("down "):
            self.finish(self.open(), "stopped")

    def finish(self, lives: Sequence[Life], fate: str) -> None:
        for it in lives:
            it.fate = fate

    def does(self, line: str) -> None:
        """Its user asks for something that is done."""
        words = line.split(" ")
        if words[0] not in DEEDS or not OF_PROGRAM[words[0]].fullmatch(line):
            return
        self.hearing.does(self.place, words)
        if words[0] == "contact":
            self.finish(self.open(peer=words[2]), "reset")
            return
        for life in self.open(int(words[2]))[-1:] if words[0] in ("send", "grant", "close") else ():
            if words[0] == "send":
                life.handed.append(read_bits(words[3], words[4]))
            elif words[0] == "grant":
                life.granted = life.granted.plus(int(words[3]), int(words[4]))
            else:
                life.is_closed = True

    def tells(self, line: str) -> None:
        """It says something to its user."""
        words = line.split(" ")
        if words[:2] == ["pairreset", self.host] and len(words) == 3:
            self.finish(self.open(peer=words[2]), "reset")
        if words[0] not in FORMS or not FORMS[words[0]].fullmatch(line) or words[1] != self.host:
            return
        if words[0] == "opened":
            self.opened(words[3], int(words[2]), int(words[4]))
            return
        for life in self.open(int(words[2]))[-1:]:
            if words[0] == "ended":
                life.fate = "closed" if life.is_closed else "ended"
            elif words[0] == "returned":
                life.returned = life.returned.plus(int(words[3]), int(words[4]))
            elif words[0] == "arrived":
                life.parts.append(self.said(words[3:]))

    def said(self, words: Sequence[str]) -> Bits:
        """The bits that arrived as it says; where it says only how many, those that came, with zeros for any more."""
        if len(words) > 1:
            return read_bits(words[0], words[1])
        return "".join(self.came)[: int(words[0])].ljust(int(words[0]), "0")

    def opened(self, peer: str, own: int, foreign: int) -> None:
        pair = self.hearing.own.pair(peer)
        end = pair.ends.get((own, foreign)) or next((it for it in pair.just if it.sockets == (own, foreign)), None)
        end = end or End(peer, own, foreign)
        end.opened = self.place
        self.lives.append(Life(end))


def lives_of(net: Replayed, host: str, happened: Sequence[tuple[int, str]]) -> list[Life]:
    """The lives of a host by what its program heard and said, each after a number of the replay's events."""
    told = Told(host)
    left = [*happened]
    for at, step in enumerate([*net.steps, None]):
        while left and left[0][0] <= at:
            line = left.pop(0)[1]
            is_refused = bool(left) and left[0][1].startswith("refused ")
            if line.split(" ")[0] in DEEDS and not is_refused:
                told.does(line)
            elif line.split(" ")[0] not in CROSSES:
                told.tells(line)
        for line in step.texts if step is not None else ():
            if line.split(" ")[0] in CROSSES:
                told.crosses(line)
    return told.lives


def log_with_lives(net: Replayed, host: str, happened: Sequence[tuple[int, str]]) -> str:
    """The log of a replay in which a stranger is a host with a program, with the lives that it reports."""
    lives = lives_of(net, host, happened)
    return "".join(f"{it}\n" for it in with_lives(net.log.splitlines(), host, lives))


def with_lives(lines: Sequence[str], host: str, lives: Sequence[Life]) -> Iterator[str]:
    """The lines of a log with the lives of one more host."""
    yield from (it for it in lines if not it.startswith(("handed ", "end")) and it != f"foreign {host}")
    yield from (it.line(host) for it in lives)
    yield from (it for it in lines if it.startswith("handed "))
    yield from (f"handed {spell_bits(''.join(it.handed))}" for it in lives)
    yield "end"
