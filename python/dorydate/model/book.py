"""The book of the connections of all hosts: their lives, and the notices and reports."""

from __future__ import annotations

from dataclasses import dataclass, field
from typing import Literal

from dorydate.model.bits import Bits, read_bits
from dorydate.model.names import HostName, read_host, spell_host

# How far a life is: it continues (and somebody at its host has closed it), it is over by CLS (and somebody at its host had closed it, or nobody
# had), its pair was reset, its host stopped
Fate = Literal["open", "closing", "closed", "ended", "reset", "stopped"]


@dataclass
class Life:
    """One opening of one end of a connection, from its notice to its end."""

    host: HostName
    socket: int
    peer: HostName
    foreign: int
    own: int  # the place in the log where the own request went out
    partner: int  # and that where the partner's was taken
    bits: Bits = ""  # what was sent, or taken
    messages: int = 0
    granted: list[int] = field(default_factory=lambda: [0, 0])  # messages and bits
    returned: list[int] = field(default_factory=lambda: [0, 0])
    fate: Fate = "open"
    handed: Bits = ""  # what the user gave to be sent

    def receives(self) -> bool:
        return self.socket % 2 == 0

    @property
    def has_ended(self) -> bool:
        """Whether it is over."""
        return self.fate not in ("open", "closing")

    def carry(self, bits: Bits) -> None:
        """A message of the connection went out, or was taken."""
        self.bits += bits
        self.messages += 1

    def grant(self, messages: int, bits: int) -> None:
        """The user lets the partner send so much more."""
        self.granted = [self.granted[0] + messages, self.granted[1] + bits]

    def take_back(self, messages: int, bits: int) -> None:
        """The partner returned so much of that."""
        self.returned = [self.returned[0] + messages, self.returned[1] + bits]

    def spell(self) -> str:
        """Its line in a book, which only says whether it is over."""
        return self.spell_as("ended" if self.has_ended else "open")

    def spell_as(self, word: str) -> str:
        """Its line without its bits, and with this last word."""
        kind = "receive" if self.receives() else "send"
        ends = f"{spell_host(self.host)} {self.socket} {spell_host(self.peer)} {self.foreign} {self.own} {self.partner}"
        counts = [self.messages, len(self.bits), *self.granted, *self.returned]
        return " ".join(["life", ends, kind, *map(str, counts), word])


class Book:
    """What is kept of all hosts, each entry with the number of crossings before it."""

    def __init__(self) -> None:
        self.notices: list[tuple[HostName, str, int]] = []
        self.contacts: list[tuple[HostName, HostName, int]] = []
        # each report with the number of notices up to that which it is about
        self.reports: list[tuple[HostName, tuple[str, ...], int]] = []
        self.lives: list[Life] = []
        self.strays = 0  # notices of bits that are in no life: there is none, unless a rule is lacking

    def life(self, host: HostName, socket: int) -> Life:
        """The life of a host's socket that hasn't ended. Where there is none, one that is in no book."""
        for life in self.lives:
            if (life.host, life.socket) == (host, socket) and not life.has_ended:
                return life
        self.strays += 1
        return Life(host, socket, host, 0, 0, 0)

    def close(self, host: HostName, socket: int) -> None:
        """Somebody at a host closes the end of its socket. It may have no life."""
        for life in self.going(host):
            if life.socket == socket:
                life.fate = "closing"

    def going(self, host: HostName) -> list[Life]:
        """The lives of a host that aren't over."""
        return [life for life in self.lives if life.host == host and not life.has_ended]

    def stop(self, host: HostName) -> None:
        """The host of these lives stops."""
        for life in self.going(host):
            life.fate = "stopped"

    def reset(self, host: HostName, peer: HostName) -> None:
        """All connections of a host with a peer are gone."""
        for life in self.going(host):
            if life.peer == peer:
                life.fate = "reset"

    def end(self, host: HostName, peer: HostName, sockets: tuple[int, int]) -> None:
        """An end is over by CLS."""
        for life in self.going(host):
            if life.peer == peer and sockets == (life.socket, life.foreign):
                life.fate = "closed" if life.fate == "closing" else "ended"

    def hear(self, host: HostName, words: list[str]) -> None:
        """Changes the lives by a notice."""
        match words:
            case ["opened", own, peer, foreign, own_stamp, partner_stamp]:
                self.lives.append(Life(host, int(own), read_host(peer), int(foreign), int(own_stamp), int(partner_stamp)))
            case ["ended", own, peer, foreign]:
                self.end(host, read_host(peer), (int(own), int(foreign)))
            case ["pairreset", peer]:
                self.reset(host, read_host(peer))
            case ["sent" | "arrived", own, count, digits]:
                self.life(host, int(own)).carry(read_bits(count, digits))
            case ["returned", own, messages, bits]:
                self.life(host, int(own)).take_back(int(messages), int(bits))
