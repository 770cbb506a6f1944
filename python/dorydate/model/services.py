"""What runs on hosts: the initial connection, the line terminal and the echo service: an independent implementation of their rules.

They were written from the rules that docs/initial-connection.md retells and from RFC 165, in another language and another
form than the definitions. Each is given the notices of its host's program and gives requests; what it reports is fetched
after them.
"""

from __future__ import annotations

from abc import ABC, abstractmethod
from typing import Any, TypeAlias

from dorydate.model.bits import Bits, octets, read_bits
from dorydate.model.names import HostName, read_host

MOST_SOCKET = 4294967295
FIRST_MESSAGES, FIRST_BITS = 4, 4096

Request: TypeAlias = tuple[Any, ...]  # what a program asks its host's for: the kind of the request, and its parts
Report: TypeAlias = tuple[str, ...]  # the words that are printed after the host: the kind, and what it is about


class Running(ABC):
    """What runs on a host."""

    @abstractmethod
    def start(self) -> list[Request]:
        """What it asks for at first."""

    @abstractmethod
    def notice(self, kind: str, *words: str) -> list[Request]:
        """What it asks for when it hears a notice."""

    @abstractmethod
    def refused(self, fault: str) -> bool:
        """One of its requests was refused: whether those after it are passed over."""

    @abstractmethod
    def reports(self) -> list[Report]:
        """What it reports since it was asked last."""


# ---- the initial connection


class Machine(Running):
    """Server or user: it comes to one outcome, and says nothing after it."""

    NAME: str

    def __init__(self) -> None:
        self.outcome: tuple[Any, ...] | None = None  # "done" and two sockets, or "failed" and a reason
        self.is_told = False

    def fail(self, reason: str) -> list[Request]:
        """Fails, unless it has come to its outcome."""
        self.outcome = self.outcome or ("failed", reason)
        return []

    def refused(self, fault: str) -> bool:
        self.fail("local")
        return True

    def reports(self) -> list[Report]:
        if self.outcome is None or self.is_told:
            return []
        self.is_told = True
        kind, *words = self.outcome
        return [(f"{kind} {self.NAME}", *map(str, words))]

    def notice(self, kind: str, *words: str) -> list[Request]:
        return [] if self.outcome else self.hear(kind, *words)

    @abstractmethod
    def hear(self, kind: str, *words: str) -> list[Request]:
        """What it asks for when it hears a notice before its outcome."""


class Server(Machine):
    """Listens on L, and sends its first user the base S of a pair of sockets on which it listens too."""

    NAME = "server"

    def __init__(self, listens: int, base: int) -> None:
        super().__init__()
        self.listens, self.base = listens, base
        self.opened: dict[int, tuple[HostName, int]] = {}  # of an own socket: the peer and the foreign socket of its first opening; later ones are passed over
        self.peers: set[HostName] = set()

    def start(self) -> list[Request]:
        if self.listens % 2 == 0 or self.base % 2:
            return self.fail("badsocket")
        return [("listen", self.listens, 32), ("listen", self.base, 8), ("listen", self.base + 1, 8)]

    def hear(self, kind: str, *words: str) -> list[Request]:
        match kind, words:
            case "opened", [own, peer, foreign, *_]:
                return self.hear_opened(int(own), read_host(peer), int(foreign))
            case "ended", [own, *_]:
                if int(own) in (self.base, self.base + 1) or int(own) == self.listens and self.listens not in self.opened:
                    return self.fail("refused")
            case "pairreset", [peer]:
                if read_host(peer) in self.peers:
                    return self.fail("reset")
        return []

    def hear_opened(self, own: int, peer: HostName, foreign: int) -> list[Request]:
        """One of its sockets opened."""
        if own not in (self.listens, self.base, self.base + 1) or own in self.opened:
            return []
        self.peers.add(peer)
        self.opened[own] = peer, foreign
        if own == self.listens:
            return [("send", self.listens, f"{self.base:032b}"), ("close", self.listens)]
        if self.base in self.opened and self.base + 1 in self.opened:
            self.judge()
        return []

    def judge(self) -> None:
        """Both sockets of the pair have opened: whether with the user's."""
        peer, asked = self.opened.get(self.listens, (None, 0))
        if (self.opened[self.base], self.opened[self.base + 1]) == ((peer, asked + 3), (peer, asked + 2)):
            self.outcome = "done", self.base, self.base + 1
        else:
            self.fail("stranger")


class User(Machine):
    """Asks L of a host for the base S, and then for the pair of connections with S and S+1."""

    NAME = "user"

    def __init__(self, peer: HostName, server: int, own: int) -> None:
        super().__init__()
        self.peer, self.server, self.own = peer, server, own
        self.bits: Bits = ""
        self.base: int | None = None
        self.is_open = False  # the connection with L
        self.opened: set[int] = set()

    def start(self) -> list[Request]:
        if self.server % 2 == 0 or self.own % 2 or self.own + 3 > MOST_SOCKET:
            return self.fail("badsocket")
        return [("openrecv", self.peer, self.own, self.server)]

    def hear(self, kind: str, *words: str) -> list[Request]:
        own = int(words[0]) if kind in ("opened", "arrived", "ended") else None
        match kind:
            case "opened" if read_host(words[1]) == self.peer:
                return self.hear_opened(int(words[0]), int(words[2]))
            case "arrived" if own == self.own and self.base is None and self.is_open:
                return self.hear_bits(read_bits(words[1], words[2]))
            case "ended" if own in ([self.own] if self.base is None else [self.own + 2, self.own + 3]):
                return self.fail("refused")
            case "pairreset" if read_host(words[0]) == self.peer:
                return self.fail("reset")
        return []

    def hear_opened(self, own: int, foreign: int) -> list[Request]:
        """One of its sockets opened."""
        if (own, foreign) == (self.own, self.server) and self.base is None and not self.is_open:
            self.is_open = True
            return [("grant", own, 1, 32)]
        if self.base is not None and (own, foreign) in ((self.own + 2, self.base + 1), (self.own + 3, self.base)):
            self.opened.add(own)
            if len(self.opened) == 2:
                self.outcome = "done", self.own + 2, self.own + 3
        return []

    def hear_bits(self, bits: Bits) -> list[Request]:
        """Bits of the base arrived."""
        self.bits += bits
        if len(self.bits) < 32:
            return []
        base = self.base = int(self.bits[:32], 2)
        close: Request = ("close", self.own)
        if base % 2:
            self.fail("badsocket")
            return [close]
        return [close, ("openrecv", self.peer, self.own + 2, base + 1), ("opensend", self.peer, self.own + 3, base, 8)]


# ---- what follows the initial connection


class Service(Running):
    """Receives on one socket and sends on another. A refused request is passed over."""

    def __init__(self, receives: int, sends: int) -> None:
        self.receives, self.sends = receives, sends

    def start(self) -> list[Request]:
        return [("grant", self.receives, FIRST_MESSAGES, FIRST_BITS)]

    def refused(self, fault: str) -> bool:
        return False

    def reports(self) -> list[Report]:
        return []

    def notice(self, kind: str, *words: str) -> list[Request]:
        own = int(words[0]) if kind in ("arrived", "ended") else None
        if kind == "arrived" and own == self.receives:
            bits = read_bits(words[1], words[2])
            return [("grant", self.receives, 1, len(bits)), *self.hear(bits)]
        if kind == "ended" and own in (self.receives, self.sends):
            return [("close", self.sends if own == self.receives else self.receives)]
        return []

    @abstractmethod
    def hear(self, bits: Bits) -> list[Request]:
        """What it asks for when bits arrive."""


class Echo(Service):
    """Sends back what arrives, all its bits at each arrival, whatever the size of the bytes."""

    def hear(self, bits: Bits) -> list[Request]:
        return [("send", self.sends, bits)] if bits else []


class Terminal(Service):
    """Tells the lines that arrive, each ended by 13 and 10."""

    def __init__(self, receives: int, sends: int) -> None:
        super().__init__(receives, sends)
        self.part: Bits = ""  # the bits after the last whole octet
        self.kept = b""
        self.lines: list[bytes] = []

    def hear(self, bits: Bits) -> list[Request]:
        bits = self.part + bits
        whole = len(bits) // 8 * 8
        self.part = bits[whole:]
        *lines, self.kept = (self.kept + octets(bits[:whole])).split(b"\r\n")
        self.lines += lines
        return []

    def reports(self) -> list[Report]:
        lines, self.lines = self.lines, []
        return [("line", "".join(chr(it) if 32 <= it <= 126 else "?" for it in line)) for line in lines]


def program_after(machine: Machine) -> Service:
    """What follows a machine that is done: the echo service after a server, the terminal after a user."""
    assert machine.outcome is not None
    _, receives, sends = machine.outcome
    return (Echo if isinstance(machine, Server) else Terminal)(receives, sends)
