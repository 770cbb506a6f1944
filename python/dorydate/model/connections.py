"""What a host's program keeps of its connections: of each peer a pair, with the ends that it has there."""

from __future__ import annotations

from typing import Literal

from dorydate.model.bits import Bits
from dorydate.model.commands import LINKS

DATA_TEXT = 8023  # bits of data in one message

Phase = Literal["closed", "want", "gone", "heard", "ready"]
CLOSED: Phase = "closed"
WANT: Phase = "want"
GONE: Phase = "gone"
HEARD: Phase = "heard"
READY: Phase = "ready"


class End:
    """One end of a connection: an own socket, a peer, a foreign socket."""

    def __init__(self, own: int, foreign: int, mine: bool) -> None:
        self.own, self.foreign, self.mine = own, foreign, mine
        self.own_stamp: int | None = None
        self.partner_stamp: int | None = None
        self.asked = False  # whether a request of the partner was taken, also one that was refused
        self.close_asked = self.close_queued = self.close_sent = self.close_taken = False
        self.link: int | None = None
        self.size = 0  # until it is known
        self.messages = self.bits = 0
        self.waiting: Bits = ""

    def receives(self) -> bool:
        return self.own % 2 == 0

    def is_closing(self) -> bool:
        return self.close_queued or self.close_taken

    def is_open(self) -> bool:
        return self.own_stamp is not None and self.partner_stamp is not None and not self.is_closing()

    def known_link(self) -> int:
        """The link of an end that has one, as each has that is open."""
        assert self.link is not None
        return self.link

    def bytes_to_send(self) -> int:
        """How many bytes go in the next message."""
        if not self.is_open() or self.receives() or self.messages == 0:
            return 0
        return min(len(self.waiting) // self.size, self.bits // self.size, DATA_TEXT // self.size)


class Pair:
    """What a host keeps about one peer."""

    def __init__(self) -> None:
        self.phase = CLOSED
        self.early = False  # whether an RRP was taken since the RST that is out
        self.owed = False  # whether an RRP is to go out
        self.busy: list[int] = []  # links with a message that has no answer, the newest first
        self.ends: list[End] = []
        self.queue: list[bytes] = []  # commands that are to go out

    def forget(self) -> None:
        """A reset: no end is left, and no command."""
        self.ends, self.queue = [], []

    def end(self, own: int, foreign: int) -> End | None:
        """The end with these sockets."""
        return next((end for end in self.ends if (end.own, end.foreign) == (own, foreign)), None)

    def linked(self, receives: bool, link: int) -> list[End]:
        """The ends of one direction that have a link."""
        return [end for end in self.ends if end.receives() == receives and end.link == link]

    def free_link(self) -> int | None:
        """The lowest link that no receiving end has."""
        return next((link for link in LINKS if not self.linked(True, link)), None)
