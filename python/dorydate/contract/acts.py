"""What a host's own log has, act by act: what crosses between it and its network, what its users do and hear.

A peer is the word for a host, as `0/2`. Of two sockets the first is the host's own.
"""

from __future__ import annotations

from dataclasses import dataclass
from typing import Optional, Union

from dorydate.model.bits import Bits

Peer = str
Ignored = Optional[frozenset[int]]  # which commands of a text; None where nobody says, and then the links decide


# ---- what crosses


@dataclass(frozen=True)
class Goes:
    """A message goes out."""

    peer: Peer
    link: int
    text: Bits


@dataclass(frozen=True)
class Comes:
    """A message is taken. Of its requests those that are ignored are answered by an error at most."""

    peer: Peer
    link: int
    text: Bits
    ignored: Ignored = None


@dataclass(frozen=True)
class Answered:
    """An answer about its message on a link is taken: `rfnm`, `dead`, `incomplete` or `nottaken`."""

    peer: Peer
    link: int
    kind: str


@dataclass(frozen=True)
class Stops:
    """The host stops."""


@dataclass(frozen=True)
class Starts:
    """The host starts."""


# ---- what its users do


@dataclass(frozen=True)
class Contacts:
    """A user begins a reset with a peer."""

    peer: Peer


@dataclass(frozen=True)
class AtEnd:
    """Something about the end of two sockets."""

    peer: Peer
    own: int
    foreign: int

    @property
    def sockets(self) -> tuple[int, int]:
        return self.own, self.foreign


@dataclass(frozen=True)
class Amount(AtEnd):
    """How much more may be sent there, or no longer."""

    messages: int
    bits: int


@dataclass(frozen=True)
class Asks(AtEnd):
    """A user asks for a connection; its request goes out later."""


@dataclass(frozen=True)
class Hands(AtEnd):
    """A user hands bits over to be sent."""

    bits: Bits


@dataclass(frozen=True)
class Grants(Amount):
    """A user lets the partner send so much more."""


@dataclass(frozen=True)
class Closes(AtEnd):
    """A user closes an end."""


# ---- what they hear


@dataclass(frozen=True)
class Opened(AtEnd):
    """The end is open."""


@dataclass(frozen=True)
class Arrived(AtEnd):
    """A message of data has arrived; of how many bits, and of which, where that is said."""

    count: Optional[int] = None
    bits: Optional[Bits] = None


@dataclass(frozen=True)
class Returned(Amount):
    """The partner gave back so much of what it was granted."""


@dataclass(frozen=True)
class Ended(AtEnd):
    """The connection is over by both CLS."""


Crosses = Union[Goes, Comes, Answered, Stops, Starts]
Told = Union[Opened, Arrived, Returned, Ended]
Act = Union[Crosses, Contacts, Asks, Hands, Grants, Closes, Told]
