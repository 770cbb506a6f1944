"""The events of hosts with programs: what their users ask for, and what services do."""

from __future__ import annotations

from dataclasses import dataclass

from dorydate.script.event import event
from dorydate.script.forms import a_text, number, part
from dorydate.script.kinds import OfHost, OfPeer, OfSocket
from dorydate.script.values import BadLine, Text


@event("offer")
@dataclass(frozen=True)
class Offer(OfHost):
    """A host hands its IMP the next message that its program has to send, if any."""


@event("contact")
@dataclass(frozen=True)
class Contact(OfPeer):
    """A host's user contacts a peer: everything between the two is reset."""


@event("echo")
@dataclass(frozen=True)
class Echo(OfPeer):
    """A user asks a peer to send an octet back."""

    octet: int = number(255)


@event("listen")
@dataclass(frozen=True)
class Listen(OfSocket):
    """A user waits on a socket for anybody's request."""

    size: int = number(255)


@event("opensend")
@dataclass(frozen=True)
class OpenSend(OfPeer):
    """A user asks for a connection on which it sends, from an odd socket, in bytes of this size."""

    own: int = number()
    foreign: int = number()
    size: int = number(255)


@event("openrecv")
@dataclass(frozen=True)
class OpenReceive(OfPeer):
    """A user asks for a connection on which it receives, to an even socket."""

    own: int = number()
    foreign: int = number()


@event("send")
@dataclass(frozen=True)
class Send(OfSocket):
    """A user sends bits on a connection."""

    text: Text = a_text()


@event("grant")
@dataclass(frozen=True)
class Grant(OfSocket):
    """A user lets the sender of a connection send more messages and bits."""

    messages: int = number(65535)
    bits: int = number()


@event("askback")
@dataclass(frozen=True)
class AskBack(OfSocket):
    """A user asks for a number of 128ths of the messages and bits that the sender may still send."""

    messages: int = number(255)
    bits: int = number(255)


@event("interrupt")
@dataclass(frozen=True)
class Interrupt(OfSocket):
    """A user interrupts the other end of a connection."""


@event("close")
@dataclass(frozen=True)
class Close(OfSocket):
    """A user closes a connection, or stops listening."""


@event("server")
@dataclass(frozen=True)
class Server(OfHost):
    """A server begins: users ask it on an odd socket, and it serves one of them on an even socket and the next."""

    listens: int = number()
    base: int = number()


@event("user")
@dataclass(frozen=True)
class User(OfPeer):
    """A user begins: from an even socket it asks a socket of a peer, and a line terminal runs there when that is done."""

    server: int = number()
    own: int = number()


@event("type")
@dataclass(frozen=True)
class Type(OfHost):
    """A line is typed at the terminal of a host that came last."""

    text: str = part(1, str)

    def __post_init__(self) -> None:
        super().__post_init__()
        if not all(" " <= it <= "~" for it in self.text):
            raise BadLine("what is typed is printable ASCII")
