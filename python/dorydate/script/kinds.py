"""What events are of: a host, a flow, a frame, an IMP. Each is the first part of several lines."""

from __future__ import annotations

from dataclasses import dataclass

from dorydate.network import Host
from dorydate.script.event import Event
from dorydate.script.forms import a_flow, a_host, number, part
from dorydate.script.values import Flow, way_of


@dataclass(frozen=True)
class OfHost(Event):
    """An event of a host."""

    host: Host = a_host()


@dataclass(frozen=True)
class OfPeer(OfHost):
    """An event of a host and a peer."""

    peer: Host = a_host()


@dataclass(frozen=True)
class OfSocket(OfHost):
    """An event of a host's socket."""

    socket: int = number()


@dataclass(frozen=True)
class OfFlow(Event):
    """An event of the messages from one host to another on a link."""

    flow: Flow = a_flow()


@dataclass(frozen=True)
class OfFrame(Event):
    """An event of the frame at a place of a line."""

    line: int = number()
    way: str = part(1, way_of)
    place: int = number()


@dataclass(frozen=True)
class OfImp(Event):
    """An event of an IMP."""

    imp: int = number(63, 1)


@dataclass(frozen=True)
class OfEnd(OfImp):
    """An event of an IMP's end of a line."""

    line: int = number()
