"""The events of hosts without programs, of IMPs and of lines, and the calm."""

from __future__ import annotations

from dataclasses import dataclass

from dorydate.script.event import Event, event
from dorydate.script.forms import a_text, number
from dorydate.script.kinds import OfEnd, OfFlow, OfFrame, OfHost, OfImp
from dorydate.script.values import MOST_BITS, BadLine, Text


@event("out")
@dataclass(frozen=True)
class Out(OfFlow):
    """A host hands its IMP a message: any host of a raw network, and a stranger."""

    text: Text = a_text()

    def __post_init__(self) -> None:
        super().__post_init__()
        if self.text.bits > MOST_BITS:
            raise BadLine(f"a message has at most {MOST_BITS} bits")


@event("take")
@dataclass(frozen=True)
class Take(OfHost):
    """A host takes what waits for it: the oldest answer, or else the oldest message."""


@event("giveup")
@dataclass(frozen=True)
class GiveUp(OfFlow):
    """The network gives up the outstanding message of a flow."""


@event("hostdown")
@dataclass(frozen=True)
class HostDown(OfHost):
    """A host stops."""


@event("hostup")
@dataclass(frozen=True)
class HostUp(OfHost):
    """A host starts."""


@event("deliver")
@dataclass(frozen=True)
class Deliver(OfFrame):
    """The frame at a place of a line arrives; it stays on the line, so that it may arrive again. Place 0 is the oldest."""


@event("drop")
@dataclass(frozen=True)
class Drop(OfFrame):
    """The frame at a place of a line is gone."""


@event("garble")
@dataclass(frozen=True)
class Garble(OfFrame):
    """The frame at a place of a line arrives with a wrong checksum: its receiver refuses it, and it is gone."""


@event("resend")
@dataclass(frozen=True)
class Resend(OfImp):
    """An IMP sends again what is not acknowledged yet."""


@event("route")
@dataclass(frozen=True)
class Route(OfImp):
    """An IMP sends its neighbours its distances."""


@event("claim")
@dataclass(frozen=True)
class Claim(OfImp):
    """Until it stops, an IMP claims to be at distance 0 from every IMP."""


@event("enddown")
@dataclass(frozen=True)
class EndDown(OfEnd):
    """An IMP's end of a line stops."""


@event("endup")
@dataclass(frozen=True)
class EndUp(OfEnd):
    """An IMP's end of a line starts."""


@event("impdown")
@dataclass(frozen=True)
class ImpDown(OfImp):
    """An IMP stops and forgets everything."""


@event("impup")
@dataclass(frozen=True)
class ImpUp(OfImp):
    """An IMP starts; its hosts are down."""


@event("forget")
@dataclass(frozen=True)
class Forget(OfImp):
    """An IMP drops the last numbers of flows from another."""

    other: int = number(63, 1)


@event("abandon")
@dataclass(frozen=True)
class Abandon(OfFlow):
    """The destination's IMP throws away the pieces that it holds of a flow."""


@event("ask")
@dataclass(frozen=True)
class Ask(OfFlow):
    """The source's IMP asks the destination's what became of the outstanding message of a flow."""


@event("calm")
@dataclass(frozen=True)
class Calm(Event):
    """Quiet rounds pass, in each of which all hosts have their turns."""

    rounds: int = number()
