"""What an IMP keeps, and what its queries say of it.

It was written from docs/imp.md, in another language and another form than the definitions.
"""

from __future__ import annotations

from dataclasses import dataclass
from typing import Literal, NamedTuple

from dorydate.model.bits import Bits
from dorydate.model.channels import Channels
from dorydate.model.crossings import Reply
from dorydate.model.names import Flow, HostName, Refused
from dorydate.model.packets import INFINITE, MOST_IMPS, REQUESTS, Content, Kind, Packet
from dorydate.model.resting import Kept

SLOTS, STORE, QUEUE = 8, 32, 16
FARTHER: list[int] = [*range(1, INFINITE + 1), INFINITE]  # of each distance: that from one line farther away

Fate = Literal["waits", "taken", "dead", "never"]


@dataclass(frozen=True)
class Numbers:
    """The numbers of a flow's messages: how many there are before they wrap around, and how far back one is old."""

    count: int = 65536
    window: int = 32767

    def following(self, number: int | None) -> int:
        """The number after another one, the first where there is none."""
        return 0 if number is None else (number + 1) % self.count

    def is_after(self, number: int, other: int) -> bool:
        """Whether a number is new where the other one is the last that was noted."""
        return 1 <= (number - other) % self.count <= self.window


NUMBERS = Numbers()


class Arrived(NamedTuple):
    """A message that is whole and waits for its host."""

    flow: Flow
    number: int
    text: Bits


class HostPort(Kept):
    """What an IMP keeps of one of its hosts: whether it is up, and the answers and messages that wait for it, the oldest first."""

    def __init__(self) -> None:
        self.is_up = True
        self.answers: list[Reply] = []
        self.messages: list[Arrived] = []


class Port(Kept):
    """An end of a line: whether it is up, its channels, and the distances that its neighbour sent last."""

    ASIDE = ("accepted",)

    def __init__(self) -> None:
        self.accepted: set[tuple[Kind, Flow, int, int]] = set()  # what came in since the IMP started: no rule looks at it, only those who report repeats
        self.reset()

    def reset(self) -> None:
        """Begins anew."""
        self.is_up, self.line = True, Channels()
        self.heard: list[int] | None = None


Pieces = dict[int, tuple[bool, Bits]]  # of each place: whether it is the last, and its bits


class ImpState(Kept):
    """What one IMP keeps."""

    ASIDE = ("frames", "lost")

    def __init__(self, number: int, hosts: int, ports: int, numbers: Numbers = NUMBERS) -> None:
        self.number, self.numbers = number, numbers
        self.hosts = [HostPort() for _ in range(hosts)]
        self.ports = [Port() for _ in range(ports)]
        self.claims = False  # it claims to be at distance 0 from every IMP
        self.store: list[Packet] = []
        self.slots: dict[Flow, tuple[int, Pieces]] = {}  # the number of a flow's message, and its pieces by place
        self.outstanding: dict[Flow, int] = {}
        self.answered: set[Flow] = set()  # flows whose message begun last has its answer waiting for the host
        self.last: dict[Flow, int] = {}
        self.kept: dict[Flow, int] = {}
        self.fates: dict[Flow, Fate] = {}  # of a flow whose number is kept: what became of its message
        self.frames: list[tuple[int, int, Content]] = []  # what it sends: the port, the acknowledgement bits and the content
        self.lost = 0  # frames that had no room

    def distance(self, port: int, imp: int) -> int:
        """The distance to another IMP by way of a port."""
        heard = self.ports[port].heard
        return INFINITE if heard is None else FARTHER[heard[imp - 1]]

    def route(self, imp: int) -> int | None:
        """The port that leads to an IMP."""
        if not 1 <= imp <= MOST_IMPS or imp == self.number:
            return None
        ways = [(self.distance(port, imp), port) for port in range(len(self.ports)) if self.ports[port].is_up]
        distance, port = min(ways, default=(INFINITE, 0))
        return port if distance < INFINITE else None

    def vector(self) -> list[int]:
        """The distances to all IMPs, as it announces them to its neighbours."""
        if self.claims:
            return [0] * MOST_IMPS
        heard = [port.heard for port in self.ports if port.heard is not None]
        least = heard[0] if len(heard) == 1 else [min(told) for told in zip(*heard)] if heard else [INFINITE] * MOST_IMPS
        distances = [FARTHER[it] for it in least]
        distances[self.number - 1] = 0
        return distances

    def packets(self) -> list[Packet]:
        """The packets in store and channels."""
        return self.store + [packet for port in self.ports for packet in port.line.held()]

    def room(self, count: int) -> bool:
        """Whether it has room for this many packets more."""
        return len(self.packets()) + count <= STORE

    def runs(self, host: HostName) -> bool:
        """Whether a host of this IMP is there and up."""
        number, imp = host
        return imp == self.number and number < len(self.hosts) and self.hosts[number].is_up

    def own(self, host: HostName) -> HostPort:
        """A host of this IMP, which has to be there."""
        number, imp = host
        if imp != self.number or number >= len(self.hosts):
            raise Refused("NoSuch")
        return self.hosts[number]

    def answer_waits(self, flow: Flow) -> bool:
        """Whether an answer about a flow waits for its source."""
        return any(flow == it.flow for host in self.hosts for it in host.answers)

    def is_new(self, flow: Flow, number: int) -> bool:
        """Whether a message has not come to its end here."""
        return flow not in self.kept or self.numbers.is_after(number, self.kept[flow])

    def everything(self) -> list[tuple[Flow, int, bool]]:
        """Flow, number and whether it is a request, of all that it holds."""
        pieces = [(flow, number, True) for flow, (number, _) in self.slots.items()]
        queued = [(it.flow, it.number, True) for host in self.hosts for it in host.messages]
        return pieces + queued + [(packet.flow, packet.number, packet.kind in REQUESTS) for packet in self.packets()]

    def next_number(self, flow: Flow) -> int:
        """The number that a flow's next message has."""
        return self.numbers.following(self.last.get(flow))

    def oldest(self, flow: Flow) -> int:
        """The number that may not be alive where the flow's next one is begun."""
        return (self.last[flow] - self.numbers.window) % self.numbers.count

    def awaits(self, imp: int) -> bool:
        """Whether a message from one of its hosts to a host at this IMP is outstanding."""
        return any(flow.destination.imp == imp for flow in self.outstanding)

    def begins(self, flow: Flow) -> bool:
        """Whether a message of this flow would begin, and not be refused or dead at once."""
        source, destination, _ = flow
        is_idle = self.runs(source) and flow not in self.outstanding and not self.answer_waits(flow)
        here = destination.imp == self.number
        return is_idle and (self.runs(destination) if here else self.route(destination.imp) is not None)
