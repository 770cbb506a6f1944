"""Networks below hosts that lack a rule each: mailboxes in which a message may be overtaken, IMPs, and subnets.

Plain mailboxes have two events more here, `hold` and `free`: the mailboxes promise nothing about the order of messages on different
links, so a message may be taken long after others that went out later.
"""

from __future__ import annotations

from collections.abc import Iterable, Sequence
from typing import Any

from dorydate.model.bits import Bits
from dorydate.model.boxes import Boxes
from dorydate.model.imp import Deed, Imp
from dorydate.model.imp_state import NUMBERS, Numbers
from dorydate.model.names import Flow, HostName, Refused
from dorydate.model.packets import NEVER, Packet
from dorydate.model.subnet import Subnet
from dorydate.model.world import World


class Overtaken(Boxes):
    """Plain mailboxes that hold a message back until it is let go."""

    def __init__(self, imps: Iterable[tuple[int, int]]) -> None:
        super().__init__(imps)
        self.held: list[tuple[Flow, Bits]] = []

    def step(self, kind: str, *parts: Any) -> None:
        if kind == "hold":
            self.hold(*parts)
        elif kind == "free":
            self.free(*parts)
        else:
            super().step(kind, *parts)

    def hold(self, flow: Flow) -> None:
        """Holds a message back."""
        self.held += [it for it in self.messages if it[0] == flow]
        self.messages = [it for it in self.messages if it[0] != flow]

    def free(self, flow: Flow) -> None:
        """Lets it go."""
        self.messages += [it for it in self.held if it[0] == flow]
        self.held = [it for it in self.held if it[0] != flow]

    def out(self, flow: Flow, text: Bits) -> None:
        if any(it == flow for it, _ in self.held):
            raise Refused("Blocked")
        super().out(flow, text)

    def hostup(self, host: HostName) -> None:
        self.host(host)
        if not self.is_up[host] and any(flow.source == host for flow, _ in self.held):
            raise Refused("Unsettled")
        super().hostup(host)


class Held(World):
    """A world over mailboxes that may hold a message back."""

    further = frozenset({"hold", "free"})


# ---- IMPs


class Unnoted(Imp):
    """An IMP that doesn't note the number of a message that it has put together."""

    def reassembly_of(self, packet: Packet) -> Deed | None:
        deed = super().reassembly_of(packet)
        return deed and self.unnoted(deed, packet.flow)

    def unnoted(self, deed: Deed, flow: Flow) -> Deed:
        """A deed after which no number of a flow is noted."""

        def both() -> None:
            deed()
            self.kept.pop(flow, None)

        return both


class AskedUnnoted(Imp):
    """An IMP that doesn't note a new number that it is asked about."""

    def answer_to(self, flow: Flow, number: int) -> Deed | None:
        return self.with_reply(NEVER, flow, number) if self.is_new(flow, number) else super().answer_to(flow, number)


class Impatient(Imp):
    """An IMP that says Never of a message that waits."""

    def answer_to(self, flow: Flow, number: int) -> Deed | None:
        waits = self.kept.get(flow) == number and self.fates[flow] == "waits"
        return self.with_reply(NEVER, flow, number) if waits else super().answer_to(flow, number)


# ---- subnets


class BeginsKept(Subnet):
    """A subnet in which a number is begun though the destination's IMP keeps it."""

    def is_kept(self, flow: Flow, number: int) -> bool:
        return False


class Careless(Subnet):
    """A subnet in which one event doesn't ask whether something is still alive."""

    def __init__(self, imps: Iterable[tuple[int, int]], lines: Sequence[tuple[int, ...]], numbers: Numbers = NUMBERS, event: str = "") -> None:
        super().__init__(imps, lines, numbers)
        self.event, self.asks = event, True

    def step(self, kind: str, *parts: Any) -> None:
        self.asks = kind != self.event
        try:
            super().step(kind, *parts)
        finally:
            self.asks = True

    def alive(self) -> list[tuple[Flow, int, bool]]:
        return super().alive() if self.asks else []

    def impup(self, number: int) -> None:
        if self.asks or self.imps.get(number) is not None:
            return super().impup(number)
        self.site(number)
        self.start(number)
