"""The subnet: an independent implementation of its rules.

It was written from docs/subnet.md over the independent model of one IMP, in another language and another form than the
definitions. `check model` compares the program with it. Each event prints what crosses, or why it is refused.
"""

from __future__ import annotations

import copy
from collections.abc import Callable, Iterable, Sequence
from typing import Protocol, TypeVar

from dorydate.model.bits import Bits
from dorydate.model.crossings import Answered, Carrier, Given, Message, Passed, Turned
from dorydate.model.imp import Imp
from dorydate.model.imp_state import NUMBERS, Numbers
from dorydate.model.names import Flow, HostName, Refused
from dorydate.model.packets import REQUESTS, Carried, Frame
from dorydate.model.resting import is_looked_at

PLACES = 256  # frames that are live on a line, each way
TAKES = 16  # takings of a host in a round of `calm`
FAR = {"+": 1, "-": 0}  # of each way of a line: which of its ends it leads to

T = TypeVar("T")
Ways = dict[str, list[Frame]]  # of each way of a line: its live frames, the oldest first


class MakesImp(Protocol):
    """What makes an IMP: from its number, and how many hosts and lines it has."""

    def __call__(self, number: int, hosts: int, ports: int, numbers: Numbers) -> Imp: ...


class Subnet(Carrier):
    """IMPs by number, and lines with the frames that are live each way, the oldest first."""

    def __init__(self, imps: Iterable[tuple[int, int]], lines: Sequence[tuple[int, ...]], numbers: Numbers = NUMBERS, make_imp: MakesImp = Imp) -> None:
        super().__init__()
        self.sites = dict(sorted(imps))
        self.ends = lines
        self.numbers, self.make_imp = numbers, make_imp
        self.at = {number: [line for line, ends in enumerate(lines) if number in ends] for number in self.sites}
        self.imps: dict[int, Imp | None] = {number: self.imp_of(number) for number in self.sites}
        self.live: list[Ways] = [{"+": [], "-": []} for _ in lines]

    def hosts(self) -> list[HostName]:
        return [HostName(host, number) for number, count in self.sites.items() for host in range(count)]

    def imp_of(self, number: int) -> Imp:
        """An IMP that starts."""
        return self.make_imp(number, self.sites[number], len(self.at[number]), self.numbers)

    # ---- lines

    def port_of(self, number: int, line: int) -> int:
        """An IMP's ports are its lines in their order."""
        return sum(it < line for it in self.at[number])

    def lines_of(self, number: int) -> list[int]:
        """The lines of an IMP, in the order of its ports."""
        return self.at[number]

    def call(self, number: int, call: Callable[[Imp], T]) -> T:
        """Lets an IMP make a call and pump, and puts its frames on its lines."""
        imp = self.up(number)
        imp.frames = []
        given = call(imp)
        imp.pump()
        lines = self.lines_of(number)
        for port, acknowledged, content in imp.frames:
            way = self.live[lines[port]]["+" if self.ends[lines[port]][0] == number else "-"]
            if len(way) < PLACES:
                way.append(Frame(acknowledged, content))
        return given

    # ---- what is alive

    def alive(self) -> list[tuple[Flow, int, bool]]:
        """Flow, number and whether it is a request, of all that IMPs hold and live frames carry."""
        held = [entry for imp in self.imps.values() if imp is not None for entry in imp.everything()]
        carried = [it.content for ways in self.live for way in ways.values() for it in way if isinstance(it.content, Carried)]
        return held + [(it.packet.flow, it.packet.number, it.packet.kind in REQUESTS) for it in carried]

    def is_alive(self, flow: Flow, number: int) -> bool:
        """Whether something of a message is alive."""
        return any(entry[:2] == (flow, number) for entry in self.alive())

    def is_kept(self, flow: Flow, number: int) -> bool:
        """Whether the destination's IMP is up and keeps this number as the flow's last one."""
        imp = self.imps.get(flow.destination.imp)
        return imp is not None and imp.kept.get(flow) == number

    def is_awaiting(self, other: int, at: int) -> bool:
        """Whether a message to a host at an IMP is outstanding at another one, if that is up."""
        imp = self.imps[other]
        return imp is not None and imp.awaits(at)

    def is_awaited(self, at: int) -> bool:
        """Whether a message to a host at an IMP is outstanding at any other one that is up."""
        return any(imp.awaits(at) for number, imp in self.imps.items() if imp is not None and number != at)

    # ---- what is there

    def up(self, number: int) -> Imp:
        """An IMP, which has to be up."""
        imp = self.imps[number]
        if imp is None:
            raise Refused("IsDown")
        return imp

    def site(self, number: int) -> None:
        """Refuses an IMP that is not there."""
        if number not in self.sites:
            raise Refused("NoSuch")

    def host(self, host: HostName) -> None:
        """Refuses a host that is not there."""
        number, imp = host
        if number >= self.sites.get(imp, 0):
            raise Refused("NoSuch")

    def end(self, imp: int, line: int) -> None:
        """Refuses an end of a line that is not there."""
        self.site(imp)
        if line >= len(self.ends) or imp not in self.ends[line]:
            raise Refused("NoSuch")

    def way(self, line: int, direction: str) -> list[Frame]:
        """The live frames on a way of a line; none where there is no such line."""
        return self.live[line][direction] if line < len(self.live) else []

    # ---- events

    def out(self, flow: Flow, text: Bits) -> None:
        source = flow.source
        self.host(source)
        imp = self.imps[source.imp]
        if imp is not None and imp.begins(flow):
            if flow in imp.last and self.is_alive(flow, imp.oldest(flow)):
                raise Refused("StillAlive")
            if self.is_kept(flow, imp.next_number(flow)):
                raise Refused("StillAlive")
        self.call(source.imp, lambda imp: imp.from_host(flow, text))
        self.cross(Passed("out", flow, text))

    def take(self, host: HostName) -> Given | None:
        self.host(host)
        given = self.call(host.imp, lambda imp: imp.to_host(host.number))
        if isinstance(given, Message):
            self.cross(Passed("in", given.flow, given.text))
        elif given is not None:
            self.cross(Answered("answer", given.kind, given.flow))
        return given

    def deliver(self, line: int, direction: str, place: int) -> None:
        """A live frame arrives, and stays on its line."""
        way = self.way(line, direction)
        if place >= len(way):
            raise Refused("NoSuch")
        far = self.ends[line][FAR[direction]]
        if self.imps[far] is not None:
            port, frame = self.port_of(far, line), way[place]
            self.call(far, lambda imp: imp.from_line(port, frame.acknowledged, frame.content))

    def drop(self, line: int, direction: str, place: int) -> None:
        """A live frame is gone."""
        way = self.way(line, direction)
        if place >= len(way):
            raise Refused("NoSuch")
        del way[place]

    def garble(self, line: int, direction: str, place: int) -> None:
        """A live frame arrives with a wrong checksum: nothing in it is looked at, or acknowledged."""
        self.drop(line, direction, place)

    def resend(self, number: int) -> None:
        """An IMP sends again what is in its channels."""
        self.site(number)
        self.call(number, Imp.resend)

    def route(self, number: int) -> None:
        """An IMP sends its neighbours its distances."""
        self.site(number)
        self.call(number, Imp.tell_routes)

    def claim(self, number: int) -> None:
        """An IMP claims to be at distance 0 from every IMP."""
        self.site(number)
        self.call(number, Imp.claim)

    def enddown(self, number: int, line: int) -> None:
        """An end of a line goes down."""
        self.end(number, line)
        self.call(number, lambda imp: imp.end_down(self.port_of(number, line)))

    def endup(self, number: int, line: int) -> None:
        """An end of a line comes up."""
        self.end(number, line)
        self.call(number, lambda imp: imp.end_up(self.port_of(number, line)))

    def impdown(self, number: int) -> None:
        """An IMP stops, and its hosts with it."""
        self.site(number)
        for place, host in enumerate(self.up(number).hosts):
            if host.is_up:
                self.cross(Turned("down", HostName(place, number)))
        self.imps[number] = None

    def impup(self, number: int) -> None:
        """An IMP starts, with all its hosts down."""
        self.site(number)
        others = [imp for other, imp in self.imps.items() if imp is not None and other != number]
        kept = any(flow.source.imp == number for imp in others for flow in imp.kept)
        if kept or self.is_awaited(number) or any(number in (flow.source.imp, flow.destination.imp) for flow, _, _ in self.alive()):
            raise Refused("StillAlive")
        if self.imps[number] is not None:
            raise Refused("IsUp")
        self.start(number)
        for port in (port for imp in others for port in imp.ports):
            # none of its flows' packets is alive, so each that comes from now on is another one, whatever its number
            port.accepted = {it for it in port.accepted if number not in (it[1].source.imp, it[1].destination.imp)}

    def start(self, number: int) -> None:
        """Puts a new IMP in its place, with all its hosts down."""
        imp = self.imps[number] = self.imp_of(number)
        for host in imp.hosts:
            host.is_up = False

    def hostdown(self, host: HostName) -> None:
        self.host(host)
        self.call(host.imp, lambda imp: imp.host_down(host.number))
        self.cross(Turned("down", host))

    def hostup(self, host: HostName) -> None:
        self.host(host)
        self.call(host.imp, lambda imp: imp.host_up(host.number))
        self.cross(Turned("up", host))

    def giveup(self, flow: Flow) -> None:
        source = flow.source
        self.host(source)
        imp = self.imps[source.imp]
        if imp is not None and flow in imp.outstanding and self.is_alive(flow, imp.outstanding[flow]):
            raise Refused("StillAlive")
        self.call(source.imp, lambda imp: imp.give_up(flow))

    def ask(self, flow: Flow) -> None:
        """An IMP asks what became of a message."""
        self.host(flow.source)
        self.call(flow.source.imp, lambda imp: imp.ask(flow))

    def forget(self, at: int, other: int) -> None:
        """An IMP forgets the numbers of another one's flows."""
        self.site(at)
        self.site(other)
        if at == other:
            raise Refused("NoSuch")
        requests = [flow for flow, _, is_request in self.alive() if is_request]
        if self.is_awaiting(other, at) or any((flow.source.imp, flow.destination.imp) == (other, at) for flow in requests):
            raise Refused("StillAlive")
        self.call(at, lambda imp: imp.forget(other))

    def abandon(self, flow: Flow) -> None:
        """An IMP throws away the pieces of a message."""
        if self.imps.get(flow.destination.imp) is None:
            raise Refused("NoSuch")
        self.call(flow.destination.imp, lambda imp: imp.abandon(flow))

    # ---- rounds

    def is_quiet(self) -> bool:
        return False

    def state(self) -> object:
        return copy.deepcopy((self.imps, self.live))

    def quiet_round(self) -> None:
        for number, imp in self.imps.items():
            if imp is not None:
                self.call(number, Imp.tell_routes)
                self.call(number, Imp.resend)
        for line in range(len(self.ends)):
            for direction in "+-":
                for _ in range(len(self.live[line][direction])):
                    self.deliver(line, direction, 0)
                    self.drop(line, direction, 0)

    def calm(self, rounds: int) -> None:
        """Rounds, in each of which every host that is up then takes what waits, until one changes nothing. Refusals are not printed."""
        for round_of in range(1, rounds + 1):
            before = self.state() if is_looked_at(round_of) else None
            self.quiet_round()
            for number, imp in self.imps.items():
                for place, host in enumerate(imp.hosts if imp is not None else []):
                    if host.is_up:
                        self.take_all(HostName(place, number))
            if before is not None and before == self.state():
                break

    def take_all(self, host: HostName) -> None:
        """A host takes what waits for it, as often as it may in a round."""
        for _ in range(TAKES):
            try:
                if not self.take(host):
                    return
            except Refused:
                return
