"""The state of a network, folded from a trace: its IMPs with what they hold, its lines with their frames (docs/trace.md)."""

from __future__ import annotations

import json
from collections.abc import Iterator, Mapping
from dataclasses import dataclass
from functools import cached_property
from typing import Any

from dorydate.network import Host, Network
from dorydate.script import Flow, Text
from dorydate.trace import OF_FLOWS, is_of_flow, opening

Value = Mapping[str, Any]  # an object of a trace


def flow_in(value: Value) -> Flow:
    """The flow that an object names."""
    return Flow(Host.read(value["from"]), Host.read(value["to"]), value["link"])


def text_in(value: Value) -> Text:
    """The text that an object has."""
    return Text(bytes.fromhex(value["octets"]), value["bits"])


@dataclass(frozen=True)
class Packet:
    """A piece of a message, an answer to one, or a question about one."""

    kind: str  # data, rfnm, dead, ask or never
    flow: Flow
    number: int  # of its message
    place: int
    is_last: bool
    text: Text

    @staticmethod
    def read(value: Value) -> Packet:
        return Packet(value["kind"], flow_in(value), value["number"], value["place"], value["last"], text_in(value))

    def __str__(self) -> str:
        what = {"data": "message", "rfnm": "the RFNM for message", "dead": "the Dead for message", "ask": "the question about message", "never": "the Never for message"}
        piece = f"piece {self.place} of " if self.kind == "data" and not (self.place == 0 and self.is_last) else ""
        return f"{piece}{what[self.kind]} {self.number} of flow {self.flow}"

    def target(self) -> int:
        """The IMP that it is for."""
        return (self.flow.destination if self.kind in ("data", "ask") else self.flow.source).imp


@dataclass(frozen=True)
class Frame:
    """A frame that is live on a line, at a place of one way. It acknowledges, and may carry a packet or distances."""

    line: int
    way: str
    place: int
    packet: Packet | None
    channel: int | None
    has_routes: bool

    def __str__(self) -> str:
        what = str(self.packet) if self.packet else "distances" if self.has_routes else "acknowledgements"
        return f"line {self.line} {self.way} {self.place}: {what}"


@dataclass(frozen=True)
class Held:
    """A packet, or a message, and where it is."""

    what: str
    flow: Flow
    number: int
    where: str

    def __str__(self) -> str:
        return f"{self.what}, {self.where}"


@dataclass(frozen=True)
class Waiting:
    """A message that waits for its host; in plain mailboxes it has no number."""

    flow: Flow
    number: int | None
    text: Text

    @staticmethod
    def read(value: Value) -> Waiting:
        return Waiting(flow_in(value), value.get("number"), text_in(value))


@dataclass(frozen=True)
class Answer:
    """An answer that waits for the source of a flow: rfnm, dead, incomplete or nottaken."""

    kind: str
    flow: Flow

    @staticmethod
    def read(value: Value) -> Answer:
        return Answer(value["kind"], flow_in(value))


@dataclass(frozen=True)
class HostState:
    """A host as its IMP sees it: whether it is up, and what waits for it, the oldest first."""

    up: bool
    messages: tuple[Waiting, ...]
    answers: tuple[Answer, ...]

    @staticmethod
    def read(value: Value) -> HostState:
        return HostState(value["up"], tuple(map(Waiting.read, value["messages"])), tuple(map(Answer.read, value["answers"])))


@dataclass(frozen=True)
class ImpState:
    """An IMP that is up."""

    hosts: tuple[HostState, ...]
    ends_up: tuple[bool, ...]  # of its lines, in order
    sending: tuple[tuple[Packet, ...], ...]  # for each line what its channels hold
    routes: tuple[Mapping[str, int] | None, ...]
    store: tuple[Packet, ...]
    slots: tuple[tuple[Packet, ...], ...]  # the pieces of each message in reassembly
    sources: Mapping[Flow, tuple[str, int]]  # of each flow from here: idle, outstanding, answered or dead, and the last number
    kept: Mapping[Flow, tuple[str, int]]  # of each flow to here: the fate of its last message, and its number
    distances: Mapping[int, int]  # its own to each IMP that it knows a way to, itself among them
    next: Mapping[int, int]  # to each such IMP but itself the place among its lines of the one that packets take

    @staticmethod
    def read(part: Value, sources: Mapping[Flow, tuple[str, int]], kept: Mapping[Flow, tuple[str, int]]) -> ImpState:
        sending = tuple(tuple(Packet.read(it["packet"]) for it in port["sending"] if "packet" in it) for port in part["ports"])
        return ImpState(
            tuple(map(HostState.read, part["hosts"])),
            tuple(port["up"] for port in part["ports"]),
            sending,
            tuple(part["routes"]),
            tuple(map(Packet.read, part["store"])),
            tuple(tuple(map(Packet.read, slot)) for slot in part["slots"]),
            sources,
            kept,
            {int(imp): it for imp, it in part["distances"].items()},
            {int(imp): it for imp, it in part["next"].items()},
        )


def in_order(note: tuple[Flow, int, Value]) -> tuple[tuple[int, int], tuple[int, int], int]:
    """The place of a flow in the order of source, destination and link."""
    flow = note[0]
    return flow.source.order(), flow.destination.order(), flow.link


def flow_of(name: str) -> tuple[Flow, int]:
    """The flow that a part is of, and the IMP that has this part."""
    kind, *words = name.split(" ")
    flow = Flow.read(*words)
    return flow, (flow.source if kind == "source" else flow.destination).imp


@dataclass(frozen=True)
class State:
    """The parts of a network.

    >>> net.out("UCLA", "SRI", 5, b"LO") and [str(it) for it in net.state.outstanding()]
    ['0/1 0/2 5']
    """

    network: Network
    parts: Mapping[str, Any]

    def imp(self, number: int) -> ImpState | None:
        """An IMP; None where it is down, or nothing is known of it.

        >>> held = net.state.imp(1)
        >>> held.ends_up, held.store
        ((True,), ())
        """
        part = self.parts.get(f"imp {number}")
        flows = (self._flows.get((word, number), {}) for word in ("state", "fate"))
        return ImpState.read(part, *flows) if part else None

    @cached_property
    def _flows(self) -> Mapping[tuple[str, int], Mapping[Flow, tuple[str, int]]]:
        """By `state` or `fate`, and by IMP, what is noted of flows, in their order: that word and a number."""
        found: dict[tuple[str, int], dict[Flow, tuple[str, int]]] = {}
        parts = [(*flow_of(name), part) for name, part in self.parts.items() if is_of_flow(name)]
        for flow, imp, part in sorted(parts, key=in_order):
            word = "state" if "state" in part else "fate"
            found.setdefault((word, imp), {})[flow] = part[word], part["number"]
        return found

    def is_down(self, number: int) -> bool:
        """Whether an IMP is down.

        >>> net.crash("SRI") and net.state.is_down(2)
        True
        """
        return f"imp {number}" in self.parts and self.parts[f"imp {number}"] is None

    def end_is_up(self, imp: int, line: int) -> bool:
        """Whether an IMP's end of a line is up.

        >>> net.cut("UCLA", "SRI") and net.state.end_is_up(1, 0)
        False
        """
        state = self.imp(imp)
        return not self.is_down(imp) and (state is None or state.ends_up[self.network.lines_of(imp).index(line)])

    def frames(self) -> Iterator[Frame]:
        """The frames that are live, line by line, the oldest first.

        >>> net.out("UCLA", "SRI", 5) and [str(it) for it in net.state.frames()]
        ['line 0 + 0: message 0 of flow 0/1 0/2 5']
        """
        for number in range(len(self.network.lines)):
            for way in "+-":
                for place, it in enumerate(self.parts.get(f"line {number}", {}).get(way, [])):
                    packet = Packet.read(it["packet"]) if "packet" in it else None
                    yield Frame(number, way, place, packet, it.get("channel"), "routes" in it)

    def alive(self) -> Iterator[Held]:
        """All packets and messages, with their places.

        >>> net.out("UCLA", "SRI", 5) and [str(it) for it in net.state.alive()]
        ['message 0 of flow 0/1 0/2 5, in a channel of line 0 at IMP 1', 'message 0 of flow 0/1 0/2 5, in frame 0 on line 0 +']
        """
        for imp in self.network.imps:
            state = self.imp(imp.number)
            if state:
                yield from held_by(imp.number, state, self.network)
        for frame in self.frames():
            if frame.packet:
                yield Held(str(frame.packet), frame.packet.flow, frame.packet.number, f"in frame {frame.place} on line {frame.line} {frame.way}")

    def outstanding(self) -> dict[Flow, int]:
        """The flows with a message that has no answer, with its number.

        >>> net.out("UCLA", "SRI", 5) and [*net.state.outstanding().values()]
        [0]
        """
        found: dict[Flow, int] = {}
        for imp in self.network.imps:
            state = self.imp(imp.number)
            found.update({flow: number for flow, (word, number) in (state.sources if state else {}).items() if word == "outstanding"})
        return found

    def distances(self, imp: int) -> dict[int, int]:
        """The distance of an IMP to each other one that it knows a way to.

        >>> net.state.distances(2)
        {1: 1}
        """
        state = self.imp(imp)
        return {to: distance for to, distance in (state.distances if state else {}).items() if to != imp}


def held_by(number: int, state: ImpState, network: Network) -> Iterator[Held]:
    """What an IMP holds."""
    for it in state.store:
        yield Held(str(it), it.flow, it.number, f"in the store of IMP {number}")
    for line, channels in zip(network.lines_of(number), state.sending):
        for it in channels:
            yield Held(str(it), it.flow, it.number, f"in a channel of line {line} at IMP {number}")
    for slot in state.slots:
        for it in slot:
            yield Held(str(it), it.flow, it.number, f"in a slot of IMP {number}")
    for host, waits in enumerate(state.hosts):
        for message in waits.messages:
            yield Held(f"message {message.number} of flow {message.flow}", message.flow, message.number or 0, f"waiting for host {Host(host, number)}")


def folded(network: Network, trace: str) -> State:
    """The state after a trace: of each part its last value. The trace is read from its end: until all parts are there
    that the first line has, and then only those lines that have parts of flows."""
    first = opening(trace)["parts"]
    parts: dict[str, Any] = {}
    end = len(trace)
    while end > 0:
        begin = trace.rfind("\n", 0, end - 1) + 1
        if not first.keys() <= parts.keys() or any(trace.find(f'"{kind} ', begin, end) >= 0 for kind in OF_FLOWS):
            for name, part in json.loads(trace[begin:end])["parts"].items():
                parts.setdefault(name, part)
        end = begin
    flows = {name: part for name, part in parts.items() if name not in first and part is not None}
    return State(network, {**{name: parts[name] for name in first}, **flows})
