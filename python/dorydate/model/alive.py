"""What is alive in a subnet of the independent model: each packet and message, where it is, and which event moves it on.

`inside` uses this. Nothing here changes a subnet.
"""

from __future__ import annotations

from collections.abc import Iterator, Sequence
from dataclasses import dataclass
from typing import Any

from dorydate.model.imp import Imp
from dorydate.model.names import Flow, HostName, spell_flow, spell_host
from dorydate.model.packets import ASK, CHANNELS, DATA, DEAD, NEVER, REQUESTS, RFNM, Carried, Content, Kind, Packet, Routes, target
from dorydate.model.subnet import Subnet

NAMES = {RFNM: "RFNM", DEAD: "Dead", NEVER: "Never"}

Place = tuple[Any, ...]  # a word for a place, and numbers


@dataclass(frozen=True)
class Held:
    """A packet, or what is left of its message, and its place: a word for it and numbers."""

    kind: Kind  # that of the packet, DATA for a message
    flow: Flow
    number: int
    what: str
    place: Place

    def is_request(self) -> bool:
        return self.kind in REQUESTS


# ---- words


def packet_in_words(packet: Packet) -> str:
    """A packet by what it carries: a piece of a message, a question what became of one, or an answer about one."""
    kind, flow, number, place, last, _ = packet
    if kind == ASK:
        return f"the question about message {number} of flow {spell_flow(flow)}"
    if kind != DATA:
        return f"the {NAMES[kind]} for message {number} of flow {spell_flow(flow)}"
    if place == 0 and last:
        return f"message {number} of flow {spell_flow(flow)}"
    which = f"the last piece ({place})" if last else f"piece {place}"
    return f"{which} of message {number} of flow {spell_flow(flow)}"


def frame_in_words(content: Content) -> str:
    """What a frame carries beside its acknowledgements."""
    if content is None:
        return "an acknowledgement"
    return "a table of distances" if isinstance(content, Routes) else packet_in_words(content.packet)


def listed(words: Sequence[str], most: int = 4) -> str:
    """Words in a list, the end left out where there are many."""
    if len(words) > most:
        return f"{', '.join(words[:most])} and {len(words) - most} more"
    return " and ".join([", ".join(words[:-1]), words[-1]]) if len(words) > 1 else "".join(words)


# ---- places


def held(packet: Packet, place: Place) -> Held:
    """A packet at a place."""
    return Held(packet.kind, packet.flow, packet.number, packet_in_words(packet), place)


def of_imp(number: int, imp: Imp) -> Iterator[Held]:
    """All that an IMP holds."""
    for packet in imp.store:
        yield held(packet, ("store", number, packet))
    for port, end in enumerate(imp.ports):
        for channel, busy in enumerate(end.line.busy):
            if busy is not None:
                yield held(busy, ("channel", number, port, channel))
    for flow, (message, pieces) in imp.slots.items():
        places = listed([str(it) for it in sorted(pieces)])
        what = f"piece{'s' if len(pieces) > 1 else ''} {places} of message {message} of flow {spell_flow(flow)}"
        yield Held(DATA, flow, message, what, ("slot", number, flow))
    for host, it in enumerate(imp.hosts):
        for flow, message, _ in it.messages:
            yield Held(DATA, flow, message, f"message {message} of flow {spell_flow(flow)}", ("queue", HostName(host, number)))


def everything(subnet: Subnet) -> Iterator[Held]:
    """All that is alive: what IMPs hold, and then what frames carry."""
    for number, imp in subnet.imps.items():
        yield from of_imp(number, imp) if imp is not None else ()
    for line, ways in enumerate(subnet.live):
        for way, frames in ways.items():
            for place, (_, content) in enumerate(frames):
                if isinstance(content, Carried):
                    yield held(content.packet, ("frame", line, way, place))


def where(subnet: Subnet, place: Place) -> str:
    """A place in words."""
    match place:
        case ["store", imp, _]:
            return f"in the store of IMP {imp}"
        case ["channel", imp, port, channel]:
            return f"in channel {channel} of line {subnet.lines_of(imp)[port]} at IMP {imp}"
        case ["slot", imp, _]:
            return f"in a slot of IMP {imp}"
        case ["queue", host]:
            return f"waiting for host {spell_host(host)}"
        case ["frame", line, way, at]:
            a, b = subnet.ends[line][:: 1 if way == "+" else -1]
            return f"in frame {at} on line {line} from IMP {a} to IMP {b}"
    raise ValueError(place)


# ---- what moves it on


def clearing(subnet: Subnet, place: Place) -> str:
    """The next event that takes a packet or message from its place, or brings it nearer to that."""
    match place:
        case ["store", imp, packet]:
            port = subnet.up(imp).route(target(packet))
            assert port is not None  # a packet without a way does not stay in the store
            return channel_clearing(subnet, imp, port, 0)
        case ["channel", imp, port, channel]:
            return channel_clearing(subnet, imp, port, channel)
        case ["slot", _, flow]:
            return f"abandon {spell_flow(flow)}"
        case ["queue", host]:
            return queue_clearing(subnet, host)
        case ["frame", line, way, at]:
            return f"drop {line} {way} {at}"
    raise ValueError(place)


def queue_clearing(subnet: Subnet, host: HostName) -> str:
    """A host takes what waits for it, where its IMP has room for the answer. One that can't take stops."""
    imp = subnet.up(host.imp)
    if imp.hosts[host[0]].answers:
        return f"take {spell_host(host)}"
    flow = imp.hosts[host[0]].messages[0][0]
    has_room = imp.route(flow[0][1]) is None or imp.room(1)
    return f"take {spell_host(host)}" if has_room else room_clearing(subnet, host[1])


def room_clearing(subnet: Subnet, number: int) -> str:
    """The next event that makes room in the store of an IMP, which is full."""
    imp = subnet.up(number)
    for port, end in enumerate(imp.ports):
        for channel in range(CHANNELS):
            if end.line.busy[channel] is not None:
                return channel_clearing(subnet, number, port, channel)
    return f"impdown {number}"


def channel_clearing(subnet: Subnet, number: int, port: int, channel: int) -> str:
    """The next event on the way of a packet out of a channel: its acknowledgement arrives, or it does, or it is sent again.
    Where no frame crosses the line any more, its end goes down."""
    here = subnet.up(number)
    end, line = here.ports[port], subnet.lines_of(number)[port]
    way = "+" if subnet.ends[line][0] == number else "-"
    back = "-" if way == "+" else "+"
    for place, (bits, content) in enumerate(subnet.live[line][back]):
        is_taken = not isinstance(content, Carried) or not is_lost(here, port, content)
        if bits >> channel & 1 != end.line.next_bit[channel] and is_taken:
            return f"deliver {line} {back} {place}"
    far = subnet.ends[line][1 if way == "+" else 0]
    node = subnet.imps[far]
    far_port = subnet.port_of(far, line)
    if node is None or not node.ports[far_port].is_up:
        return f"enddown {number} {line}"
    wanted = end.line.frame(channel)
    for place, (_, content) in enumerate(subnet.live[line][way]):
        if isinstance(content, Carried) and content == wanted:
            return f"enddown {number} {line}" if is_lost(node, far_port, content) else f"deliver {line} {way} {place}"
    return f"resend {number}"


def is_lost(imp: Imp, port: int, content: Carried) -> bool:
    """Whether a frame with a packet would find no room at an IMP."""
    return content.bit == imp.ports[port].line.expected[content.channel] and imp.meaning_of(content.packet) is None
