"""Why a subnet refuses an event: what is in its way, where that is, and which event clears it.

It reads the state of the independent model, which a refused event left as it was.
"""

from __future__ import annotations

from collections.abc import Sequence
from dataclasses import dataclass
from typing import Any

from dorydate.model.alive import Held, clearing, everything, room_clearing, where
from dorydate.model.bits import Bits
from dorydate.model.crossings import ANSWERS
from dorydate.model.imp_state import QUEUE, STORE
from dorydate.model.names import Flow, HostName, in_order, spell_flow, spell_host
from dorydate.model.packets import body
from dorydate.model.subnet import Subnet
from dorydate.sentences import REFUSED
from dorydate.sentences.events import EVENTS
from dorydate.sentences.table import filled, listed

SHOWN = 3  # packets in the way that are named
Parts = Sequence[Any]  # the parts of an event, in the order of its line
Sending = tuple[Flow, Bits]  # the message that an event would send


def hops(subnet: Subnet, source: int, target: int) -> int | None:
    """Over how many lines the shortest way leads whose IMPs and ends are up; None where there is none."""
    reached, edge = {source: 0}, [source]
    while edge:
        at = edge.pop(0)
        for line in subnet.lines_of(at):
            far = sum(subnet.ends[line]) - at
            nodes = subnet.imps[at], subnet.imps[far]
            is_open = all(node is not None and node.ports[subnet.port_of(node.number, line)].is_up for node in nodes)
            if is_open and far not in reached:
                reached[far] = reached[at] + 1
                edge.append(far)
    return reached.get(target)


def host_of(parts: Parts) -> HostName | None:
    """The host that an event is of, the source of its flow perhaps; None where it is of an IMP or a line."""
    if not isinstance(parts[0], tuple):
        return None
    return HostName(*(parts[0][0] if len(parts[0]) == 3 else parts[0]))


@dataclass(frozen=True)
class Obstacles:
    """What forbids an event: what is alive, IMPs that have to forget, each as it is named in a `forget`, and flows to be given up."""

    alive: list[Held]
    kept: list[tuple[int, int]]
    awaited: list[Flow]


@dataclass(frozen=True)
class Refusal:
    """A refused event: its kind, its parts, and the message that it would have sent."""

    kind: str
    parts: Parts
    message: Sending | None


class InTheWay:
    """What is in the way of events in a subnet."""

    def __init__(self, subnet: Subnet) -> None:
        self.subnet = subnet

    def refusal(self, name: str, kind: str, parts: Parts, message: Sending | None) -> list[str]:
        """Sentences about a refusal; none where only a host's program refused."""
        causes = {
            "StillAlive": self.why_still_alive,
            "Unsettled": self.why_unsettled,
            "NotOutstanding": self.why_not_outstanding,
            "Blocked": self.why_blocked,
            "NoRoom": self.why_no_room,
            "IsDown": self.why_is_down,
            "IsUp": self.why_is_up,
            "NoSuch": self.why_no_such,
        }
        why = causes.get(name)
        return [it for it in (why(Refusal(kind, parts, message)) if why else []) if it]

    # ---- what is alive

    def obstacles(self, it: Refusal) -> Obstacles:
        """What forbids an event."""
        subnet = self.subnet
        if it.kind == "impup":
            (number,) = it.parts
            kept = [(at, number) for at, imp in subnet.imps.items() if imp is not None and at != number and any(flow.source.imp == number for flow in imp.kept)]
            awaited = [flow for at in subnet.imps if at != number for flow in self.awaited(at, number)]
            return Obstacles([held for held in everything(subnet) if number in (held.flow.source.imp, held.flow.destination.imp)], kept, awaited)
        if it.kind == "forget":
            at, other = it.parts
            alive = [held for held in everything(subnet) if held.is_request() and (held.flow.source.imp, held.flow.destination.imp) == (other, at)]
            return Obstacles(alive, [], self.awaited(other, at))
        flow: Flow = it.message[0] if it.message else it.parts[0]
        imp = subnet.up(flow.source.imp)
        if it.kind == "giveup":
            return Obstacles(self.alive(flow, imp.outstanding[flow]), [], [])
        kept = [(flow.destination.imp, flow.source.imp)] if subnet.is_kept(flow, imp.next_number(flow)) else []
        return Obstacles(self.alive(flow, imp.oldest(flow)) if flow in imp.last else [], kept, [])

    def alive(self, flow: Flow, number: int) -> list[Held]:
        return [it for it in everything(self.subnet) if (it.flow, it.number) == (flow, number)]

    def awaited(self, at: int, other: int) -> list[Flow]:
        """The flows from hosts at one IMP to hosts at another of which a message is outstanding."""
        imp = self.subnet.imps[at]
        return [flow for flow in in_order(imp.outstanding) if flow.destination.imp == other] if imp is not None else []

    def outstanding(self, flow: Flow) -> int:
        """The number of the flow's message that is outstanding."""
        return self.subnet.up(flow.source.imp).outstanding[flow]

    def places(self, held: Sequence[Held]) -> list[str]:
        """The first of these things, and where they are."""
        return [f"{it.what}, {where(self.subnet, it.place)}" for it in held[:SHOWN]]

    def why_still_alive(self, it: Refusal) -> list[str]:
        found = self.obstacles(it)
        more = len(found.alive) - SHOWN
        places = "; ".join(self.places(found.alive)) + (f"; and {more} more" if more > 0 else "")
        why = [filled(REFUSED["still alive"], places=places)] if found.alive else []
        for at, number in found.kept[:SHOWN]:
            why.append(filled(REFUSED["keeps"], {"imp": f"IMP {at}", "other": f"IMP {number}", "number": at, "from": number}))
        for flow in found.awaited[:SHOWN]:
            why.append(f"Message {self.outstanding(flow)} of flow {spell_flow(flow)} is outstanding.")
        event = self.next_clearing(it)
        return [*why, f"The next event to clear it: `{event}`." if event else ""]

    def next_clearing(self, it: Refusal) -> str | None:
        """One event after which less is in the way, and which is not refused itself; None where nothing is in the way."""
        found = self.obstacles(it)
        frames = [held for held in found.alive if held.place[0] == "frame"]
        others = [held for held in found.alive if held.place[0] != "frame"]
        if others:
            return clearing(self.subnet, others[0].place)
        if frames:
            return clearing(self.subnet, frames[-1].place)
        if found.kept:
            at, number = found.kept[0]
            return self.next_clearing(Refusal("forget", found.kept[0], None)) or f"forget {at} {number}"
        if not found.awaited:
            return None
        flow = found.awaited[0]
        left = self.alive(flow, self.outstanding(flow))
        return clearing(self.subnet, left[0].place) if left else f"giveup {spell_flow(flow)}"

    # ---- the other refusals

    def why_unsettled(self, it: Refusal) -> list[str]:
        host = HostName(*it.parts[0])
        flows = [flow for flow in in_order(self.subnet.up(host.imp).outstanding) if flow.source == host]
        why = [filled(REFUSED["stopped"], host=f"host {spell_host(host)}", message=f"message {self.outstanding(flow)} of flow {spell_flow(flow)}") for flow in flows[:SHOWN]]
        return [*why, self.settling(flows[0])]

    def settling(self, flow: Flow) -> str:
        """What ends an outstanding message: nothing of it is alive, or where it is."""
        imp = self.subnet.up(flow.source.imp)
        alive = self.alive(flow, imp.outstanding[flow])
        if not alive:
            can_ask = imp.route(flow.destination.imp) is not None
            return filled(REFUSED["nothing alive, ask" if can_ask else "nothing alive"], flow=spell_flow(flow))
        return f"{filled(REFUSED['alive'], places=listed(self.places(alive)))} The next event to move it on: `{clearing(self.subnet, alive[0].place)}`."

    def answer_waiting(self, flow: Flow, how: str) -> str:
        """Which answer waits for the source of a flow; nothing where none does."""
        kinds = [it.kind for it in self.subnet.up(flow.source.imp).hosts[flow.source.number].answers if it.flow == flow]
        word = spell_host(flow.source)
        return filled(REFUSED[how], answer=ANSWERS[kinds[0]], host=f"host {word}", word=word) if kinds else ""

    def why_not_outstanding(self, it: Refusal) -> list[str]:
        flow: Flow = it.parts[0]
        imp = self.subnet.up(flow.source.imp)
        if waits := self.answer_waiting(flow, "answered"):
            return [waits]
        if flow not in imp.last:
            return [f"IMP {imp.number} has begun no message of flow {spell_flow(flow)}."]
        return [f"Message {imp.last[flow]}, the last of flow {spell_flow(flow)}, has been answered or given up, or its host stopped meanwhile."]

    def why_blocked(self, it: Refusal) -> list[str]:
        flow: Flow = it.message[0] if it.message else it.parts[0]
        rule = filled(REFUSED["one at a time"], link=flow.link, source=spell_host(flow.source), destination=spell_host(flow.destination))
        if waits := self.answer_waiting(flow, "answer waits"):
            return [rule, waits]
        return [rule, f"Message {self.outstanding(flow)} is outstanding.", self.settling(flow)]

    def why_no_room(self, it: Refusal) -> list[str]:
        flow = it.message[0] if it.message else None
        host = flow.source if flow else host_of(it.parts)
        number = host.imp if host else 0
        if flow and flow.destination.imp == number:
            word = spell_host(flow.destination)
            return [f"{QUEUE} messages wait for host {word}, and there is room for no more: `take {word}`."]
        wanted = -(-len(body(it.message[1])) // 1008) if it.message else 1
        what = f"the message has {wanted}" if it.message else "the question is one" if it.kind == "ask" else "the RFNM of what is to be taken is one"
        held = f"IMP {number} holds {len(self.subnet.up(number).packets())} packets in its store and channels, {STORE} at most, and {what}."
        return [held, f"Acknowledgements make room. The next event towards one: `{room_clearing(self.subnet, number)}`."]

    def why_is_down(self, it: Refusal) -> list[str]:
        host = host_of(it.parts)
        number = host.imp if host else it.parts[0]
        if self.subnet.imps.get(number) is None and it.kind != "impdown":
            return [filled(REFUSED["down"], what=f"IMP {number}", event=f"impup {number}")]
        if host and it.kind != "hostdown":
            return [filled(REFUSED["down"], what=f"host {spell_host(host)}", event=f"hostup {spell_host(host)}")]
        return [filled(REFUSED["down already"], what=self.subject(it))]

    def why_is_up(self, it: Refusal) -> list[str]:
        return [filled(REFUSED["up already"], what=self.subject(it))]

    def subject(self, it: Refusal) -> str:
        """The host, the IMP or the end of a line that an event is of."""
        if host := host_of(it.parts):
            return f"host {spell_host(host)}"
        imp = f"IMP {it.parts[0]}"
        return filled(REFUSED["end"], line=it.parts[1], imp=imp) if EVENTS[it.kind].shape == "I L" else imp

    def why_no_such(self, it: Refusal) -> list[str]:
        subnet, kind, parts = self.subnet, it.kind, it.parts
        shape = EVENTS[kind].shape
        if shape == "L +|- K":
            return [self.no_frame(*parts)]
        if kind == "abandon":
            return [self.no_pieces(parts[0])]
        if kind == "forget" and parts[0] == parts[1]:
            return [REFUSED["own numbers"]]
        numbers = [part for name, part in zip(EVENTS[kind].operands, parts) if name in ("I", "J")]
        missing = [number for number in numbers if number not in subnet.sites]
        if missing:
            return [filled(REFUSED["no imp"], number=missing[0])]
        if shape == "I L":
            return [filled(REFUSED["no end"], line=parts[1], imp=f"IMP {parts[0]}")]
        host = host_of(parts)
        return [filled(REFUSED["no host"], host=spell_host(host))] if host else []

    def no_frame(self, line: int, way: str, place: int) -> str:
        """Why there is no frame to deliver or to drop."""
        if line >= len(self.subnet.ends):
            return filled(REFUSED["no line"], line=line)
        a, b = self.subnet.ends[line][:: 1 if way == "+" else -1]
        return filled(REFUSED["no frame"], {"line": line, "from": f"IMP {a}", "to": f"IMP {b}", "frames": len(self.subnet.live[line][way]), "place": place})

    def no_pieces(self, flow: Flow) -> str:
        """Why there are no pieces of a flow to throw away."""
        number = flow.destination.imp
        if number not in self.subnet.sites:
            return filled(REFUSED["no imp"], number=number)
        if self.subnet.imps[number] is None:
            return filled(REFUSED["no pieces, down"], imp=f"IMP {number}")
        return filled(REFUSED["no pieces"], imp=f"IMP {number}", message=f"flow {spell_flow(flow)}")
