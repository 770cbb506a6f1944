"""Traces of raw networks, independently implemented: tools/model --trace < FILE prints the trace of an input.

It was written from docs/trace.md, in another language and another form than the definitions: mailboxes and subnets are those
of dorydate.model.boxes and dorydate.model.subnet, and a trace is made from what they are after each event. The parts of a
subnet are in dorydate.model.trace_subnet, and values in dorydate.model.trace_values. `check trace` uses it.
"""

from __future__ import annotations

import json
from collections.abc import Callable, Container, Iterable, Iterator, Mapping, Sequence
from dataclasses import dataclass
from typing import Any, Generic, TypeVar

from dorydate.model import trace_subnet
from dorydate.model.bits import spelled_text
from dorydate.model.boxes import TAKES, Boxes
from dorydate.model.crossings import Carrier, Crossing, Passed, Turned
from dorydate.model.names import Flow, HostName, key_of, read_host, spell_flow, spell_host
from dorydate.model.runs import End, opened_carrier
from dorydate.model.script import Event, read_line
from dorydate.model.subnet import Subnet
from dorydate.model.topology import Topology
from dorydate.model.trace_subnet import OF_FLOWS, flow_named, home, subnet_of
from dorydate.model.trace_values import Object, answer_in, answer_of, crossing_of, flow_in, message_of, text_in

FORMAT = 3
Part = Any  # the value of a part: an object, a list, or None


def spelled(event: Event) -> str:
    """An event as a line of a script."""
    kind, *parts = event
    if kind == "out":
        return f"out {spell_flow(parts[0])} {len(parts[1])} {spelled_text(parts[1])}"
    return " ".join([kind, *map(spelled_part, parts)])


def spelled_part(part: Any) -> str:
    """A part of an event that is no text."""
    return spell_host(part) if isinstance(part, HostName) else spell_flow(part) if isinstance(part, Flow) else str(part)


# ---- the parts of mailboxes


def queues(boxes: Boxes, host: HostName) -> Object:
    """What waits for a host, oldest first."""
    messages = [message_of(*it) for it in boxes.messages if it[0][1] == host]
    answers = [answer_of(it) for it in boxes.answers if it.flow.source == host]
    return {"messages": messages, "answers": answers}


def down(boxes: Boxes) -> list[str]:
    """The hosts that are down, in the order in which they went down: the last to go down has the newest such crossing."""
    newest = {it.host: place for place, it in enumerate(boxes.log) if isinstance(it, Turned) and it.kind == "down"}
    return [spell_host(host) for host in sorted(newest, key=lambda host: newest[host]) if not boxes.is_up[host]]


def in_order(place: Carrier) -> list[HostName]:
    return sorted(place.hosts(), key=lambda host: (host.imp, host.number))


def part_of_boxes(boxes: Boxes, name: str) -> Part:
    """A part, by its name."""
    return down(boxes) if name == "down" else queues(boxes, read_host(name.split(" ")[1]))


def names_of_boxes(boxes: Boxes) -> list[str]:
    return ["down", *(f"host {spell_host(host)}" for host in in_order(boxes))]


def touched(boxes: Boxes, event: Event, crossed: Sequence[Crossing]) -> list[str]:
    """The parts that an event can change, which crossed these."""
    kind, *parts = event
    hosts: set[HostName] = set()
    match kind:
        case "out" | "giveup":
            hosts = {parts[0].source, parts[0].destination}
        case "take":
            hosts = {parts[0], *(it.flow.source for it in crossed if isinstance(it, Passed) and it.kind == "in")}
        case "hostdown":
            hosts = {*boxes.hosts()}
    named = ["down"] if kind in ("hostdown", "hostup") else []
    return named + [f"host {spell_host(host)}" for host in in_order(boxes) if host in hosts]


def gets(boxes: Boxes, host: HostName) -> bool:
    """Whether a host that takes gets something."""
    return boxes.is_up[host] and any(queues(boxes, host).values())


# ---- kinds of carriers

Kind = TypeVar("Kind", bound=Carrier)


@dataclass
class Inspect(Generic[Kind]):
    """What a kind of carrier has of a trace."""

    part: Callable[[Kind, str], Part]  # a part, by its name, but for those of flows
    every_name: Callable[[Kind], list[str]]  # of those parts
    names: Callable[[Kind, Event, Sequence[Crossing]], list[str]]  # those that an event can change, which crossed these
    flows: Callable[[Kind, Container[str]], dict[str, Part]]  # the parts of flows that change with these
    fate: Callable[[Kind, Event], str | None]  # what becomes of a frame
    in_quiet_round: Callable[[Kind], Iterable[Event]]  # the elementary events of a quiet round
    is_given: Callable[[Kind, HostName], bool]  # whether a host that takes gets something


OF_BOXES = Inspect[Boxes](
    part_of_boxes, names_of_boxes, touched, lambda _, names: {}, lambda _, event: None, lambda _: (), gets
)
OF_SUBNET = Inspect[Subnet](
    trace_subnet.part, trace_subnet.every_name, trace_subnet.names, trace_subnet.flows,
    trace_subnet.fate, trace_subnet.in_quiet_round, trace_subnet.is_given,
)  # fmt: skip


def of(place: Carrier) -> Inspect[Any]:
    """What a carrier of this kind has of a trace."""
    if isinstance(place, Boxes):
        return OF_BOXES
    return OF_SUBNET


def parts_of(place: Carrier, names: Sequence[str]) -> dict[str, Part]:
    """These parts of a network, and those of flows that change with them."""
    return {**{name: of(place).part(place, name) for name in names}, **of(place).flows(place, names)}


def all_parts(place: Carrier) -> dict[str, Part]:
    """Every part of a network, by name."""
    return parts_of(place, of(place).every_name(place))


def changed(was: Mapping[str, Part], now: Mapping[str, Part]) -> dict[str, Part]:
    """What is other than it was, in the order of a line; of flows that are gone None."""
    other = {name: part for name, part in now.items() if name not in was or part != was[name]}
    gone = [name for name in was if name not in now and home(name) in now]
    found = {**other, **dict.fromkeys(gone)}
    return {name: found[name] for name in sorted(found, key=lambda name: place_of(name, name in now))}


def place_of(name: str, is_there: bool) -> tuple[Any, ...]:
    """Where a part is in a line: flows come last, by IMP, from it and then to it, of each the gone ones last."""
    flow = flow_named(name)
    return (int(home(name)[4:]), OF_FLOWS.index(name.split(" ")[0]), not is_there, *key_of(flow)) if flow else ()


def fold_in(parts: dict[str, Part], told: Mapping[str, Part]) -> None:
    """Puts what a line has in the place of what was there."""
    for name, part in told.items():
        if part is None and flow_named(name):
            parts.pop(name, None)
        else:
            parts[name] = part


# ---- lines


class Traced:
    """The trace of a script over a raw network: a record for each elementary event, written as it happens."""

    def __init__(self, place: Carrier) -> None:
        self.place, self.of = place, of(place)
        self.parts = all_parts(place)

    def happen(self, line: int, number: int, event: Event) -> Iterator[Object]:
        """The records of an event of the script: its line, and which event it is."""
        if event[0] == "calm":
            yield from self.calm((line, number), event[1])
        else:
            yield self.tell((line, number), 0, event)

    def tell(self, numbers: tuple[int, int], number_of_round: int, event: Event) -> Object:
        """Lets an elementary event happen, and gives its record."""
        shown, before = len(self.place.printed), len(self.place.log)
        fate = self.of.fate(self.place, event)
        self.place.happen(*event)
        crossed = self.place.log[before:]
        return {
            "line": numbers[0],
            "number": numbers[1],
            "round": number_of_round,
            "event": spelled(event),
            **({"fate": fate} if fate else {}),
            "crossed": [crossing_of(it) for it in crossed],
            "printed": self.place.printed[shown:],
            "parts": self.changed(self.of.names(self.place, event, crossed)),
        }

    def changed(self, names: Sequence[str]) -> dict[str, Part]:
        """Those of these parts, and of the flows that change with them, that are other than they were."""
        found = changed(self.parts, parts_of(self.place, names))
        fold_in(self.parts, found)
        return found

    def calm(self, numbers: tuple[int, int], rounds: int) -> Iterator[Object]:
        """A calm: what its quiet rounds do, and the takings that give something, up to the first round that leaves all as it was."""
        for number_of_round in range(1, rounds + 1):
            parts, crossed = {**self.parts}, len(self.place.log)
            for event in self.quiet_round():
                yield self.tell(numbers, number_of_round, event)
            for host in in_order(self.place):
                for _ in range(TAKES):
                    if self.of.is_given(self.place, host):
                        yield self.tell(numbers, number_of_round, ("take", host))
            if self.parts == parts and len(self.place.log) == crossed:
                return

    def quiet_round(self) -> Iterator[Event]:
        """The elementary events of a quiet round."""
        yield from self.of.in_quiet_round(self.place)


def traced(place: Carrier, lines: Iterable[str]) -> Iterator[Object]:
    """The trace of a script, record by record, over a raw network that is at its opening: each happens when it is asked for."""
    trace = Traced(place)
    events = [(line, event) for line, event in enumerate(map(read_line, lines), 1) if event]
    for number, (line, event) in enumerate(events, 1):
        yield from trace.happen(line, number, event)


def opening(network: Topology, place: Carrier) -> Object:
    """The first record of a trace: the network, and all its parts at its opening."""
    carrier, raw, imps, lines, _ = network
    return {
        "trace": FORMAT,
        "carrier": carrier,
        "raw": raw,
        "imps": [[*it] for it in sorted(imps)],
        "lines": [[*it] for it in lines],
        "parts": all_parts(place),
    }


def text(record: Object) -> str:
    """The line of a record."""
    return json.dumps(record, separators=(",", ":"))


# ---- a network from its parts


def network_in(first: Object) -> Topology:
    """The network of a trace's first record."""
    return Topology(first["carrier"], first["raw"], [(number, hosts) for number, hosts in first["imps"]], [(a, b) for a, b in first["lines"]])


def made_of(network: Topology, parts: Mapping[str, Part]) -> Carrier:
    """A network's state that has these parts, with an empty log."""
    if network.carrier == "plain":
        return boxes_of(network.imps, parts)
    return subnet_of(network.imps, network.lines, parts)


def boxes_of(imps: Sequence[tuple[int, int]], parts: Mapping[str, Part]) -> Boxes:
    """Mailboxes that have these parts, with an empty log."""
    boxes = Boxes(imps)
    for name, part in parts.items():
        if name == "down":
            # the log has nothing but their going down, in this order
            for host in part:
                boxes.is_up[read_host(host)] = False
                boxes.cross(Turned("down", read_host(host)))
            continue
        boxes.messages += [(flow_in(it), text_in(it)) for it in part["messages"]]
        boxes.answers += map(answer_in, part["answers"])
    boxes.printed.clear()
    return boxes


def ends_trace(network: Topology, lines: Iterable[str]) -> End:
    """How the program ends when it is asked for the trace of a raw network and a script."""
    place = opened_carrier(network)
    first = text(opening(network, place))
    return 0, "".join(f"{it}\n" for it in [first, *map(text, traced(place, lines))]), ""
