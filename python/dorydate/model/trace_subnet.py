"""The parts of a subnet as a trace has them, and a subnet made from its parts.

It was written from docs/trace.md over the independent model of the subnet. `trace` uses it.
"""

from __future__ import annotations

from collections.abc import Container, Iterator, Mapping, Sequence
from functools import cache

from dorydate.model.channels import Channels
from dorydate.model.crossings import Crossing
from dorydate.model.imp import Imp
from dorydate.model.imp_state import QUEUE, SLOTS, Arrived, HostPort, ImpState, Pieces, Port
from dorydate.model.names import Flow, HostName, in_order, read_host, spell_flow
from dorydate.model.packets import ASK, CHANNELS, DATA, DEAD, INFINITE, MOST_IMPS, NEVER, RFNM, Carried, Content, Frame, Packet, Routes, target
from dorydate.model.script import Event
from dorydate.model.subnet import FAR, Subnet
from dorydate.model.trace_values import Object, answer_in, answer_of, flow_in, flow_of, message_of, text_in, text_of
from dorydate.sentences.events import EVENTS

KINDS = {DATA: "data", RFNM: "rfnm", DEAD: "dead", ASK: "ask", NEVER: "never"}
OF_WORDS = {word: kind for kind, word in KINDS.items()}
NOTHING: Pieces = {}
OF_FLOWS = "source", "kept"
FATES = "impdown enddown acks distances repeat noroom passing piece whole unmarked old dead never replied answer stale".split()


# ---- texts


def bits_text(bits: Sequence[int]) -> str:
    return "".join(str(bit) for bit in bits)


def packet_of(packet: Packet) -> Object:
    kind, flow, number, place, last, bits = packet
    return {"kind": KINDS[kind], **flow_of(flow), "number": number, "place": place, "last": last, **text_of(bits)}


def distances_of(vector: Sequence[int]) -> dict[str, int]:
    """The distances to the IMPs that can be reached."""
    return finite(tuple(vector))


@cache
def finite(vector: tuple[int, ...]) -> dict[str, int]:
    return {str(imp): distance for imp, distance in enumerate(vector, 1) if distance < INFINITE}


def frame_of(acknowledged: int, content: Content) -> Object:
    frame: Object = {"acks": f"{acknowledged:0{CHANNELS}b}"[::-1]}
    if content is None:
        return frame
    if isinstance(content, Routes):
        return {**frame, "routes": distances_of(content.distances)}
    channel, bit, packet = content
    return {**frame, "channel": channel, "bit": bit, "packet": packet_of(packet)}


def host_of(host: HostPort) -> Object:
    messages = [message_of(flow, text, number) for flow, number, text in host.messages]
    return {"up": host.is_up, "messages": messages, "answers": [answer_of(it) for it in host.answers]}


def channel_of(bit: int, packet: Packet | None) -> Object:
    return {"bit": bit} if packet is None else {"bit": bit, "packet": packet_of(packet)}


def port_of(port: Port) -> Object:
    sending = [channel_of(*it) for it in zip(port.line.next_bit, port.line.busy)]
    return {"up": port.is_up, "sending": sending, "expected": bits_text(port.line.expected)}


def slot_of(flow: Flow, number: int, pieces: Pieces) -> list[Object]:
    return [packet_of(Packet(DATA, flow, number, place, *pieces[place])) for place in sorted(pieces)]


def standing(imp: ImpState, flow: Flow) -> str:
    """What a flow's message begun last has come to, at its source; `dead` where a Dead without a number waits after that."""
    if flow in imp.outstanding or flow in imp.answered:
        return "outstanding" if flow in imp.outstanding else "answered"
    return "dead" if imp.answer_waits(flow) else "idle"


def ports_to(imp: ImpState) -> dict[str, int]:
    """For each IMP to which a way leads its port."""
    ways = {number: imp.route(number) for number in range(1, MOST_IMPS + 1)}
    return {str(number): port for number, port in ways.items() if port is not None}


def imp_of(imp: ImpState) -> Object:
    return {
        "hosts": [host_of(host) for host in imp.hosts],
        "ports": [port_of(port) for port in imp.ports],
        "routes": [port.heard and distances_of(port.heard) for port in imp.ports],
        "store": [packet_of(packet) for packet in imp.store],
        "slots": [slot_of(flow, *imp.slots[flow]) for flow in in_order(imp.slots)],
        "distances": distances_of(imp.vector()),
        "next": ports_to(imp),
    }


# ---- parts


def part(subnet: Subnet, name: str) -> Object | None:
    """A part of a subnet, by its name."""
    kind, number = name.split(" ")
    if kind == "imp":
        imp = subnet.imps[int(number)]
        return None if imp is None else imp_of(imp)
    return {way: [frame_of(*frame) for frame in frames] for way, frames in subnet.live[int(number)].items()}


def flows_at(imp: ImpState) -> dict[str, Object]:
    """The parts of an IMP's flows: of those from here, and then of those to here."""
    begun, noted = in_order(imp.last), in_order(imp.kept)
    sources = {f"source {spell_flow(it)}": {"state": standing(imp, it), "number": imp.last[it]} for it in begun}
    kept = {f"kept {spell_flow(it)}": {"fate": imp.fates[it], "number": imp.kept[it]} for it in noted}
    return {**sources, **kept}


def flows(subnet: Subnet, names: Container[str]) -> dict[str, Object]:
    """The parts of the flows of those IMPs that are among these parts."""
    imps = [subnet.imps[number] for number in subnet.sites if f"imp {number}" in names]
    return {name: told for imp in imps if imp is not None for name, told in flows_at(imp).items()}


@cache
def flow_named(name: str) -> Flow | None:
    """The flow that a part is of, if it is of one."""
    kind, *words = name.split(" ")
    return Flow(read_host(words[0]), read_host(words[1]), int(words[2])) if kind in OF_FLOWS else None


def home(name: str) -> str:
    """The part with which a part changes: with a flow's its IMP."""
    flow = flow_named(name)
    if flow is None:
        return name
    return f"imp {(flow.source if name.startswith('source') else flow.destination).imp}"


def every_name(subnet: Subnet) -> list[str]:
    return [*(f"imp {number}" for number in subnet.sites), *(f"line {line}" for line in range(len(subnet.ends)))]


def imp_named(subnet: Subnet, event: Event) -> int | None:
    """The IMP at which an event happens."""
    kind, *parts = event
    number: int | None = None
    match EVENTS[kind].at:
        case "+|-":
            line, way, _ = parts
            number = subnet.ends[line][FAR[way]] if line < len(subnet.ends) else None
        case "H":
            number = parts[0].imp
        case "S":
            number = parts[0].source.imp
        case "D":
            number = parts[0].destination.imp
        case "I":
            number = parts[0]
    return number


def names(subnet: Subnet, event: Event, _: Sequence[Crossing]) -> list[str]:
    """The parts that an event can change, but for those of flows: these change with their IMP."""
    if EVENTS[event[0]].at == "L":
        return [f"line {event[1]}"] if event[1] < len(subnet.ends) else []
    number = imp_named(subnet, event)
    if number is None or number not in subnet.sites:
        return []
    lines = [] if event[0] in ("impdown", "impup") else subnet.lines_of(number)
    return [f"imp {number}", *(f"line {line}" for line in lines)]


def in_quiet_round(subnet: Subnet) -> Iterator[Event]:
    """The elementary events of a quiet round. Each has to happen before the next is asked for."""
    for number in subnet.sites:
        if imp := subnet.imps[number]:
            yield "route", number
            if imp.packets():
                yield "resend", number
    for line, (a, b) in enumerate(subnet.ends):
        for way, far in ("+", b), ("-", a):
            for _ in range(len(subnet.live[line][way])):
                if subnet.imps[far] is not None:
                    yield "deliver", line, way, 0
                yield "drop", line, way, 0


def is_given(subnet: Subnet, host: HostName) -> bool:
    """Whether a host that takes gets something: it is up, an answer waits, or a message whose RFNM has room."""
    imp = subnet.imps[host.imp]
    if imp is None or not imp.runs(host):
        return False
    waits = imp.hosts[host.number]
    if waits.answers or not waits.messages:
        return bool(waits.answers)
    source = waits.messages[0].flow.source.imp
    return source == imp.number or imp.route(source) is None or imp.room(1)


# ---- what becomes of frames


def fate(subnet: Subnet, event: Event) -> str | None:
    """What is to become of a frame that arrives, before it does; None of any other event, and where no such frame is live."""
    if event[0] != "deliver":
        return None
    _, line, way, place = event
    if place >= len(subnet.way(line, way)):
        return None
    imp = subnet.imps[subnet.ends[line][FAR[way]]]
    if imp is None:
        return "impdown"
    end = imp.ports[subnet.port_of(imp.number, line)]
    content = subnet.way(line, way)[place].content
    if not end.is_up:
        return "enddown"
    if content is None:
        return "acks"
    return "distances" if isinstance(content, Routes) else fate_of_packet(imp, end, *content)


def fate_of_packet(imp: ImpState, end: Port, channel: int, bit: int, packet: Packet) -> str:
    """What becomes of a packet on a channel."""
    if bit != end.line.expected[channel]:
        return "repeat"
    if target(packet) != imp.number:
        has_place = imp.room(1) or imp.route(target(packet)) is None
        return "passing" if has_place else "noroom"
    kind, flow, number = packet[:3]
    if kind not in (DATA, ASK):
        return "answer" if imp.outstanding.get(flow) == number else "stale"
    value = asked(imp, flow, number) if kind == ASK else came(imp, packet)
    is_sent = value in ("dead", "never", "replied") and imp.route(flow.source.imp) is not None
    return "noroom" if is_sent and not imp.room(1) else value


def asked(imp: ImpState, flow: Flow, number: int) -> str:
    """What becomes of a question."""
    if imp.is_new(flow, number):
        return "never"
    return "replied" if imp.kept[flow] == number and imp.fates[flow] != "waits" else "old"


def came(imp: ImpState, packet: Packet) -> str:
    """What becomes of a piece that is for a host here."""
    _, flow, number, place, last, bits = packet
    if not imp.is_new(flow, number):
        return "old"
    if not imp.runs(flow.destination):
        return "dead"
    begun, pieces = imp.slots.get(flow, (number, NOTHING))
    held = pieces if begun == number else NOTHING
    ends = [at for at, (is_last, _) in held.items() if is_last]
    if place in held or any(at < place for at in ends) or last and any(at > place for at in held):
        return "old"
    if not last and not ends or len(held) < (place if last else ends[0]):
        return "piece" if flow in imp.slots or len(imp.slots) < SLOTS else "noroom"
    if "1" not in bits and not any("1" in it for _, it in held.values()):
        return "unmarked"
    return "whole" if len(imp.hosts[flow.destination.number].messages) < QUEUE else "noroom"


# ---- a subnet from its parts


def packet_in(value: Object) -> Packet:
    return Packet(OF_WORDS[value["kind"]], flow_in(value), value["number"], value["place"], value["last"], text_in(value))


def bits_in(text: str) -> list[int]:
    return [int(bit) for bit in text]


def vector_in(distances: Mapping[str, int]) -> list[int]:
    return [distances.get(str(imp), INFINITE) for imp in range(1, MOST_IMPS + 1)]


def frame_in(frame: Object) -> Frame:
    acknowledged = sum(bit << channel for channel, bit in enumerate(bits_in(frame["acks"])))
    if "routes" in frame:
        return Frame(acknowledged, Routes(vector_in(frame["routes"])))
    if "packet" in frame:
        return Frame(acknowledged, Carried(frame["channel"], frame["bit"], packet_in(frame["packet"])))
    return Frame(acknowledged, None)


def fill_host(host: HostPort, value: Object) -> None:
    host.is_up = value["up"]
    host.answers = [answer_in(it) for it in value["answers"]]
    host.messages = [Arrived(flow_in(it), it["number"], text_in(it)) for it in value["messages"]]


def fill_line(line: Channels, value: Object) -> None:
    line.next_bit = [it["bit"] for it in value["sending"]]
    line.busy = [packet_in(it["packet"]) if "packet" in it else None for it in value["sending"]]
    line.expected = bits_in(value["expected"])


def fill_flow(imp: Imp, flow: Flow, value: Object) -> None:
    """What an IMP knows of a flow from here, which has a state, or to here, which has a fate."""
    number = value["number"]
    if "fate" in value:
        imp.note(flow, number, value["fate"])
        return
    imp.last[flow] = number
    if value["state"] == "outstanding":
        imp.outstanding[flow] = number
    elif value["state"] == "answered":
        imp.answered.add(flow)


def fill_imp(imp: Imp, value: Object) -> None:
    for host, it in zip(imp.hosts, value["hosts"], strict=True):
        fill_host(host, it)
    for port, it, heard in zip(imp.ports, value["ports"], value["routes"], strict=True):
        port.is_up, port.heard = it["up"], heard if heard is None else vector_in(heard)
        fill_line(port.line, it)
    imp.claims = not any(vector_in(value["distances"]))
    imp.store = [packet_in(it) for it in value["store"]]
    for pieces in ([packet_in(it) for it in slot] for slot in value["slots"]):
        imp.slots[pieces[0].flow] = pieces[0].number, {it.place: (it.last, it.bits) for it in pieces}


def put(subnet: Subnet, name: str, value: Object | None) -> None:
    """Puts a part in the place of the one that a subnet has; that of a flow once its IMP is in its place."""
    flow = flow_named(name)
    if flow is not None and value is not None:
        at = subnet.imps[int(home(name).split(" ")[1])]
        assert at is not None
        fill_flow(at, flow, value)
        return
    kind, number = name.split(" ")[0], int(name.split(" ")[1])
    if kind == "line" and value is not None:
        subnet.live[number] = {way: [frame_in(frame) for frame in value[way]] for way in "+-"}
        return
    imp = subnet.imps[number] = None if value is None else subnet.imp_of(number)
    if imp is not None and value is not None:
        fill_imp(imp, value)


def subnet_of(imps: Sequence[tuple[int, int]], lines: Sequence[tuple[int, ...]], parts: Mapping[str, Object | None]) -> Subnet:
    """A subnet that has these parts, with an empty log."""
    subnet = Subnet(imps, lines)
    for name in sorted(parts, key=lambda name: name.split(" ")[0] in OF_FLOWS):
        put(subnet, name, parts[name])
    return subnet
