"""What frames do: those that are delivered or dropped, sent again, and the ends of lines that go down and up."""

from __future__ import annotations

from dataclasses import dataclass

from dorydate.explain.view import INSIDE, Sentences, View, Ways, host_in_words, imp_in_words
from dorydate.model.alive import frame_in_words, packet_in_words
from dorydate.model.crossings import ANSWERS
from dorydate.model.imp import BRINGS, Imp
from dorydate.model.imp_state import Fate, Pieces
from dorydate.model.names import Flow
from dorydate.model.packets import ASK, DATA, INFINITE, Carried, Content, Packet, Routes, target
from dorydate.sentences.table import capital, filled, listed

STAYS = "The frame stays on the line until it is dropped."

# what an IMP knows of the message that it noted last, by its fate
KNOWS: dict[Fate, str] = {
    "waits": "Message {message} waits there for host {host}.",
    "taken": "Host {host} took message {message}.",
    "dead": "Host {host} was down, and did not take message {message}.",
    "never": "Message {message} was noted as never come.",
}


@dataclass(frozen=True)
class Before:
    """What an IMP kept before a frame arrived, as far as it is spoken of."""

    number: int
    port: int
    content: Content
    ways: Ways
    busy: list[Packet | None]
    bits: list[int]
    is_thrown_away: bool
    was_accepted: bool
    outstanding: dict[Flow, int]
    kept: dict[Flow, int]
    fates: dict[Flow, Fate]
    slots: dict[Flow, tuple[int, Pieces]]
    messages: list[int]
    new: frozenset[tuple[Flow, int]]  # the messages in the frame that the IMP would have taken as new

    @staticmethod
    def of(imp: Imp, port: int, content: Content, ways: Ways) -> Before:
        line = imp.ports[port].line
        is_packet = isinstance(content, Carried)
        packet = content.packet if isinstance(content, Carried) else None
        return Before(
            imp.number, port, content, ways, [*line.busy], [*line.next_bit],
            isinstance(content, Carried) and content.bit != line.expected[content.channel],
            is_packet and packet is not None and packet[:4] in imp.ports[port].accepted,
            dict(imp.outstanding), dict(imp.kept), dict(imp.fates),
            {flow: (number, dict(pieces)) for flow, (number, pieces) in imp.slots.items()},
            [len(host.messages) for host in imp.hosts],
            frozenset([(packet.flow, packet.number)] if packet and imp.is_new(packet.flow, packet.number) else []),
        )  # fmt: skip

    def queued(self, flow: Flow) -> int:
        """How many messages waited for the flow's destination."""
        host = flow.destination.number
        return self.messages[host] if host < len(self.messages) else 0


def delivered(view: View, line: int, way: str, place: int) -> Sentences | None:
    """What is said of a frame that arrives."""
    frames = view.subnet.way(line, way)
    if place >= len(frames):
        return None
    near, far = view.line_ends(line, way)
    content = frames[place].content
    where = {"frame": frame_in_words(content), "imp": imp_in_words(far), "from": imp_in_words(near), "line": line}
    start = filled(INSIDE["arrives"], where)
    imp, port = view.imp(far), view.subnet.port_of(far, line)
    if imp is None:
        return lambda: [start, filled(INSIDE["imp ignores"], where)]
    if not imp.ports[port].is_up:
        return lambda: [start, filled(INSIDE["end ignores"], where)]
    was = Before.of(imp, port, content, view.ways(far))
    return lambda: [start, arrived(view, was), freed(view, was), STAYS]


def arrived(view: View, was: Before) -> str:
    """What an IMP made of what arrived."""
    number, content = was.number, was.content
    if content is None:
        return ""
    if isinstance(content, Routes):
        return view.new_ways(number, was.ways) or "The routes that it knows stay the same."
    if was.is_thrown_away:
        return thrown_away(view, was, content)
    imp = view.subnet.up(number)
    if imp.ports[was.port].line.expected[content.channel] == content.bit:
        return filled(INSIDE["full"], imp=imp_in_words(number))
    packet = content.packet
    if target(packet) != number:
        return passed_on(view, number, packet, was.ways)
    return asked(view, was, imp, packet) if packet.kind == ASK else taken_in(view, was, imp, packet)


def thrown_away(view: View, was: Before, content: Carried) -> str:
    """Why a packet with the channel's other bit is thrown away: it came before, or the two ends of the line disagree."""
    if was.was_accepted:
        return INSIDE["repeat"]
    line = view.subnet.lines_of(was.number)[was.port]
    far = sum(view.subnet.ends[line]) - was.number
    ends = [(far, line), (was.number, line)]
    cure = ", ".join(f"`{word} {imp} {line}`" for word in ("enddown", "endup") for imp, line in ends)
    return filled(INSIDE["lost"], imp=imp_in_words(was.number), channel=content.channel, line=line, cure=cure)


def passed_on(view: View, number: int, packet: Packet, ways: Ways) -> str:
    """Where a packet for another IMP goes."""
    ends = {"imp": imp_in_words(number), "to": imp_in_words(target(packet))}
    if not ways.get(target(packet)):
        return filled(INSIDE["no route"], ends)
    return view.sendings(number) or filled(INSIDE["stored"], ends)


def taken_in(view: View, was: Before, imp: Imp, packet: Packet) -> str:
    """What became of a fresh packet at the IMP that it is for."""
    flow, message = packet.flow, packet.number
    host = host_in_words(flow.destination)
    if packet.kind != DATA:
        if was.outstanding.get(flow) != message:
            return INSIDE["not outstanding"]
        waits = answer_waits(imp, ANSWERS[BRINGS[packet.kind]], flow)
        return f"Message {message} is no longer outstanding. {waits}"
    queue = imp.hosts[flow.destination.number].messages if flow.destination.number < len(imp.hosts) else []
    if len(queue) > was.queued(flow):
        return filled(INSIDE["whole"], host=host)
    if not imp.runs(flow.destination) and imp.kept.get(flow) == message and was.kept.get(flow) != message:
        return f"{filled(INSIDE['host down'], host=host)} {view.sendings(imp.number) or INSIDE['no answer']}"
    if imp.slots.get(flow) != was.slots.get(flow) and flow in imp.slots:
        return filled(INSIDE["not whole"], count=len(imp.slots[flow][1]))
    if (flow, message) not in was.new:
        return old(was, flow, message)
    return INSIDE["dropped"]


def old(was: Before, flow: Flow, message: int) -> str:
    """Why a packet of a message that an IMP has noted, or that is older than one that it has noted, is dropped."""
    if was.kept[flow] != message:
        return filled(INSIDE["older"], imp=imp_in_words(was.number), number=was.kept[flow])
    return INSIDE["noted never" if was.fates[flow] == "never" else "old"]


def answer_waits(imp: Imp, answer: str, flow: Flow) -> str:
    """Whether an answer waits for the source of a flow: a host that is down gets none."""
    return filled(INSIDE["waits" if imp.runs(flow.source) else "nobody waits"], answer=answer, host=host_in_words(flow.source))


def asked(view: View, was: Before, imp: Imp, packet: Packet) -> str:
    """What an IMP answers to a question about a message to one of its hosts, and why."""
    flow, message = packet.flow, packet.number
    if (flow, message) in was.new:
        pieces = len(was.slots[flow][1]) if flow in was.slots else 0
        thrown = f" It throws away {pieces} piece{'s' if pieces > 1 else ''} of the flow." if pieces else ""
        why = f"IMP {imp.number} has not seen message {message} as a whole, and notes it as never come: from now on its packets are old here.{thrown}"
        return f"{why} {replied(view, imp, flow)}"
    if was.kept[flow] != message:
        return f"The last number that it noted is {was.kept[flow]}, so it knows nothing of message {message}, and answers nothing."
    fate = was.fates[flow]
    knows = KNOWS[fate].format(host=host_in_words(flow.destination).removeprefix("host "), message=message)
    return f"{knows} {INSIDE['no answer'] if fate == 'waits' else replied(view, imp, flow)}"


def replied(view: View, imp: Imp, flow: Flow) -> str:
    """How the answer to a question leaves."""
    if not view.leads(imp.number, flow.source.imp):
        return f"IMP {imp.number} knows no route to IMP {flow.source.imp}, so no answer goes back."
    return view.sendings(imp.number) or f"The answer waits in the store of IMP {imp.number}."


def freed(view: View, was: Before) -> str:
    """Which packets the frame's acknowledgement bits freed at its receiver."""
    end = view.subnet.up(was.number).ports[was.port].line
    packets = [packet_in_words(packet) for channel, packet in enumerate(was.busy) if packet is not None and was.bits[channel] != end.next_bit[channel]]
    return filled(INSIDE["acknowledges"], packets=listed(packets)) if packets else ""


def dropped(view: View, line: int, way: str, place: int) -> Sentences | None:
    """What is said of a frame that is gone."""
    return lost(view, "gone", line, way, place)


def garbled(view: View, line: int, way: str, place: int) -> Sentences | None:
    """What is said of a frame whose checksum is wrong."""
    return lost(view, "garbled", line, way, place)


def lost(view: View, word: str, line: int, way: str, place: int) -> Sentences | None:
    """What is said of a frame that is lost so. An IMP that is down refuses nothing."""
    frames = view.subnet.way(line, way)
    if place >= len(frames):
        return None
    content = frames[place].content
    near, far = view.line_ends(line, way)
    start = filled(INSIDE[word if view.imp(far) else "gone"], {"frame": frame_in_words(content), "line": line, "from": imp_in_words(near), "to": imp_in_words(far)})
    if not isinstance(content, Carried):
        return lambda: [start]
    imp = view.imp(near)
    held = imp is not None and imp.ports[view.subnet.port_of(near, line)].line.busy[content.channel] == content.packet
    after = filled(INSIDE["still held" if held else "held no longer"], imp=imp_in_words(near), number=near)
    return lambda: [start, after]


def sent_again(view: View, number: int) -> Sentences:
    return lambda: [view.sendings(number, "sends again") or filled(INSIDE["nothing to send"], imp=imp_in_words(number))]


def routes_sent(view: View, number: int) -> Sentences:
    """What is said of distances that an IMP sends to its neighbours."""

    def said() -> list[str]:
        imp, lines = view.subnet.up(number), view.subnet.lines_of(number)
        over = listed([f"line {line}" for line, port in zip(lines, imp.ports) if port.is_up])
        if not over:
            return [filled(INSIDE["sends to nobody"], imp=imp_in_words(number))]
        vector = imp.vector()
        distances = listed([f"IMP {it} at {vector[it - 1]}" for it in view.subnet.sites if vector[it - 1] < INFINITE], 16)
        return [f"IMP {number} puts its distances on {over}: {distances}."]

    return said


def claimed(view: View, number: int) -> Sentences:
    return lambda: [filled(INSIDE["claims"], imp=imp_in_words(number), number=number)]


def end_down(view: View, number: int, line: int) -> Sentences | None:
    """What is said of an end of a line that goes down."""
    imp = view.imp(number)
    if imp is None:
        return None
    port, ways = view.subnet.port_of(number, line), view.ways(number)
    held = imp.ports[port].line.held() if port < len(imp.ports) else []
    start = filled(INSIDE["end down"], line=line, imp=imp_in_words(number))
    return lambda: [start, view.new_ways(number, ways), moved(view, number, held)]


def moved(view: View, number: int, held: list[Packet]) -> str:
    """What became of packets that were in the channels of an end that went down."""
    if not held:
        return ""
    left = view.subnet.up(number).packets()
    gone = [packet_in_words(it) for it in held if it not in left]
    said = [capital(f"{listed([packet_in_words(it) for it in held])} went back to the store."), view.sendings(number)]
    if gone:
        said.append(filled(INSIDE["no route left"], packets=listed(gone)))
    return " ".join(filter(None, said))


def end_up(view: View, number: int, line: int) -> Sentences | None:
    """What is said of an end of a line that comes up."""
    if view.imp(number) is None or line >= len(view.subnet.ends) or number not in view.subnet.ends[line]:
        return None
    far = sum(view.subnet.ends[line]) - number
    return lambda: [filled(INSIDE["end up"], line=line, imp=imp_in_words(number), far=imp_in_words(far), number=far)]
