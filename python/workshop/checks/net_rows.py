"""Calls on mailboxes, lines, pieces, flows and tables of distances, answered by the independent model."""

from __future__ import annotations

from collections.abc import Callable, Sequence

from dorydate.model.bits import read_bits, spell_bits
from dorydate.model.boxes import Boxes
from dorydate.model.channels import Channels
from dorydate.model.crossings import Message, Turned
from dorydate.model.imp import Imp, nothing
from dorydate.model.imp_state import NUMBERS, Fate, ImpState
from dorydate.model.names import Flow, Refused, in_order, read_host, spell_flow, spell_host
from dorydate.model.packets import DATA, INFINITE, MOST_IMPS, Carried, Content, Packet, Routes
from dorydate.model.packets import body, pieces_of, spell_frame, spell_packet
from dorydate.model.tables import spell_table
from workshop.checks.format_rows import in_digits, in_word
from workshop.checks.imp_rows import read_flow, read_frame, spell_given
from workshop.checks.reader_rows import octets_in
from workshop.checks.readings import Reading, Unread

FATES: dict[str, Fate] = {"waits": "waits", "taken": "taken", "dead": "dead", "never": "never"}
# what is answered to a question about a message
TOLD: dict[Fate, str] = {"waits": "silent", "taken": "rfnm", "dead": "dead", "never": "never"}


def number_or_dash(number: int | None) -> str:
    """A number that may be there."""
    return "-" if number is None else str(number)


def at_place(words: Sequence[str], place: str) -> str:
    """What is at a place."""
    return words[int(place)] if int(place) < len(words) else "nothing"


def packet_of(digits: str) -> Packet:
    """The packet that digits spell."""
    _, content = read_frame(f"F2000000{digits}")
    assert isinstance(content, Carried)
    return content.packet


def spell(packet: Packet) -> str:
    """The octets of a packet."""
    return in_digits(spell_packet(packet))


# ---- mailboxes


class BoxRows:
    """Plain mailboxes of hosts."""

    def __init__(self, *hosts: str) -> None:
        self.boxes = Boxes([])
        self.boxes.is_up = {read_host(host): True for host in hosts}

    def answers(self, call: str, wanted: list[str]) -> list[str]:
        name, *words = call.split(" ")
        try:
            return [self.asked(name, words) or self.happened(name, words)]
        except Refused as refused:
            return [f"refused {refused}"]

    def asked(self, name: str, words: list[str]) -> str | None:
        """What a query says; None for what happens."""
        boxes = self.boxes
        host = words[0] if words else ""
        waiting = [Message("message", *it) for it in boxes.messages]
        messages = [spell_given(it) for it in waiting if spell_host(it.flow.destination) == host]
        answers = [spell_given(it) for it in boxes.answers if spell_host(it.flow.source) == host]
        match name, words:
            case "waiting", [_]:
                return f"{len(messages)} messages, {len(answers)} answers"
            case "message", [_, place]:
                return at_place(messages, place)
            case "answer", [_, place]:
                return at_place(answers, place)
            case "down", [place]:
                stopped = [it.host for it in boxes.log if isinstance(it, Turned) and it.kind == "down"]
                return at_place([spell_host(it) for it in stopped if not boxes.is_up[it]], place)
            case "hosts", []:
                return str(len(boxes.is_up))
            case "crossings", []:
                return str(len(boxes.log))
            case "rests", beside:
                waits_for = {it.flow.destination for it in waiting} | {it.flow.source for it in boxes.answers}
                return in_word({*map(spell_host, waits_for)} <= {*beside})
        return None

    def happened(self, name: str, words: list[str]) -> str:
        """What becomes of what happens."""
        boxes = self.boxes
        match name, words:
            case "out", [*flow, count, digits]:
                boxes.out(read_flow(flow), read_bits(count, digits))
            case "take", [host]:
                return spell_given(boxes.take(read_host(host)))
            case "calm", []:
                boxes.quiet_round()
            case "giveup", flow:
                boxes.giveup(read_flow(flow))
            case "hostdown", [host]:
                boxes.hostdown(read_host(host))
            case "hostup", [host]:
                boxes.hostup(read_host(host))
            case _:
                boxes.step(name)
        return "ok"


# ---- lines


class LineRows:
    """The two ends of a line."""

    def __init__(self) -> None:
        self.ends = {"left": Channels(), "right": Channels()}

    def answers(self, call: str, wanted: list[str]) -> list[str]:
        side, name, *words = call.split(" ")
        end = self.ends[side]
        match name, words:
            case "submit", [digits]:
                taken = end.submit(packet_of(digits))
                return [self.frame(end, taken) if taken else f"all busy {digits}"]
            case "hear", [digits]:
                return [self.heard(end, *read_frame(digits))]
            case "acknowledge", []:
                return [self.frame(end, None)]
            case "tell", [digits]:
                return [self.frame(end, Routes([*octets_in(digits)]))]
            case "resend", []:
                busy = [channel for channel, packet in enumerate(end.busy) if packet]
                return ["ok", *(self.frame(end, end.frame(channel)) for channel in busy)]
            case "again", [channel]:
                return [self.frame(end, end.frame(int(channel))) if end.busy[int(channel)] else "nothing"]
            case "packet", [channel]:
                return [at_place([spell(packet) if packet else "nothing" for packet in end.busy], channel)]
            case "busy", []:
                return [f"{len(end.held())}{'' if None in end.busy else ', full'}"]
            case "reset", []:
                self.ends[side] = Channels()
                return ["ok", *map(spell, end.held())]
        raise Unread(f"{name} of lines")

    def frame(self, end: Channels, content: Content) -> str:
        """The octets of a frame."""
        return in_digits(spell_frame(end.acknowledged(), content))

    def heard(self, end: Channels, acknowledged: int, content: Content) -> str:
        """What a frame brings."""
        end.take_acknowledgements(acknowledged)
        if content is None:
            return "acknowledgements"
        if isinstance(content, Routes):
            return f"distances {in_digits(bytes(content.distances))}"
        if content.bit != end.expected[content.channel]:
            return "repeat"
        end.expected[content.channel] ^= 1
        return f"fresh {spell(content.packet)}"


# ---- pieces


class PieceRows:
    """An IMP that puts messages together for all hosts of one."""

    def __init__(self) -> None:
        self.imp = Imp(1, 4, 0)

    def answers(self, call: str, wanted: list[str]) -> list[str]:
        name, *words = call.split(" ")
        slots = self.imp.slots
        match name, words:
            case "cut", [*flow, number, count, digits]:
                pieces = pieces_of(read_bits(count, digits))
                of_flow = read_flow(flow), int(number)
                cut = (Packet(DATA, *of_flow, at, at + 1 == len(pieces), bits) for at, bits in enumerate(pieces))
                return ["ok", *map(spell, cut)]
            case "add", [digits]:
                return [self.added(packet_of(digits))]
            case "discard", flow:
                slots.pop(read_flow(flow), None)
                return ["ok"]
            case "marked", [digits]:
                return [in_word(self.is_marked(packet_of(digits)))]
            case "held", []:
                return [str(len(slots)), *(f"{spell_flow(flow)} {slots[flow][0]}" for flow in in_order(slots))]
        raise Unread(f"{name} of pieces")

    def is_marked(self, packet: Packet) -> bool:
        """Whether a bit 1 is in a piece or in what is held of its message."""
        number, pieces = self.imp.slots.get(packet.flow, (packet.number, {}))
        held = pieces.values() if number == packet.number else ()
        return "1" in packet.bits or any("1" in bits for _, bits in held)

    def added(self, packet: Packet) -> str:
        """What becomes of a piece."""
        deed = self.imp.reassembly_of(packet)
        if deed is None or deed is nothing:
            return "old" if deed else "full"
        deed()
        waiting = self.imp.hosts[packet.flow.destination.number].messages
        return f"whole {spell_bits(body(waiting.pop().text))}" if waiting else "kept"


# ---- flows


class FlowRows:
    """Flows at an IMP that has just come up."""

    def __init__(self) -> None:
        self.state = ImpState(1, 0, 0)


class SourceRows(FlowRows):
    """Flows at their source."""

    def answers(self, call: str, wanted: list[str]) -> list[str]:
        name, *words = call.split(" ")
        match name, words:
            case "outstanding", [host]:
                return [in_word(any(flow.source == read_host(host) for flow in self.state.outstanding))]
            case "awaits", [imp]:
                return [in_word(self.state.awaits(int(imp)))]
            case "numbers", [*flow, count]:
                return [self.numbers(read_flow(flow), int(count))]
            case "answer", [*flow, number]:
                return [self.answered(read_flow(flow), int(number))]
        return [self.of_flow(name, read_flow(words))]

    def of_flow(self, name: str, flow: Flow) -> str:
        """What comes of a call that has only a flow."""
        state = self.state
        is_idle = flow not in state.outstanding and flow not in state.answered
        if name == "begin":
            return str(self.begin(flow)) if is_idle else "refused blocked"
        if name == "know":
            numbers = number_or_dash(state.outstanding.get(flow)), number_or_dash(state.last.get(flow))
            return f"{'idle' if is_idle else 'busy'}, outstanding {numbers[0]}, last {numbers[1]}"
        if name == "giveup":
            self.answered(flow, state.outstanding.get(flow))
        elif name == "handed":
            state.answered.discard(flow)
        else:
            raise Unread(f"{name} of sources")
        return "ok"

    def begin(self, flow: Flow) -> int:
        """Begins a message."""
        number = self.state.next_number(flow)
        self.state.outstanding[flow] = self.state.last[flow] = number
        return number

    def answered(self, flow: Flow, number: int | None) -> str:
        """What an answer does."""
        if number is None or self.state.outstanding.get(flow) != number:
            return "stale"
        del self.state.outstanding[flow]
        self.state.answered.add(flow)
        return "freed"

    def numbers(self, flow: Flow, count: int) -> str:
        """The numbers of messages that are each given up, in runs."""
        runs: list[list[int]] = []
        for _ in range(count):
            number = self.begin(flow)
            self.answered(flow, number)
            self.state.answered.discard(flow)
            if runs and runs[-1][1] + 1 == number:
                runs[-1][1] = number
            else:
                runs.append([number, number])
        return " ".join(f"{first}-{last}" for first, last in runs)


class DestinationRows(FlowRows):
    """Flows at their destination."""

    def answers(self, call: str, wanted: list[str]) -> list[str]:
        name, *words = call.split(" ")
        match name, words:
            case "next", [number]:
                return [str(NUMBERS.following(int(number)))]
            case "oldest", [number]:
                return [str((int(number) - NUMBERS.window) % NUMBERS.count)]
            case "is_new", [kept, number]:
                return [in_word(kept == "-" or NUMBERS.is_after(int(number), int(kept)))]
            case "keeps", [imp]:
                return [in_word(any(flow.source.imp == int(imp) for flow in self.state.kept))]
            case "forget", [imp]:
                noted = self.state.kept
                self.state.kept = {flow: noted[flow] for flow in noted if flow.source.imp != int(imp)}
                return ["ok"]
            case "kept", flow:
                return [number_or_dash(self.state.kept.get(read_flow(flow)))]
        return [self.of_number(name, read_flow(words[:3]), int(words[3]), words[4:])]

    def of_number(self, name: str, flow: Flow, number: int, rest: list[str]) -> str:
        """What comes of a call that has a number of a flow."""
        state = self.state
        if name == "judge":
            return self.judged(flow, range(number, int(rest[0]) + 1))
        if name == "asked":
            if state.is_new(flow, number):
                return "note"
            return TOLD[state.fates[flow]] if state.kept[flow] == number else "silent"
        if name == "note":
            state.kept[flow], state.fates[flow] = number, FATES[rest[0]]
        elif name == "end":
            if state.kept.get(flow) == number:
                state.fates[flow] = FATES[rest[0]]
        else:
            raise Unread(f"{name} of destinations")
        return "ok"

    def judged(self, flow: Flow, numbers: range) -> str:
        """How old numbers are, in runs."""
        runs: list[list[int]] = []
        for number in numbers:
            is_new = self.state.is_new(flow, number)
            if not runs or runs[-1][0] != is_new:
                runs.append([is_new, 0])
            runs[-1][1] += 1
        return ", ".join(f"{'new' if is_new else 'old'} {count}" for is_new, count in runs)


# ---- tables of distances


class RouteRows:
    """The table of one IMP."""

    def __init__(self, imp: str, ports: str) -> None:
        self.state = ImpState(int(imp), 0, int(ports))

    def answers(self, call: str, wanted: list[str]) -> list[str]:
        name, *words = call.split(" ")
        match name, words:
            case "vector", [digits]:
                return [digits if is_vector(octets_in(digits)) else "nothing"]
            case "same" | "equal", [first, second]:
                return [in_word(first == second)]
            case "hear", [port, digits]:
                self.state.ports[int(port)].heard = [*octets_in(digits)]
            case "lost", [port]:
                self.state.ports[int(port)].heard = None
            case "claim", []:
                self.state.claims = True
            case "ports", []:
                return [str(len(self.state.ports))]
            case "look", []:
                pass
            case _:
                raise Unread(f"{name} of routes")
        return [spell_table(self.state.vector(), [self.state.route(imp) for imp in range(1, MOST_IMPS + 1)])]


def is_vector(octets: bytes) -> bool:
    """Whether octets are distances to all IMPs."""
    return len(octets) == MOST_IMPS and max(octets) <= INFINITE


KINDS: dict[str, Callable[..., Reading]] = {
    "boxes": BoxRows,
    "line": LineRows,
    "pieces": PieceRows,
    "sources": SourceRows,
    "destinations": DestinationRows,
    "routes": RouteRows,
}


def open_net(call: str) -> tuple[Reading, list[str]]:
    """What a block's first row opens."""
    name, *words = call.split(" ")
    return KINDS[name](*words), []
