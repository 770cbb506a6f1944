"""One IMP of the subnet: an independent implementation of its rules.

It was written from docs/imp.md, in another language and another form than the definitions, with packets and frames spelled
from the formats. `check imp` compares the code with it, and `subnet` joins several of it.
"""

from __future__ import annotations

from collections.abc import Callable

from dorydate.model.bits import Bits
from dorydate.model.crossings import Answer, Given, Message, Reply
from dorydate.model.imp_state import QUEUE, SLOTS, Arrived, Fate, ImpState
from dorydate.model.names import Flow, HostName, Refused
from dorydate.model.packets import ASK, CHANNELS, DATA, DEAD, NEVER, RFNM, Carried, Content, Kind, Packet, Routes, answer, pieces_of, target

TELLS: dict[Fate, Kind] = {"taken": RFNM, "dead": DEAD, "never": NEVER}  # the answer to a question about a message of this fate
BRINGS: dict[Kind, Answer] = {RFNM: "rfnm", DEAD: "dead", NEVER: "nottaken"}  # what a packet reports to the source

Deed = Callable[[], None]


def nothing() -> None:
    """What is to be done about a packet that is only acknowledged."""


class Imp(ImpState):
    """One IMP of the subnet."""

    # ---- steps

    def tell(self, kind: Answer, flow: Flow) -> None:
        """An answer waits for the source of a flow, which is idle at once where that is down."""
        if self.runs(flow.source):
            self.hosts[flow.source.number].answers.append(Reply(kind, flow))

    def free(self, kind: Answer, flow: Flow, number: int) -> None:
        """An answer about a number comes to its flow."""
        if self.outstanding.get(flow) == number:
            del self.outstanding[flow]
            if self.runs(flow.source):
                self.answered.add(flow)
            self.tell(kind, flow)

    def begin(self, flow: Flow) -> int:
        """Begins the next message of a flow."""
        number = self.next_number(flow)
        self.outstanding[flow] = self.last[flow] = number
        return number

    def send(self, port: int, content: Content) -> None:
        """Puts a frame on the line of a port: its acknowledgement bits and its content."""
        self.frames.append((port, self.ports[port].line.acknowledged(), content))

    def pump(self) -> None:
        """Moves packets from the store into free channels of the lines that lead to their targets."""
        waiting, self.store = self.store, []
        for packet in waiting:
            port = self.route(target(packet))
            if port is None:
                continue
            content = self.ports[port].line.submit(packet)
            if content is None:
                self.store.append(packet)
            else:
                self.send(port, content)

    # ---- the numbers noted last

    def note(self, flow: Flow, number: int, fate: Fate) -> None:
        """Notes a number as a flow's last one, and what became of its message."""
        self.kept[flow], self.fates[flow] = number, fate

    def end(self, flow: Flow, number: int, fate: Fate) -> None:
        """Notes what became of a message that waited."""
        if self.kept.get(flow) == number:
            self.fates[flow] = fate

    # ---- calls

    def from_host(self, flow: Flow, text: Bits) -> None:
        """A host sends a message."""
        source, destination, _ = flow
        host = self.own(source)
        if not host.is_up:
            raise Refused("IsDown")
        if flow in self.outstanding or self.answer_waits(flow):
            raise Refused("Blocked")
        if destination.imp == self.number:
            self.hand_over(flow, text)
        elif self.route(destination.imp) is None:
            self.tell("dead", flow)
        else:
            pieces = pieces_of(text)
            if not self.room(len(pieces)):
                raise Refused("NoRoom")
            number = self.begin(flow)
            self.store += [Packet(DATA, flow, number, place, place == len(pieces) - 1, bits) for place, bits in enumerate(pieces)]

    def hand_over(self, flow: Flow, text: Bits) -> None:
        """A message from one host of this IMP to another one waits for that at once."""
        if not self.runs(flow.destination):
            return self.tell("dead", flow)
        waiting = self.hosts[flow.destination.number].messages
        if len(waiting) == QUEUE:
            raise Refused("NoRoom")
        number = self.begin(flow)
        self.note(flow, number, "waits")
        waiting.append(Arrived(flow, number, text))

    def from_line(self, port: int, acknowledged: int, content: Content) -> None:
        """A frame arrives."""
        if port >= len(self.ports):
            raise Refused("NoSuch")
        end = self.ports[port]
        if not end.is_up:
            return
        if not isinstance(content, Carried):
            end.line.take_acknowledgements(acknowledged)
            if content is not None:
                end.heard = content.distances
            return
        channel, bit, packet = content
        is_fresh = bit == end.line.expected[channel]
        deed = self.meaning_of(packet) if is_fresh else nothing
        if deed is None:
            self.lost += 1
            return
        if is_fresh:
            end.line.expected[channel] ^= 1
            end.accepted.add((packet.kind, packet.flow, packet.number, packet.place))
        end.line.take_acknowledgements(acknowledged)
        self.send(port, None)
        deed()

    def meaning_of(self, packet: Packet) -> Deed | None:
        """What is to be done about a fresh packet; None where there is no room for it, so that it is lost."""
        kind, flow, number = packet.kind, packet.flow, packet.number
        if target(packet) != self.number:
            if self.route(target(packet)) is None:
                return nothing
            return (lambda: self.store.append(packet)) if self.room(1) else None
        if kind == ASK:
            return self.answer_to(flow, number)
        if kind != DATA:
            return lambda: self.free(BRINGS[kind], flow, number)
        if not self.is_new(flow, number):
            return nothing
        if not self.runs(flow.destination):
            return self.with_reply(DEAD, flow, number, lambda: self.turn_down(flow, number, "dead"))
        return self.reassembly_of(packet)

    def answer_to(self, flow: Flow, number: int) -> Deed | None:
        """What is to be done about a question: a number that is new is noted as never come, and the one noted last gives its fate."""
        if self.is_new(flow, number):
            return self.with_reply(NEVER, flow, number, lambda: self.turn_down(flow, number, "never"))
        if self.kept[flow] != number or self.fates[flow] == "waits":
            return nothing
        return self.with_reply(TELLS[self.fates[flow]], flow, number)

    def with_reply(self, kind: Kind, flow: Flow, number: int, deed: Deed = nothing) -> Deed | None:
        """A deed, and a packet to the flow's source where a route leads there. None where that has no room."""
        if self.route(flow.source.imp) is None:
            return deed
        if not self.room(1):
            return None

        def both() -> None:
            deed()
            self.store.append(answer(kind, flow, number))

        return both

    def turn_down(self, flow: Flow, number: int, fate: Fate) -> None:
        """Notes a message that will never be taken here, and throws away its pieces."""
        self.note(flow, number, fate)
        self.slots.pop(flow, None)

    def reassembly_of(self, packet: Packet) -> Deed | None:
        """What is to be done about a piece of a message for a host that is up."""
        _, flow, number, place, last, bits = packet
        held = self.slots[flow][1] if flow in self.slots and self.slots[flow][0] == number else {}
        for other, (other_last, _) in held.items():
            if other == place or other_last and other < place or last and place < other:
                return nothing
        pieces = {**held, place: (last, bits)}
        final = [at for at, (is_last, _) in pieces.items() if is_last]
        if not final or len(pieces) != final[0] + 1:
            if flow not in self.slots and len(self.slots) == SLOTS:
                return None
            return lambda: self.slots.__setitem__(flow, (number, pieces))
        return self.taking_of(flow, number, "".join(pieces[at][1] for at in range(len(pieces))))

    def taking_of(self, flow: Flow, number: int, whole: Bits) -> Deed | None:
        """What is to be done about the body of a message: it waits for its host, unless it has no mark."""
        mark = whole.rstrip("0")
        waiting = self.hosts[flow.destination.number].messages
        if mark and len(waiting) == QUEUE:
            return None

        def take() -> None:
            self.slots.pop(flow, None)
            self.note(flow, number, "waits" if mark else "never")
            if mark:
                waiting.append(Arrived(flow, number, mark[:-1]))

        return take

    def to_host(self, number: int) -> Given | None:
        """What the host takes: an answer, a message, or nothing."""
        host = self.own(HostName(number, self.number))
        if not host.is_up:
            raise Refused("IsDown")
        if host.answers:
            self.answered.discard(host.answers[0].flow)
            return host.answers.pop(0)
        if not host.messages:
            return None
        it = host.messages[0]
        source = it.flow.source
        leads = source.imp != self.number and self.route(source.imp) is not None
        if leads and not self.room(1):
            raise Refused("NoRoom")
        host.messages.pop(0)
        self.end(it.flow, it.number, "taken")
        if source.imp == self.number:
            self.free("rfnm", it.flow, it.number)
        elif leads:
            self.store.append(answer(RFNM, it.flow, it.number))
        return Message("message", it.flow, it.text)

    def resend(self) -> None:
        """Sends each packet in a channel once more."""
        for port, end in enumerate(self.ports):
            if end.is_up:
                for channel in range(CHANNELS):
                    if end.line.busy[channel] is not None:
                        self.send(port, end.line.frame(channel))

    def tell_routes(self) -> None:
        """Tells its distances on each line."""
        distances = self.vector()
        for port, end in enumerate(self.ports):
            if end.is_up:
                self.send(port, Routes(distances))

    def claim(self) -> None:
        """From now on it announces that it is at distance 0 from every IMP. Its own packets go where they went before."""
        self.claims = True

    def end_down(self, port: int) -> None:
        """An end of a line goes down: its packets are in the store again."""
        if port >= len(self.ports):
            raise Refused("NoSuch")
        if not self.ports[port].is_up:
            raise Refused("IsDown")
        self.store += self.ports[port].line.held()
        self.ports[port].reset()
        self.ports[port].is_up = False

    def end_up(self, port: int) -> None:
        """An end of a line comes up."""
        if port >= len(self.ports):
            raise Refused("NoSuch")
        if self.ports[port].is_up:
            raise Refused("IsUp")
        self.ports[port].is_up = True

    def give_up(self, flow: Flow) -> None:
        """A message without an answer is given up."""
        self.own(flow.source)
        if flow not in self.outstanding:
            raise Refused("NotOutstanding")
        self.free("incomplete", flow, self.outstanding[flow])

    def ask(self, flow: Flow) -> None:
        """Asks what became of a message without an answer."""
        self.own(flow.source)
        if flow not in self.outstanding:
            raise Refused("NotOutstanding")
        if self.route(flow.destination.imp) is None:
            return
        if not self.room(1):
            raise Refused("NoRoom")
        self.store.append(answer(ASK, flow, self.outstanding[flow]))

    def forget(self, imp: int) -> None:
        """Forgets the numbers of flows from another IMP."""
        if imp == self.number:
            raise Refused("NoSuch")
        self.kept = {flow: number for flow, number in self.kept.items() if flow.source.imp != imp}
        self.fates = {flow: fate for flow, fate in self.fates.items() if flow.source.imp != imp}

    def abandon(self, flow: Flow) -> None:
        """Throws away the pieces of a message."""
        if flow not in self.slots:
            raise Refused("NoSuch")
        del self.slots[flow]

    def host_down(self, number: int) -> None:
        """A host goes down, and what waits for it is lost."""
        host = self.own(HostName(number, self.number))
        if not host.is_up:
            raise Refused("IsDown")
        host.is_up = False
        self.answered -= {it.flow for it in host.answers}
        host.answers.clear()
        waiting, host.messages = host.messages, []
        for it in waiting:
            self.end(it.flow, it.number, "dead")
            if it.flow.source.imp == self.number:
                self.free("dead", it.flow, it.number)
            elif self.route(it.flow.source.imp) is not None and self.room(1):
                self.store.append(answer(DEAD, it.flow, it.number))

    def host_up(self, number: int) -> None:
        """A host comes up."""
        name = HostName(number, self.number)
        host = self.own(name)
        if host.is_up:
            raise Refused("IsUp")
        if any(flow.source == name for flow in self.outstanding):
            raise Refused("Unsettled")
        host.is_up = True
