"""One host's network control program: an independent implementation of its rules.

It was written from the rules that docs/hosts.md retells and from NIC 8246, in another language and another form than the
definitions: what a host keeps is changed in place, and messages and commands are octets spelled from the formats.
`check hosts` compares the code with it.
"""

from __future__ import annotations

from typing import Literal, NamedTuple, Union

from dorydate.model.bits import Bits, octets, spell_bits
from dorydate.model.commands import (
    ALL, CLS, CONTROL_TEXT, ECO, ERP, ERR, ERRONEOUS, GVB, ILLEGAL_CODE, INR, INS, LENGTHS, LINKS, NO_SOCKET, NOT_CONNECTED, RET, RRP, RST, RTS, SHORT, STR,
    alone, control_message, error, fitting, header, of_counts, of_sockets, read_numbers, split,
)  # fmt: skip
from dorydate.model.connections import CLOSED, GONE, HEARD, READY, WANT, End, Pair
from dorydate.model.crossings import Given, Message
from dorydate.model.host_requests import MOST_BITS, MOST_MESSAGES, HostRequests
from dorydate.model.names import Flow, HostName, address, spell_host

ON_LINKS = {ALL: (2, 4), GVB: (1, 1), RET: (2, 4), INR: (), INS: ()}  # of commands about a link: the octets of the numbers after it


class Outgoing(NamedTuple):
    """What goes out next to one peer: the link, the text, and what it is. Of data that is their end."""

    link: int
    text: Bits
    what: Union[Literal["reset", "reply", "commands"], End]


class Host(HostRequests):
    """The program of one host. Each call gives its notices."""

    # ---- what goes out

    def next_of(self, pair: Pair) -> Outgoing | None:
        """What goes out next to one peer."""
        if pair.phase == WANT:
            return None if pair.busy else Outgoing(0, control_message([alone(RST)]), "reset")
        if pair.owed:
            return None if pair.busy else Outgoing(0, control_message([alone(RRP)]), "reply")
        if pair.phase != READY:
            return None
        if pair.queue and 0 not in pair.busy:
            return Outgoing(0, control_message(pair.queue[: fitting(pair.queue)]), "commands")
        ready = [end for end in pair.ends if end.bytes_to_send() > 0 and end.link not in pair.busy]
        if not ready:
            return None
        end = min(ready, key=End.known_link)
        count = end.bytes_to_send()
        return Outgoing(end.known_link(), header(end.size, count) + end.waiting[: count * end.size], end)

    def next(self) -> tuple[HostName, Outgoing] | None:
        """What goes out next, and to which peer."""
        for peer in sorted(self.pairs, key=address):
            found = self.next_of(self.pairs[peer])
            if found:
                return peer, found
        return None

    def next_out(self) -> tuple[Flow, Bits] | None:
        """The next message as its flow and its text."""
        found = self.next()
        return (Flow(self.own, found[0], found[1].link), found[1].text) if found else None

    def offered(self, stamp: int) -> list[str]:
        """The next message has gone out, at this place of the log."""
        found = self.next()
        if not found:
            return []
        self.told = []
        peer, (link, _, what) = found
        pair = self.pairs[peer]
        pair.busy = [link, *(it for it in pair.busy if it != link)]
        if isinstance(what, End):
            self.data_gone(what)
        elif what == "reset":
            pair.phase, pair.early = GONE, False
        elif what == "reply":
            pair.owed = False
        else:
            self.commands_gone(peer, pair, stamp)
        return self.told

    def data_gone(self, end: End) -> None:
        """The next bytes of an end have gone out."""
        count = end.bytes_to_send() * end.size
        self.told.append(f"sent {end.own} {spell_bits(end.waiting[:count])}")
        end.waiting = end.waiting[count:]
        end.messages -= 1
        end.bits -= count

    def commands_gone(self, peer: HostName, pair: Pair, stamp: int) -> None:
        """The first commands of a queue have gone out."""
        count = fitting(pair.queue)
        gone, pair.queue = pair.queue[:count], pair.queue[count:]
        for command in gone:
            if command[0] not in (RTS, STR, CLS):
                continue
            own, foreign = read_numbers(command, 4, 4)
            end = pair.end(own, foreign)
            assert end is not None
            if command[0] == CLS:
                end.close_sent = True
                self.sweep(peer, pair)
            else:
                end.own_stamp = stamp
                self.tell_opening(peer, end)

    # ---- what comes in

    def accept(self, inbound: Given, stamp: int) -> list[str]:
        """Takes a message or an answer that came in at this place of the log."""
        self.told = []
        source, destination, link = inbound.flow
        if isinstance(inbound, Message):
            if destination == self.own:
                self.take_message(source, link, inbound.text, stamp)
        elif source == self.own and destination in self.pairs and link in self.pairs[destination].busy:
            self.take_answer(destination, self.pairs[destination], inbound.kind, link)
        return self.told

    def take_answer(self, peer: HostName, pair: Pair, kind: str, link: int) -> None:
        """Takes the answer about the message on a link to a peer."""
        pair.busy.remove(link)
        if kind == "rfnm":
            if pair.phase == GONE:
                pair.phase = WANT if pair.early else HEARD
                pair.early = False
        elif pair.phase == GONE or (pair.phase == HEARD and not pair.owed):
            pair.phase, pair.early = CLOSED, False
            self.told.append(f"contactfailed {spell_host(peer)}")
        elif pair.phase == READY and not pair.owed:
            pair.forget()
            pair.phase = CLOSED
            self.told.append(f"pairreset {spell_host(peer)}")
        self.settle(pair)

    def take_message(self, peer: HostName, link: int, text: Bits, stamp: int) -> None:
        """Takes a peer's message."""
        pair = self.pair(peer)
        if link != 0:
            if pair.phase == READY:
                self.take_data(pair, link, text)
            return
        parts = split(text)
        if parts is None or parts.size != 8 or parts.number > CONTROL_TEXT:
            if pair.phase == READY:
                pair.queue.append(error(ERRONEOUS, octets(text)))
            return
        left = octets(parts.following)[: parts.number]
        while left:
            code = left[0]
            length = LENGTHS.get(code)
            if length is None or len(left) < length:
                if pair.phase == READY:
                    pair.queue.append(error(ILLEGAL_CODE if length is None else SHORT, left))
                return
            self.take_command(peer, pair, left[:length], stamp)
            left = left[length:]

    def take_command(self, peer: HostName, pair: Pair, command: bytes, stamp: int) -> None:
        """Takes one command of a peer."""
        code = command[0]
        if code == RST:
            was, pair.owed = pair.phase, True
            pair.forget()
            if was == READY:
                self.told.append(f"pairreset {spell_host(peer)}")
            elif was == CLOSED:
                pair.phase = READY
                self.told.append(f"ready {spell_host(peer)}")
        elif code == RRP:
            if pair.phase == HEARD:
                pair.phase = READY
                self.told.append(f"ready {spell_host(peer)}")
            elif pair.phase == GONE:
                pair.early = True
        elif pair.phase == READY:
            wrong = self.take_ready(peer, pair, command, stamp)
            if wrong is not None:
                pair.queue.append(error(wrong, command))
            self.settle(pair)
            self.sweep(peer, pair)

    def take_ready(self, peer: HostName, pair: Pair, command: bytes, stamp: int) -> int | None:
        """Takes any other command in an opened pair. Gives the code of the error that it is answered by, if any."""
        code = command[0]
        if code in (RTS, STR):
            foreign, own, last = read_numbers(command, 4, 4, 1)
            return (self.take_rts if code == RTS else self.take_str)(peer, pair, foreign, own, last, stamp)
        if code == CLS:
            foreign, own = read_numbers(command, 4, 4)
            return self.take_cls(pair, own, foreign)
        if code in ON_LINKS:
            link, *numbers = read_numbers(command, 1, *ON_LINKS[code])
            return self.take_on_link(pair, code, link, *numbers)
        if code == ECO:
            pair.queue.append(bytes([ERP, command[1]]))
        elif code == ERP:
            self.told.append(f"echoed {spell_host(peer)} {command[1]}")
        elif code == ERR:
            self.told.append(f"error {spell_host(peer)} {command[1]} {command[2:].hex().upper()}")
        return None

    def take_rts(self, peer: HostName, pair: Pair, foreign: int, own: int, link: int, stamp: int) -> int | None:
        """Takes a request of a peer that would receive."""
        if foreign % 2 or not own % 2 or link not in LINKS or pair.linked(False, link):
            return ERRONEOUS
        end = pair.end(own, foreign)
        if end is None:
            if own not in self.listening:
                self.refuse(pair, own, foreign, stamp)
                return None
            end = self.make_end(own, foreign, True)
            self.ask_to_send(pair, end, self.listening.pop(own))
        elif end.asked:
            return ERRONEOUS
        end.link = link
        self.matched(peer, end, stamp)
        return None

    def take_str(self, peer: HostName, pair: Pair, foreign: int, own: int, size: int, stamp: int) -> int | None:
        """Takes a request of a peer that would send."""
        if not foreign % 2 or own % 2 or size == 0:
            return ERRONEOUS
        end = pair.end(own, foreign)
        if end is None:
            link = pair.free_link()
            if own not in self.listening or link is None:
                self.refuse(pair, own, foreign, stamp)
                return None
            del self.listening[own]
            end = self.make_end(own, foreign, True)
            self.ask_to_receive(pair, end, link)
        elif end.asked:
            return ERRONEOUS
        end.size = size
        self.matched(peer, end, stamp)
        return None

    def matched(self, peer: HostName, end: End, stamp: int) -> None:
        """The partner's request for an end was taken."""
        end.asked = True
        end.partner_stamp = stamp
        self.tell_opening(peer, end)

    def refuse(self, pair: Pair, own: int, foreign: int, stamp: int) -> None:
        """Answers a request by CLS."""
        end = self.make_end(own, foreign, False)
        end.asked = end.close_asked = end.close_queued = True
        end.partner_stamp = stamp
        pair.ends.append(end)
        pair.queue.append(of_sockets(CLS, own, foreign))

    def take_cls(self, pair: Pair, own: int, foreign: int) -> int | None:
        """Takes the partner's CLS."""
        end = pair.end(own, foreign)
        if end is None:
            return NO_SOCKET
        if not end.close_taken:
            end.close_taken = True
            end.waiting = ""
        return None

    def take_on_link(self, pair: Pair, code: int, link: int, *numbers: int) -> int | None:
        """Takes a command about the end that has a link."""
        found = pair.linked(code in (RET, INS), link)
        end = next((end for end in found if end.is_open()), None)
        if end is not None:
            return self.take_open(pair, end, code, *numbers)
        return None if any(end.is_closing() for end in found) else NOT_CONNECTED

    def take_open(self, pair: Pair, end: End, code: int, *numbers: int) -> int | None:
        """Takes a command about an open end."""
        if code == ALL:
            end.messages = min(end.messages + numbers[0], MOST_MESSAGES)
            end.bits = min(end.bits + numbers[1], MOST_BITS)
        elif code == GVB:
            messages = end.messages * min(numbers[0], 128) // 128
            bits = end.bits * min(numbers[1], 128) // 128
            end.messages -= messages
            end.bits -= bits
            pair.queue.append(of_counts(RET, end.known_link(), messages, bits))
        elif code == RET:
            messages, bits = numbers
            if messages > end.messages or bits > end.bits:
                return ERRONEOUS
            end.messages -= messages
            end.bits -= bits
            self.told.append(f"returned {end.own} {messages} {bits}")
        else:
            self.told.append(f"interrupt {end.own}")
        return None

    def take_data(self, pair: Pair, link: int, text: Bits) -> None:
        """Takes data on a link."""
        found = pair.linked(True, link)
        end = next((end for end in found if end.is_open()), None)
        if end is None:
            if not any(end.is_closing() for end in found):
                pair.queue.append(error(NOT_CONNECTED, octets(text)))
            return
        parts = split(text)
        if parts is None or parts.size != end.size or end.messages < 1 or end.bits < parts.size * parts.number:
            pair.queue.append(error(ERRONEOUS, octets(text)))
            return
        bits = parts.size * parts.number
        end.messages -= 1
        end.bits -= bits
        self.told.append(f"arrived {end.own} {spell_bits(parts.following[:bits])}")
