"""What the user of a host asks its program for."""

from __future__ import annotations

from dorydate.model.bits import Bits
from dorydate.model.commands import ALL, ECO, GVB, INR, INS, of_counts
from dorydate.model.connections import READY, WANT
from dorydate.model.host_state import HostState
from dorydate.model.names import HostName, Refused, spell_host

MOST_MESSAGES, MOST_BITS = 65535, 4294967295


class HostRequests(HostState):
    """The program of one host, as its user asks it. Each call gives its notices."""

    def contact(self, peer: HostName) -> list[str]:
        """Begins a reset with a peer."""
        pair = self.pair(peer)
        was_ready = pair.phase == READY
        pair.forget()
        pair.phase, pair.early = WANT, False
        return [f"pairreset {spell_host(peer)}"] if was_ready else []

    def listen(self, socket: int, size: int) -> list[str]:
        """Waits for a request for a socket."""
        if socket in self.listening or self.mine(socket):
            raise Refused("InUse")
        if size == 0:
            raise Refused("BadSize")
        self.listening[socket] = size
        return []

    def check_open(self, peer: HostName, own: int, foreign: int, parity: int) -> None:
        """Refuses sockets between which no end can be opened."""
        if self.phase(peer) != READY:
            raise Refused("NotContacted")
        if own % 2 != parity or foreign % 2 == parity:
            raise Refused("WrongEnd")
        if own in self.listening or self.mine(own) or self.pair(peer).end(own, foreign):
            raise Refused("InUse")

    def open_send(self, peer: HostName, own: int, foreign: int, size: int) -> list[str]:
        """Asks for a connection on which this host sends."""
        self.check_open(peer, own, foreign, 1)
        if size == 0:
            raise Refused("BadSize")
        self.ask_to_send(self.pair(peer), self.make_end(own, foreign, True), size)
        return []

    def open_receive(self, peer: HostName, own: int, foreign: int) -> list[str]:
        """Asks for a connection on which this host receives."""
        self.check_open(peer, own, foreign, 0)
        pair = self.pair(peer)
        link = pair.free_link()
        if link is None:
            raise Refused("NoLink")
        self.ask_to_receive(pair, self.make_end(own, foreign, True), link)
        return []

    def send(self, socket: int, bits: Bits) -> list[str]:
        """Hands bits over to be sent."""
        _, end = self.open_end(socket, 1)
        if len(bits) % end.size:
            raise Refused("BadSize")
        if end.close_asked:
            raise Refused("Closing")
        end.waiting += bits
        return []

    def grant(self, socket: int, messages: int, bits: int) -> list[str]:
        """Lets the partner send so much more."""
        pair, end = self.open_end(socket, 0)
        if end.messages + messages > MOST_MESSAGES or end.bits + bits > MOST_BITS:
            raise Refused("OverGrant")
        end.messages += messages
        end.bits += bits
        pair.queue.append(of_counts(ALL, end.known_link(), messages, bits))
        return []

    def ask_back(self, socket: int, messages: int, bits: int) -> list[str]:
        """Asks the partner to return a part of what it was granted, in 128ths."""
        pair, end = self.open_end(socket, 0)
        pair.queue.append(bytes([GVB, end.known_link(), messages, bits]))
        return []

    def interrupt(self, socket: int) -> list[str]:
        """Interrupts the partner."""
        pair, end = self.open_end(socket, socket % 2)
        if end.close_asked:
            raise Refused("Closing")
        pair.queue.append(bytes([INR if end.receives() else INS, end.known_link()]))
        return []

    def close(self, socket: int) -> list[str]:
        """Closes an end, or listens no longer."""
        if socket in self.listening:
            del self.listening[socket]
            return []
        found = self.mine(socket)
        if not found:
            raise Refused("NoSuchSocket")
        _, pair, end = found
        if end.close_asked or end.close_taken:
            raise Refused("Closing")
        end.close_asked = True
        self.settle(pair)
        return []

    def echo(self, peer: HostName, octet: int) -> list[str]:
        """Asks a peer to send an octet back."""
        if self.phase(peer) != READY:
            raise Refused("NotContacted")
        self.pair(peer).queue.append(bytes([ECO, octet]))
        return []
