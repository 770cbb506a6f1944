"""What a host's program keeps, what its queries say, and the steps that its requests and what comes in share."""

from __future__ import annotations

from dorydate.model.commands import CLS, RTS, STR, of_sockets
from dorydate.model.connections import CLOSED, End, Pair, Phase
from dorydate.model.names import HostName, Refused, spell_host


class HostState:
    """What the program of one host keeps, and the notices that it gives in a call."""

    make_pair: type[Pair] = Pair
    make_end: type[End] = End

    def __init__(self, own: HostName) -> None:
        self.own = own
        self.pairs: dict[HostName, Pair] = {}
        self.listening: dict[int, int] = {}  # of each socket that listens: the size of its bytes
        self.told: list[str] = []

    # ---- what is known

    def pair(self, peer: HostName) -> Pair:
        """What is kept about a peer, from now on if nothing was."""
        return self.pairs.setdefault(peer, self.make_pair())

    def phase(self, peer: HostName) -> Phase:
        """How far a peer is reset."""
        return self.pairs[peer].phase if peer in self.pairs else CLOSED

    def mine(self, socket: int) -> tuple[HostName, Pair, End] | None:
        """The end with an own socket that this host opened or listened for, with its peer and its pair."""
        for peer, pair in self.pairs.items():
            for end in pair.ends:
                if end.own == socket and end.mine:
                    return peer, pair, end
        return None

    def open_end(self, socket: int, parity: int) -> tuple[Pair, End]:
        """The open end of a socket of this parity, with its pair."""
        if socket % 2 != parity:
            raise Refused("WrongEnd")
        found = self.mine(socket)
        if not found:
            raise Refused("NoSuchSocket")
        _, pair, end = found
        if not end.is_open():
            raise Refused("NotOpen")
        return pair, end

    # ---- steps

    def ask_to_send(self, pair: Pair, end: End, size: int) -> None:
        """Puts an end with its STR in a pair."""
        end.size = size
        pair.ends.append(end)
        pair.queue.append(of_sockets(STR, end.own, end.foreign, size))

    def ask_to_receive(self, pair: Pair, end: End, link: int) -> None:
        """Puts an end with its RTS in a pair."""
        end.link = link
        pair.ends.append(end)
        pair.queue.append(of_sockets(RTS, end.own, end.foreign, link))

    def settle(self, pair: Pair) -> None:
        """Queues the CLS of each end that is to be closed and has nothing left to do."""
        for end in pair.ends:
            if (end.close_asked or end.close_taken) and not end.close_queued:
                if end.receives() or (not end.waiting and end.link not in pair.busy):
                    end.close_queued = True
                    pair.queue.append(of_sockets(CLS, end.own, end.foreign))

    def sweep(self, peer: HostName, pair: Pair) -> None:
        """Takes away the ends whose CLS have passed both ways."""
        for end in [end for end in pair.ends if end.close_sent and end.close_taken]:
            pair.ends.remove(end)
            if end.mine:
                self.told.append(f"ended {end.own} {spell_host(peer)} {end.foreign}")

    def tell_opening(self, peer: HostName, end: End) -> None:
        """Tells of an end that has just opened."""
        if end.is_open():
            stamps = f"{end.own_stamp} {end.partner_stamp}"
            self.told.append(f"opened {end.own} {spell_host(peer)} {end.foreign} {stamps}")
