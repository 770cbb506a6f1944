"""A small network control program, for a host that runs none of the proved ones: python3 examples/ncp.py 0/2

It hears a line and answers by lines, of which the last is empty. What it hears is what its IMP hands it, as
`arpasim --texts` prints that (`in`, `answer`), and what its user asks for, as a script has it (`contact` to `close`).
It answers with `out` for each message that it hands its IMP, as a script has that, and with notices to its user. Its
rules are those of docs/hosts.md. `python -m dorydate.conformance` tries it, and any program that hears such lines.
"""

from __future__ import annotations

import struct
import sys
from dataclasses import dataclass, field
from enum import IntEnum

Code = IntEnum("Code", "NOP RTS STR CLS ALL GVB RET INR INS ECO ERP ERR RST RRP", start=0)
FIELDS = [f">{it}" for it in ("", "IIB", "IIB", "II", "BHI", "BBB", "BHI", "B", "B", "B", "B", "B10s", "", "")]
LINKS = range(2, 32)
MOST_OCTETS, MOST_BITS, HEADER = 120, 8023, 40  # of commands and of data in a message, and the bits before them
MOST_MESSAGES, MOST_GRANTED = 0xFFFF, 0xFFFFFFFF
ILLEGAL, SHORT, ERRONEOUS, NO_SOCKET, NOT_CONNECTED = range(1, 6)


def command(code: Code, *parts: int | bytes) -> bytes:
    return bytes([code]) + struct.pack(FIELDS[code], *parts)


def octets(bits: str) -> bytes:
    """These bits in octets, the last filled with zeros."""
    return bytes(int(bits[at : at + 8].ljust(8, "0"), 2) for at in range(0, len(bits), 8))


def read_bits(number: str, digits: str) -> str:
    """The bits that two words of a line spell."""
    return "".join(f"{it:08b}" for it in bytes.fromhex(digits.strip("-")))[: int(number)]


@dataclass
class End:
    """An end of a connection. An odd socket sends, an even one receives."""

    own: int
    foreign: int
    mine: bool = True  # else it only holds a request that was refused
    link: int = 0
    size: int = 0
    asked: bool = False  # whether our request has gone out
    heard: bool = False  # whether the peer's request came
    unwanted: bool = False  # whether it is to be closed
    close: str = ""  # our CLS: "queued" or "gone"
    closed: bool = False  # whether the peer's CLS came
    messages: int = 0  # that are granted and not used
    bits: int = 0
    data: str = ""  # bits that wait to go out

    def receives(self) -> bool:
        return self.own % 2 == 0

    def is_open(self) -> bool:
        return self.asked and self.heard and not self.close and not self.closed


@dataclass
class Peer:
    """What is known of another host."""

    phase: str = "closed"  # closed, want, gone, heard, ready
    early: bool = False  # whether an RRP came before the RFNM of our RST
    owes: bool = False  # whether we owe it an RRP
    busy: set[int] = field(default_factory=set)  # links on which a message of ours has no answer
    ends: list[End] = field(default_factory=list)
    queue: list[tuple[bytes, End | None]] = field(default_factory=list)  # commands that wait, and their ends

    def forget(self, phase: str) -> None:
        self.ends, self.queue, self.phase = [], [], phase

    def on(self, link: int, receives: bool) -> list[End]:
        return [it for it in self.ends if it.link == link and it.receives() == receives]

    def add(self, code: Code, *parts: int | bytes, end: End | None = None) -> None:
        self.queue.append((command(code, *parts), end))

    def error(self, kind: int, wrong: bytes) -> None:
        self.add(Code.ERR, kind, wrong[:10])


class Ncp:
    """The program of one host."""

    def __init__(self, own: str) -> None:
        self.own = own
        self.peers: dict[str, Peer] = {}
        self.listening: dict[int, int] = {}  # sockets, with the size of the bytes that they would send
        self.lines: list[str] = []

    def hear(self, line: str) -> list[str]:
        """What is answered to a line."""
        self.lines = []
        word, *words = line.split(" ")
        if word == "in":
            self.message(words[0], int(words[2]), read_bits(*words[3:]))
        elif word == "answer":
            self.answer(words[0], words[2], int(words[3]))
        elif word != "refused":  # the IMP didn't take our last message; it is lost
            self.user(word, words[1:])
        for name, peer in self.peers.items():
            self.settle(name, peer)
            while self.next(name, peer):
                self.settle(name, peer)
        return self.lines

    def notice(self, word: str, *more: object) -> None:
        self.lines.append(" ".join(map(str, (word, self.own, *more))))

    # ---- what goes out

    def next(self, name: str, peer: Peer) -> bool:
        """Whether something more goes out to a peer now."""
        if peer.phase == "want" or peer.owes:
            return not peer.busy and self.signal(name, peer)
        if peer.phase != "ready":
            return False
        if peer.queue and 0 not in peer.busy:
            return self.commands(name, peer)
        for end in sorted((it for it in peer.ends if it.is_open() and it.messages), key=lambda it: it.link):
            count = min(len(end.data), end.bits, MOST_BITS) // end.size if not end.receives() else 0
            if count and end.link not in peer.busy:
                gone, end.data = end.data[: count * end.size], end.data[count * end.size :]
                end.messages, end.bits = end.messages - 1, end.bits - len(gone)
                return self.out(name, peer, end.link, end.size, count, gone)
        return False

    def out(self, name: str, peer: Peer, link: int, size: int, count: int, bits: str) -> bool:
        text = f"{size:016b}{count:016b}{0:08b}{bits}"
        self.lines.append(f"out {self.own} {name} {link} {len(text)} {octets(text).hex().upper()}")
        peer.busy.add(link)
        return True

    def signal(self, name: str, peer: Peer) -> bool:
        """RST or RRP goes out, by itself."""
        code = Code.RST if peer.phase == "want" else Code.RRP
        if code == Code.RST:
            peer.phase, peer.early = "gone", False
        else:
            peer.owes = False
        return self.out(name, peer, 0, 8, 1, f"{code:08b}")

    def commands(self, name: str, peer: Peer) -> bool:
        """As many commands go out as a message holds."""
        text = b""
        while peer.queue and len(text) + len(peer.queue[0][0]) <= MOST_OCTETS:
            said, end = peer.queue.pop(0)
            text += said
            if end and said[0] == Code.CLS:
                end.close = "gone"
            elif end:
                end.asked = True
                self.opening(name, end)
        return self.out(name, peer, 0, 8, len(text), "".join(f"{it:08b}" for it in text))

    def opening(self, name: str, end: End) -> None:
        if end.is_open():
            self.notice("opened", end.own, name, end.foreign)

    def settle(self, name: str, peer: Peer) -> None:
        """Closes what is to be closed and has nothing left to do, and drops what is over."""
        for end in peer.ends:
            drained = end.receives() or not end.data and end.link not in peer.busy
            if (end.unwanted or end.closed) and not end.close and drained:
                end.close = "queued"
                peer.add(Code.CLS, end.own, end.foreign, end=end)
        for end in [it for it in peer.ends if it.close == "gone" and it.closed]:
            peer.ends.remove(end)
            if end.mine:
                self.notice("ended", end.own, name, end.foreign)

    # ---- what comes in

    def answer(self, kind: str, name: str, link: int) -> None:
        """What became of our message on a link."""
        peer = self.peers[name]
        peer.busy.discard(link)
        if kind == "rfnm":
            if peer.phase == "gone":
                peer.phase, peer.early = "want" if peer.early else "heard", False
        elif peer.phase == "gone" or peer.phase == "heard" and not peer.owes:
            peer.phase = "closed"
            self.notice("contactfailed", name)
        elif peer.phase == "ready" and not peer.owes:
            peer.forget("closed")
            self.notice("pairreset", name)

    def message(self, name: str, link: int, text: str) -> None:
        peer = self.peers.setdefault(name, Peer())
        size, count = (int(text[8:16], 2), int(text[16:32], 2)) if len(text) >= HEADER else (0, 0)
        is_whole = HEADER + size * count <= len(text)
        if link:
            if peer.phase == "ready":
                self.data(peer, link, text, size, text[HEADER : HEADER + size * count] if is_whole else None)
        elif not is_whole or size != 8 or count > MOST_OCTETS:
            if peer.phase == "ready":
                peer.error(ERRONEOUS, octets(text))
        else:
            self.control(name, peer, octets(text[HEADER : HEADER + 8 * count]))

    def data(self, peer: Peer, link: int, text: str, size: int, bits: str | None) -> None:
        ends = peer.on(link, True)
        for end in (it for it in ends if it.is_open()):
            if bits is None or size != end.size or not end.messages or len(bits) > end.bits:
                peer.error(ERRONEOUS, octets(text))
                return
            end.messages, end.bits = end.messages - 1, end.bits - len(bits)
            self.notice("arrived", end.own, len(bits), octets(bits).hex().upper() or "-")
            return
        if not any(it.close or it.closed for it in ends):
            peer.error(NOT_CONNECTED, octets(text))

    def control(self, name: str, peer: Peer, text: bytes) -> None:
        """Takes commands one after the other."""
        while text:
            length = 1 + struct.calcsize(FIELDS[text[0]]) if text[0] in list(Code) else 0
            if not length or len(text) < length:
                if peer.phase == "ready":
                    peer.error(SHORT if length else ILLEGAL, text)
                return
            wrong = self.take(name, peer, Code(text[0]), [*struct.unpack(FIELDS[text[0]], text[1:length])])
            if wrong:
                peer.error(wrong, text[:length])
            self.settle(name, peer)
            text = text[length:]

    def take(self, name: str, peer: Peer, code: Code, parts: list[int]) -> int:
        """Takes a command. The kind of the ERR that it is answered by, 0 for none."""
        if code == Code.RST:
            was, peer.owes = peer.phase, True
            peer.forget("ready" if was == "closed" else was)
            if was in ("closed", "ready"):
                self.notice("ready" if was == "closed" else "pairreset", name)
        elif code == Code.RRP:
            peer.early = peer.early or peer.phase == "gone"
            if peer.phase == "heard":
                peer.phase = "ready"
                self.notice("ready", name)
        elif peer.phase == "ready":
            if code in (Code.RTS, Code.STR):
                return self.request(name, peer, code == Code.STR, parts[1], parts[0], parts[2])
            if code == Code.CLS:
                return self.closing(peer, parts[1], parts[0])
            if code in (Code.ALL, Code.GVB, Code.RET, Code.INR, Code.INS):
                return self.about_link(peer, code, *parts)
            if code == Code.ECO:
                peer.add(Code.ERP, parts[0])
            elif code in (Code.ERP, Code.ERR):
                self.notice("echoed" if code == Code.ERP else "error", name, parts[0])
        return 0

    def request(self, name: str, peer: Peer, receives: bool, own: int, foreign: int, last: int) -> int:
        """A request of the peer: STR, by which we would receive bytes of a size, or RTS, to send on a link."""
        if own % 2 == receives or foreign % 2 != receives or last not in (range(1, 256) if receives else LINKS):
            return ERRONEOUS
        end = next((it for it in peer.ends if (it.own, it.foreign) == (own, foreign)), None)
        if end and end.heard or not receives and peer.on(last, False):
            return ERRONEOUS
        free = self.free_link(peer)
        if not end and own in self.listening and (free or not receives):
            end = self.open(peer, own, foreign, 0 if receives else self.listening[own], free)
            del self.listening[own]
        if not end:
            peer.ends.append(End(own, foreign, mine=False, heard=True, close="queued"))
            peer.add(Code.CLS, own, foreign, end=peer.ends[-1])
            return 0
        end.heard = True
        end.size, end.link = (last, end.link) if receives else (end.size, last)
        self.opening(name, end)
        return 0

    def free_link(self, peer: Peer) -> int:
        return next((it for it in LINKS if not peer.on(it, True)), 0)

    def open(self, peer: Peer, own: int, foreign: int, size: int, link: int) -> End:
        """A new end, whose request waits: STR with a size if it sends, RTS with a link if it receives."""
        end = End(own, foreign, size=size) if own % 2 else End(own, foreign, link=link)
        peer.ends.append(end)
        peer.add(Code.STR if own % 2 else Code.RTS, own, foreign, size if own % 2 else link, end=end)
        return end

    def closing(self, peer: Peer, own: int, foreign: int) -> int:
        for end in (it for it in peer.ends if (it.own, it.foreign) == (own, foreign)):
            end.closed, end.data = True, ""
            return 0
        return NO_SOCKET

    def about_link(self, peer: Peer, code: Code, link: int, messages: int = 0, bits: int = 0) -> int:
        ends = peer.on(link, code in (Code.RET, Code.INS))
        for end in (it for it in ends if it.is_open()):
            if code == Code.ALL:
                end.messages = min(end.messages + messages, MOST_MESSAGES)
                end.bits = min(end.bits + bits, MOST_GRANTED)
            elif code == Code.GVB:
                back = [end.messages * min(messages, 128) // 128, end.bits * min(bits, 128) // 128]
                end.messages, end.bits = end.messages - back[0], end.bits - back[1]
                peer.add(Code.RET, link, *back)
            elif code == Code.RET:
                if messages > end.messages or bits > end.bits:
                    return ERRONEOUS
                end.messages, end.bits = end.messages - messages, end.bits - bits
                self.notice("returned", end.own, messages, bits)
            else:
                self.notice("interrupt", end.own)
            return 0
        return 0 if any(it.close or it.closed for it in ends) else NOT_CONNECTED

    # ---- what the user asks for

    def user(self, word: str, words: list[str]) -> None:
        """A request of the user. What can't be done is refused."""
        if word in ("contact", "echo", "opensend", "openrecv"):
            self.of_peer(word, self.peers.setdefault(words[0], Peer()), words[0], [*map(int, words[1:])])
        elif word == "listen":
            self.listening[int(words[0])] = int(words[1])
        elif word == "close" and int(words[0]) in self.listening:
            del self.listening[int(words[0])]
        else:
            socket = int(words[0])
            ends = [(it, peer) for peer in self.peers.values() for it in peer.ends if it.mine and it.own == socket]
            if ends and (word == "close" or ends[0][0].is_open()):
                self.of_end(word, *ends[0], words[1:])
            else:
                self.lines.append("refused NotOpen" if ends else "refused NoSuchSocket")

    def of_peer(self, word: str, peer: Peer, name: str, numbers: list[int]) -> None:
        if word == "contact":
            if peer.phase == "ready":
                self.notice("pairreset", name)
            peer.forget("want")
        elif peer.phase != "ready":
            self.lines.append("refused NotContacted")
        elif word == "echo":
            peer.add(Code.ECO, numbers[0])
        else:
            self.open(peer, numbers[0], numbers[1], numbers[2] if word == "opensend" else 0, self.free_link(peer))

    def of_end(self, word: str, end: End, peer: Peer, words: list[str]) -> None:
        if word == "send":
            end.data += read_bits(*words)
        elif word == "grant":
            messages, bits = map(int, words)
            end.messages, end.bits = end.messages + messages, end.bits + bits
            peer.add(Code.ALL, end.link, messages, bits)
        elif word == "askback":
            peer.add(Code.GVB, end.link, *map(int, words))
        elif word == "interrupt":
            peer.add(Code.INR if end.receives() else Code.INS, end.link)
        else:
            end.unwanted = True


def main() -> None:
    ncp = Ncp(sys.argv[1])
    for line in sys.stdin:
        print(*ncp.hear(line.rstrip("\n")), "", sep="\n", flush=True)


if __name__ == "__main__":
    main()
