"""Every command cut at every length and with each octet changed, data, and control texts of every length, each for a host of its own."""

from __future__ import annotations

from collections.abc import Iterator, Sequence

from dorydate.model.bits import Bits, bits_of
from dorydate.model.commands import control_message, header
from dorydate.model.crossings import Message, Reply
from dorydate.model.names import Flow, HostName
from workshop.checks.host_calls import Calls


class Worked(Calls):
    """Hosts of one name, each opened with a peer, and sending on link 5 to it and receiving on link 2 from it."""

    OWN, PEER = HostName(0, 1), HostName(0, 2)

    def __init__(self, link: int, texts: Sequence[Bits]) -> None:
        super().__init__([self.OWN] * len(texts))
        for place, text in enumerate(texts):
            self.open(place)
            self.stamped(place, "accept", Message("message", Flow(self.PEER, self.OWN, link), text))
            for _ in range(2):
                self.goes(place)

    def comes(self, place: int, *commands: str) -> None:
        """Commands of the peer come in."""
        message = control_message(map(bytes.fromhex, commands))
        self.stamped(place, "accept", Message("message", Flow(self.PEER, self.OWN, 0), message))

    def goes(self, place: int) -> None:
        """What is next goes out, and is answered."""
        self.stamped(place, "offered")
        self.stamped(place, "accept", Reply("rfnm", Flow(self.OWN, self.PEER, 0)))

    def open(self, place: int) -> None:
        """A connection each way opens."""
        self.comes(place, "0C")
        self.goes(place)
        self.call(place, "open_send", self.PEER, 33, 16, 8)
        self.call(place, "open_receive", self.PEER, 18, 35)
        self.goes(place)
        self.comes(place, "01 00000010 00000021 05", "02 00000023 00000012 08", "04 05 0003 00000064")
        self.call(place, "send", 33, bits_of(bytes(range(1, 14))))
        self.call(place, "grant", 18, 3, 100)
        self.goes(place)


class AllLinks(Worked):
    """A host that uses up the links of its receiving ends."""

    def __init__(self) -> None:
        Calls.__init__(self, [self.OWN])
        self.comes(0, "0C")
        self.goes(0)
        for own in range(100, 164, 2):
            self.call(0, "open_receive", self.PEER, own, 33)
        self.call(0, "listen", 200, 8)
        for _ in range(3):
            self.comes(0, "02 00000021 000000C8 08")
            for _ in range(4):
                self.goes(0)
            self.call(0, "close", 110)
            self.comes(0, "03 00000021 0000006E", "03 00000021 000000C8")


WORKED = [
    "00",
    "01 00000014 00000025 06",
    "02 00000025 00000014 08",
    "03 00000010 00000021",
    "03 00000023 00000012",
    "04 05 0002 00000064",
    "05 05 40 C8",
    "06 02 0001 00000010",
    "07 05",
    "08 02",
    "09 41",
    "0A 41",
    "0B 01 0E070000000000000000",
    "0C",
    "0D",
    "0E 07",
    "01 000000",
]


def changed(text: Bits, step: int = 8) -> list[Bits]:
    """The text cut at every length, and with each octet changed."""
    cut = [text[:length] for length in range(0, len(text) + 1, step)]
    octets = [(at, bits_of(octet)) for at in range(0, len(text), 8) for octet in (b"\x00", b"\x7f", b"\xff")]
    return cut + [text[:at] + octet + text[at + 8 :] for at, octet in octets]


def worked_runs() -> Iterator[Calls]:
    """What is made of each command with an ECO after it, of data, and of control texts of every length."""
    yield Worked(0, changed(control_message([bytes([0])]), 1))
    for name in WORKED:
        yield Worked(0, changed(control_message([bytes.fromhex(name), bytes.fromhex("09 42")])))
    yield Worked(2, changed(header(8, 4) + bits_of(b"DATA")))
    yield AllLinks()
    yield Worked(0, [header(8, length) + bits_of(bytes([9, 65] * 62)[:length]) for length in range(125)])
