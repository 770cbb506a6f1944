"""What crosses the interface of a host, in octets: leaders and bodies (docs/formats.md)."""

from __future__ import annotations

from dataclasses import dataclass

from dorydate.network import Host
from dorydate.script import Text

REGULAR = 0
ANSWERS = {"rfnm": 5, "dead": 7, "incomplete": 9, "nottaken": 9}  # the types of answers


@dataclass(frozen=True)
class Crossing:
    """What crosses a host's interface: from the host or from its IMP. Where the host stops or starts it has no octets."""

    host: Host
    is_from_host: bool
    octets: bytes


def crossing_of(words: tuple[str, ...]) -> Crossing | None:
    """The crossing of a printed line with texts; None of a line about no crossing."""
    match words:
        case ["out" | "in" as kind, source, destination, link, bits, octets]:
            own, other = (source, destination) if kind == "out" else (destination, source)
            content = leader(REGULAR, Host.read(other), int(link)) + body(Text.read(bits, octets))
            return Crossing(Host.read(own), kind == "out", content)
        case ["answer", answer, source, destination, link]:
            return Crossing(Host.read(source), False, leader(ANSWERS[answer], Host.read(destination), int(link)))
        case ["down" | "up", host]:
            return Crossing(Host.read(host), True, b"")
    return None


def leader(kind: int, address: Host, link: int) -> bytes:
    """The four octets of a leader. The address is the destination's, and in a message from an IMP the source's."""
    return bytes([kind, address.host << 6 | address.imp, link, 0])


def body(text: Text) -> bytes:
    """A text, a bit 1 after it, and the fewest zeros that make whole units of sixteen bits."""
    octets = bytearray(text.octets.ljust(2 * (text.bits // 16 + 1), b"\0"))
    octets[text.bits // 8] |= 0x80 >> text.bits % 8
    return bytes(octets)
