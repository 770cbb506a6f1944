"""A capture of all that crosses the interfaces of hosts, for Wireshark, in the PCAP Next Generation (pcapng) Capture File Format.

Each host is an interface. A packet is a leader and the body of a message, outbound if it comes from the host. A host that stops or
starts is a packet without octets, whose comment says which. The link type is USER0 where hosts have programs, and USER1 in raw
networks, whose texts have no form.
"""

from __future__ import annotations

import struct
from collections.abc import Iterable, Iterator

from dorydate.export.leaders import crossing_of
from dorydate.export.replayed import Replayed

SECTION, INTERFACE, PACKET = 0x0A0D0D0A, 1, 6  # types of blocks
ORDER, UNKNOWN_LENGTH = 0x1A2B3C4D, 0xFFFF_FFFF_FFFF_FFFF
COMMENT, NAME, DESCRIPTION, APPLICATION, FLAGS = 1, 2, 3, 4, 2  # types of options, in their blocks
INBOUND, OUTBOUND = 1, 2
USER0, USER1 = 147, 148
Option = tuple[int, bytes]


def padded(octets: bytes) -> bytes:
    """Octets filled to whole units of four."""
    return octets + b"\0" * (-len(octets) % 4)


def block(kind: int, fixed: bytes, options: Iterable[Option]) -> bytes:
    """A block: its type, its length, its fields, its options, and its length again."""
    rest = b"".join(struct.pack("<HH", code, len(value)) + padded(value) for code, value in options)
    content = fixed + (rest + bytes(4) if rest else b"")
    length = struct.pack("<I", 12 + len(content))
    return struct.pack("<I", kind) + length + content + length


def section(application: str) -> bytes:
    return block(SECTION, struct.pack("<IHHQ", ORDER, 1, 0, UNKNOWN_LENGTH), [(APPLICATION, application.encode("utf-8", "replace"))])


def interface(link_type: int, name: str, description: str) -> bytes:
    """An interface, whose times are microseconds."""
    return block(INTERFACE, struct.pack("<HHI", link_type, 0, 0), [(NAME, name.encode("utf-8", "replace")), (DESCRIPTION, description.encode("utf-8", "replace"))])


def packet(place: int, time: int, octets: bytes, direction: int, comments: Iterable[str]) -> bytes:
    """A packet at the interface of this place."""
    fixed = struct.pack("<IIIII", place, time >> 32, time & 0xFFFF_FFFF, len(octets), len(octets)) + padded(octets)
    return block(PACKET, fixed, [*((COMMENT, it.encode("utf-8", "replace")) for it in comments), (FLAGS, struct.pack("<I", direction))])


def blocks(what: Replayed) -> Iterator[bytes]:
    """The blocks of a capture."""
    yield section("dorydate")
    hosts = what.network.hosts()
    for host in hosts:
        yield interface(USER1 if what.network.raw else USER0, str(host), f"host {what.network.title(host)}")
    for happened, line in what.lines():
        if crossed := crossing_of(line.words):
            said = [happened.said] if crossed.octets else [str(line), happened.said]
            yield packet(hosts.index(crossed.host), line.time, crossed.octets, OUTBOUND if crossed.is_from_host else INBOUND, said)


def capture(what: Replayed) -> bytes:
    """The capture of a replay."""
    return b"".join(blocks(what))
