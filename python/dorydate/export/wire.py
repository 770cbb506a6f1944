"""A capture of what crossed the wire of a live network, for Wireshark: frames and messages as they were (docs/live.md).

Each host is an interface, and a packet what crossed there in one piece: a frame over UDP, or a message with its length
over TCP. The link type is USER2. Times are those of the session, which begins at 0.
"""

from __future__ import annotations

import re
from collections.abc import Iterable, Iterator

from dorydate.export.pcapng import INBOUND, OUTBOUND, interface, packet, section
from dorydate.script import BadLine

USER2 = 149
MICROSECONDS = 1_000_000  # of a second
CROSSED = re.compile(r"(\d+)\.(\d{6}) (udp|tcp) (from|to) ([0-3]/\d+) (-|(?:[0-9A-F]{2})+)")


def blocks(lines: Iterable[str]) -> Iterator[bytes]:
    """The blocks of a capture, of the lines of a record's file `wire`. An interface comes before its first packet."""
    yield section("dorydate live")
    places: dict[str, int] = {}
    for number, line in enumerate(lines, 1):
        found = CROSSED.fullmatch(line)
        if not found:
            raise BadLine(f"line {number} is nothing that crossed the wire of a session: those are in its file `wire`")
        second, rest, kind, direction, host, digits = found.groups()
        if host not in places:
            places[host] = len(places)
            yield interface(USER2, host, f"host {host}")
        time = int(second) * MICROSECONDS + int(rest)
        octets = b"" if digits == "-" else bytes.fromhex(digits)
        yield packet(places[host], time, octets, OUTBOUND if direction == "from" else INBOUND, [kind])


def capture(text: str) -> bytes:
    """The capture of a record's file `wire`. A last line without its line feed was cut off, and is left out."""
    return b"".join(blocks(text[: text.rfind("\n") + 1].splitlines()))
