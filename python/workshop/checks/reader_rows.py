"""Octets that are read, by the independent readers of the formats."""

from __future__ import annotations

from collections.abc import Callable, Iterable
from itertools import groupby
from typing import Any

from dorydate.model import formats
from dorydate.model.bits import read_bits
from workshop.checks.readings import Reading, Unread

READERS: dict[str, Callable[[Any], str]] = {
    "from_host": lambda octets: formats.leader(octets, False),
    "from_imp": lambda octets: formats.leader(octets, True),
    "packet": formats.packet,
    "frame": formats.frame,
    "command": formats.one_command,
    "commands": formats.control_text,
    "header": formats.message_header,
    "body": formats.stripped,
}
OF_BITS = "header", "body"
LEADERS = {"ShortLeader": "short leader", "UnknownType": "unknown type", "BadImp": "bad IMP number"}
COMMANDS = {"Short": "short", "IllegalCode": "illegal code", "Erroneous": "erroneous"}
# of each reader: its faults, and their texts
TEXTS = {
    "from_host": LEADERS,
    "from_imp": LEADERS,
    "packet": {"Short": "short packet", "NotCanonical": "packet not canonical", "BadLength": "bad packet length"},
    "frame": {
        "Short": "short",
        "BadLength": "bad length",
        "NotCanonical": "not canonical",
        "BadVersion": "bad version",
    },
    "command": COMMANDS,
    "commands": COMMANDS,
    "header": {"malformed": "malformed"},
    "body": {"NoMark": "no mark", "Range": "out of range"},
}


def said_of(reader: str, given: object) -> str:
    """What a reader says of octets or bits, faults by their texts."""
    said = formats.told(READERS[reader], given)
    for name, text in TEXTS[reader].items():
        said = said.replace(name, text)
    return said


def octets_in(digits: str) -> bytes:
    """The octets that a word spells."""
    return bytes.fromhex(digits.replace("-", ""))


def in_short(reader: str, octets: bytes) -> str:
    """What a reader says: `read` where that is written as the same octets."""
    said = said_of(reader, octets)
    return "read" if said.endswith((f" = {octets.hex().upper()}", f" ({octets.hex().upper()})")) else said


def in_runs(reader: str, rows: Iterable[bytes]) -> str:
    """What a reader says of octets one after the other, in short, the same together."""
    runs = [(said, len([*same])) for said, same in groupby(in_short(reader, octets) for octets in rows)]
    return ", ".join(said if count == 1 else f"{count} times {said}" for said, count in runs) or "nothing"


class ReaderRows:
    """All readers."""

    def answers(self, call: str, wanted: list[str]) -> list[str]:
        match call.split(" "):
            case ["prefixes", reader, digits]:
                octets = octets_in(digits)
                return [in_runs(reader, (octets[:length] for length in range(len(octets))))]
            case ["changed", value, reader, digits]:
                octets = octets_in(digits)
                changed = (octets[:at] + octets_in(value) + octets[at + 1 :] for at in range(len(octets)))
                return [in_runs(reader, changed)]
        reader, *words = call.split(" ")
        if reader not in READERS:
            raise Unread(reader)
        if reader in OF_BITS:
            return [said_of(reader, read_bits(words[0], words[1]))]
        return [said_of(reader, octets_in(words[0]))]


def open_readers(call: str) -> tuple[Reading, list[str]]:
    """What a block of octets begins with."""
    return ReaderRows(), []
