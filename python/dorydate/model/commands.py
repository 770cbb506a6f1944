"""Commands between hosts' programs and the headers of their messages, spelled from the formats."""

from __future__ import annotations

from collections.abc import Iterable, Sequence
from typing import NamedTuple

from dorydate.model.bits import Bits, bits_of

NOP, RTS, STR, CLS, ALL, GVB, RET, INR, INS, ECO, ERP, ERR, RST, RRP = range(14)
NAMES = "NOP RTS STR CLS ALL GVB RET INR INS ECO ERP ERR RST RRP".split()
LENGTHS = {NOP: 1, RTS: 10, STR: 10, CLS: 9, ALL: 8, GVB: 4, RET: 8, INR: 2, INS: 2, ECO: 2, ERP: 2, ERR: 12, RST: 1, RRP: 1}
ILLEGAL_CODE, SHORT, ERRONEOUS, NO_SOCKET, NOT_CONNECTED = range(1, 6)

CONTROL_TEXT = 120
QUOTED = 10
HEADER = 40
LINKS = range(2, 32)


# ---- numbers


def number(value: int, count: int) -> bytes:
    """The octets of a number."""
    return value.to_bytes(count, "big")


def read_numbers(octets_in: bytes, *counts: int) -> list[int]:
    """The numbers of this many octets each that follow a command's code."""
    at, found = 1, []
    for count in counts:
        found.append(int.from_bytes(octets_in[at : at + count], "big"))
        at += count
    return found


# ---- commands


def alone(code: int) -> bytes:
    """A command that is only its code."""
    return bytes([code])


def of_sockets(code: int, own: int, foreign: int, *last: int) -> bytes:
    """A command about a connection: a request with its link or the size of its bytes, or CLS."""
    return bytes([code]) + number(own, 4) + number(foreign, 4) + bytes(last)


def of_counts(code: int, link: int, messages: int, bits: int) -> bytes:
    """A command that grants or returns messages and bits."""
    return bytes([code, link]) + number(messages, 2) + number(bits, 4)


def error(code: int, quoted: bytes) -> bytes:
    """ERR, which quotes the beginning of what is wrong."""
    return bytes([ERR, code]) + quoted[:QUOTED].ljust(QUOTED, b"\0")


def fitting(queue: Sequence[bytes]) -> int:
    """How many of the first commands fit in one control text."""
    total = 0
    for at, command in enumerate(queue):
        total += len(command)
        if total > CONTROL_TEXT:
            return at
    return len(queue)


# ---- texts of messages


class Parts(NamedTuple):
    """What a text says: the size of its bytes, their number, and what follows the header."""

    size: int
    number: int
    following: Bits


def header(size: int, count: int) -> Bits:
    """The header of a text with this many bytes of this size."""
    return bits_of(bytes([0, size, *number(count, 2), 0]))


def control_message(commands: Iterable[bytes]) -> Bits:
    """The text of a message with commands."""
    text = b"".join(commands)
    return header(8, len(text)) + bits_of(text)


def split(text: Bits) -> Parts | None:
    """The parts of a text; None where it is malformed."""
    if len(text) < HEADER:
        return None
    size, count = int(text[8:16], 2), int(text[16:32], 2)
    if len(text) < HEADER + size * count:
        return None
    return Parts(size, count, text[HEADER:])
