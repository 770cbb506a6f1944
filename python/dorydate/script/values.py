"""The values of a script's events: texts, flows, hosts and numbers, as a line spells them."""

from __future__ import annotations

import re
from dataclasses import dataclass

from dorydate.network import BadNetwork, Host

MOST_BITS = 8063  # of a message
MOST_NUMBER = 4_294_967_295
MOST_LINK = 255


class BadLine(ValueError):
    """Why a line is no event of a script.

    >>> Flow(Host(0, 1), Host(0, 2), 256)
    Traceback (most recent call last):
        ..
    dorydate.script.values.BadLine: 256 is not from 0 to 255
    """


@dataclass(frozen=True)
class Text:
    """The text of a message, or bits that are sent on a connection: some bits in octets, the last of which is filled with zero bits.

    >>> str(Text(b"\\xf0", 4))
    '4 F0'
    """

    octets: bytes = b""
    bits: int = 0

    def __post_init__(self) -> None:
        if len(self.octets) != -(-self.bits // 8) or (self.bits % 8 and self.octets[-1] % (1 << 8 - self.bits % 8)):
            raise BadLine(f"{self.octets.hex()} are not the octets of {self.bits} bits")

    @staticmethod
    def of(octets: bytes) -> Text:
        """Whole octets.

        >>> str(Text.of(b"LO"))
        '16 4C4F'
        """
        return Text(octets, 8 * len(octets))

    @staticmethod
    def read(bits: str, octets: str) -> Text:
        """The text that two words spell.

        >>> Text.read("16", "4C4F").octets
        b'LO'
        """
        if not re.fullmatch("-|([0-9A-F]{2})+", octets) or (octets == "-") != (bits == "0"):
            raise BadLine(f"`{octets}` are not octets in upper case hexadecimal, `-` for no bits")
        return Text(b"" if octets == "-" else bytes.fromhex(octets), whole(bits))

    def __str__(self) -> str:
        return f"{self.bits} {self.octets.hex().upper() or '-'}"


@dataclass(frozen=True)
class Flow:
    """What goes from one host to another on one link: one message at a time.

    >>> str(Flow(Host(0, 1), Host(0, 2), 5))
    '0/1 0/2 5'
    """

    source: Host
    destination: Host
    link: int

    def __post_init__(self) -> None:
        in_range(self.link, MOST_LINK)

    def __str__(self) -> str:
        return f"{self.source} {self.destination} {self.link}"

    @staticmethod
    def read(source: str, destination: str, link: str) -> Flow:
        """The flow that three words spell.

        >>> Flow.read("0/1", "0/2", "5") == net.flow("UCLA", "SRI", 5)
        True
        """
        return Flow(host_of(source), host_of(destination), whole(link, MOST_LINK))


def host_of(word: str) -> Host:
    try:
        return Host.read(word)
    except BadNetwork as why:
        raise BadLine(str(why)) from None


def in_range(value: object, most: int, least: int = 0) -> None:
    """Refuses what is no whole number in a range."""
    if type(value) is not int or not least <= value <= most:
        raise BadLine(f"{value!r} is not {'' if type(value) is int else 'a whole number '}from {least} to {most}")


def whole(word: str, most: int = MOST_NUMBER, least: int = 0) -> int:
    """A number as a script spells it."""
    if not re.fullmatch("0|[1-9][0-9]{0,9}", word) or not least <= int(word) <= most:
        raise BadLine(f"`{word}` is not a number from {least} to {most}")
    return int(word)


def way_of(word: str) -> str:
    if word not in ("+", "-"):
        raise BadLine(f"`{word}` is not a direction, `+` or `-`")
    return word
