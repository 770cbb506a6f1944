"""Bits of texts and bodies, and the octets that hold them.

Bits are a text of the digits 0 and 1. Rules cut, join and compare them bit by bit, and most are a command or two long: there a text
takes half the time of a record of a number and a length.
"""

from __future__ import annotations

from typing import TypeAlias

Bits: TypeAlias = str


def octets(bits: Bits) -> bytes:
    """The octets that begin with these bits, the rest of the last one zero."""
    size = -(-len(bits) // 8)
    return (int(bits, 2) << (-len(bits) % 8)).to_bytes(size, "big") if bits else b""


def bits_of(octets_in: bytes) -> Bits:
    """The bits of octets."""
    return f"{int.from_bytes(octets_in, 'big'):0{8 * len(octets_in)}b}" if octets_in else ""


def read_bits(count: str, digits: str) -> Bits:
    """The bits that their number and their octets in hexadecimal digits spell."""
    return "" if digits == "-" else bits_of(bytes.fromhex(digits))[: int(count)]


def spelled_text(bits: Bits) -> str:
    """The octets of a text in a script: upper case hexadecimal, the last octet filled with zero bits, and a hyphen for no bits."""
    return octets(bits).hex().upper() or "-"


def spell_bits(bits: Bits) -> str:
    """The number of bits, and their octets."""
    return f"{len(bits)} {spelled_text(bits)}"
