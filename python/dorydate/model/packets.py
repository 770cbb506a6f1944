"""Packets between IMPs and the frames of lines that carry them, spelled from the formats."""

from __future__ import annotations

from enum import IntEnum
from typing import NamedTuple, Union

from dorydate.model.bits import Bits, octets
from dorydate.model.names import Flow, address

PIECE, VERSION = 1008, 0xF2  # the bits of a full piece, and the octet that each frame begins with
CHANNELS = 8
MOST_IMPS, INFINITE = 63, 63


class Kind(IntEnum):
    """What a packet is: a piece of a message, an answer about one, or a question what became of one."""

    DATA = 0
    RFNM = 1
    DEAD = 2
    ASK = 3
    NEVER = 4


DATA, RFNM, DEAD, ASK, NEVER = Kind.DATA, Kind.RFNM, Kind.DEAD, Kind.ASK, Kind.NEVER
REQUESTS = DATA, ASK  # these travel to a message's destination, all others to its source


class Packet(NamedTuple):
    """A packet: its kind, its message's flow and number, and of a piece its place, whether it is the last, and its bits."""

    kind: Kind
    flow: Flow
    number: int
    place: int
    last: bool
    bits: Bits


class Carried(NamedTuple):
    """What a frame with a packet has: a channel, its bit, and the packet."""

    channel: int
    bit: int
    packet: Packet


class Routes(NamedTuple):
    """What a frame with an IMP's distances to all IMPs has."""

    distances: list[int]


Content = Union[Carried, Routes, None]  # None is only an acknowledgement


class Frame(NamedTuple):
    """A frame on a line: acknowledgement bits, one for each channel, and its content."""

    acknowledged: int
    content: Content


def target(packet: Packet) -> int:
    """The IMP to which a packet travels."""
    flow = packet.flow
    return flow.destination.imp if packet.kind in REQUESTS else flow.source.imp


def answer(kind: Kind, flow: Flow, number: int) -> Packet:
    """A packet that is no piece of a message."""
    return Packet(kind, flow, number, 0, True, "")


def body(text: Bits) -> Bits:
    """A text with its mark and its padding."""
    padded = text + "1"
    return padded + "0" * (-len(padded) % 16)


def pieces_of(text: Bits) -> list[Bits]:
    """The pieces in which a text travels."""
    whole = body(text)
    return [whole[at : at + PIECE] for at in range(0, len(whole), PIECE)]


def spell_packet(packet: Packet) -> bytes:
    """The octets of a packet."""
    kind, (source, destination, link), number, place, last, bits = packet
    head = [kind, address(source), address(destination), link, *number.to_bytes(2, "big"), place | last << 7, *len(bits).to_bytes(2, "big")]
    return bytes(head) + octets(bits)


def spell_frame(acknowledged: int, content: Content) -> bytes:
    """The octets of a frame."""
    if content is None:
        return bytes([VERSION, 1, acknowledged])
    if isinstance(content, Routes):
        return bytes([VERSION, 2, acknowledged, *content.distances])
    return bytes([VERSION, 0, acknowledged, content.channel | content.bit << 3]) + spell_packet(content.packet)
