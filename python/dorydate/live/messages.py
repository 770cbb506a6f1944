"""What a host says to its IMP in a message on the wire: a leader, and the text of a regular one (docs/formats.md)."""

from __future__ import annotations

from dataclasses import dataclass

from dorydate.export.leaders import leader
from dorydate.live.frames import WireFault
from dorydate.network import MOST_IMPS, Host
from dorydate.script import MOST_BITS, Flow, Out, Text

LEADER = 4  # octets
REGULAR, ERROR, GOING_DOWN, NOP, LONG = 0, 1, 2, 4, 15  # types of leaders
NOTES = {ERROR: "an error in a leader", GOING_DOWN: "that it goes down"}  # what changes nothing


@dataclass(frozen=True)
class Said:
    """A message of a host: a NOP, a note, which is for people only, or an event of the script."""

    note: str = ""
    event: Out | None = None


def read(own: Host, words: bytes, marked: bool) -> Said:
    """What a host says. Where bodies are marked, a bit 1 and zeros end the text; else all after the leader is text.

    Of the faults the first that applies: leader, long leader, type, imp, mark, text.
    """
    if len(words) < LEADER:
        raise WireFault("leader")
    kind, address, link = words[0] & 15, words[1], words[2]
    if kind == NOP:
        return Said()
    if kind in NOTES:
        return Said(f"{own} says {NOTES[kind]}")
    if kind == LONG:
        raise WireFault("long leader")
    if kind != REGULAR:
        raise WireFault(f"type {kind}")
    if not 1 <= address & MOST_IMPS:
        raise WireFault("imp")
    body = words[LEADER:]
    text = unmarked(body) if marked else Text.of(body)
    if text.bits > MOST_BITS:
        raise WireFault("text")
    return Said("", Out(Flow(own, Host(address >> 6, address & MOST_IMPS), link), text))


def unmarked(body: bytes) -> Text:
    """The text of a body."""
    number = int.from_bytes(body, "big")
    if not number:
        raise WireFault("mark")
    padding = (number & -number).bit_length()  # the mark and the zeros after it
    bits = 8 * len(body) - padding
    octets = (number >> padding << padding).to_bytes(len(body), "big")
    return Text(octets[: (bits + 7) // 8], bits)


def nop(own: Host) -> bytes:
    """The NOP of an IMP, with the address of its host."""
    return leader(NOP, own, 0)
