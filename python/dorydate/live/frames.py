"""The wire between a host and its IMP: frames of UDP, as the H316 simulators are known to have them (docs/live.md)."""

from __future__ import annotations

import struct
from dataclasses import dataclass

MAGIC = b"H316"
HEAD = struct.Struct(">4sIHH")
LAST, READY = 1, 2  # flags: the last frame of a message; its sender is ready
SEQUENCES = 1 << 32
MOST_WORDS = 2 + 504  # of a message: its leader and the longest body


class WireFault(Exception):
    """Why something that came over the wire is refused, in a word or two."""


@dataclass(frozen=True)
class Frame:
    """A frame: its sender's number for it, flags, and whole words of sixteen bits."""

    sequence: int
    flags: int
    words: bytes = b""

    def octets(self) -> bytes:
        return HEAD.pack(MAGIC, self.sequence % SEQUENCES, len(self.words) // 2, self.flags) + self.words

    @staticmethod
    def read(octets: bytes) -> Frame:
        """The frame of a datagram. Of the faults the first that applies: short, magic, length, flags, long."""
        if len(octets) < HEAD.size:
            raise WireFault("short")
        magic, sequence, count, flags = HEAD.unpack_from(octets)
        if magic != MAGIC:
            raise WireFault("magic")
        if len(octets) != HEAD.size + 2 * count:
            raise WireFault("length")
        if flags & ~(LAST | READY):
            raise WireFault("flags")
        if count > MOST_WORDS:
            raise WireFault("long")
        return Frame(sequence, flags, octets[HEAD.size :])


class Assembly:
    """The frames of one sender, of which several may be one message."""

    def __init__(self) -> None:
        self.expected: int | None = None  # the number of its next frame
        self.words = b""
        self.gaps = 0

    def add(self, frame: Frame) -> bytes | None:
        """The words of the message that a frame ends; None where it ends none.

        A frame with an earlier number is late, but for 0, with which a sender begins anew. Where frames are missing,
        what came of their message is dropped.
        """
        if self.expected is not None and frame.sequence != self.expected:
            if frame.sequence and (frame.sequence - self.expected) % SEQUENCES >= SEQUENCES // 2:
                raise WireFault("late")
            self.gaps += 1
            self.words = b""
        self.expected = (frame.sequence + 1) % SEQUENCES
        words, self.words = self.words + frame.words, b""
        if len(words) > 2 * MOST_WORDS:
            raise WireFault("long")
        if frame.flags & LAST:
            return words or None
        self.words = words
        return None
