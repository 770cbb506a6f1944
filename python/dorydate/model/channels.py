"""One end of a line between IMPs: eight channels each way, each with its one bit."""

from __future__ import annotations

from dorydate.model.packets import CHANNELS, Carried, Packet
from dorydate.model.resting import Kept


class Channels(Kept):
    """The channels of a line's end: the packets that it sends, and the bits that it expects."""

    def __init__(self) -> None:
        self.next_bit = [0] * CHANNELS
        self.busy: list[Packet | None] = [None] * CHANNELS
        self.expected = [0] * CHANNELS

    def acknowledged(self) -> int:
        """The acknowledgement bits of the next frame."""
        return sum(bit << channel for channel, bit in enumerate(self.expected))

    def frame(self, channel: int) -> Carried:
        """What the frame of a channel in use carries."""
        packet = self.busy[channel]
        assert packet is not None
        return Carried(channel, self.next_bit[channel], packet)

    def submit(self, packet: Packet) -> Carried | None:
        """The frame of a packet in the lowest free channel, or None where all are busy."""
        if None not in self.busy:
            return None
        channel = self.busy.index(None)
        self.busy[channel] = packet
        return Carried(channel, self.next_bit[channel], packet)

    def take_acknowledgements(self, bits: int) -> None:
        """Frees each channel whose packet these bits acknowledge."""
        for channel in range(CHANNELS):
            if self.busy[channel] is not None and bits >> channel & 1 != self.next_bit[channel]:
                self.busy[channel] = None
                self.next_bit[channel] ^= 1

    def held(self) -> list[Packet]:
        """The packets in channels."""
        return [packet for packet in self.busy if packet is not None]
