"""The texts of messages as the contract reads them: commands by codes and numbers, data as a header announces them."""

from __future__ import annotations

from typing import NamedTuple

from dorydate.model.bits import Bits, octets
from dorydate.model.commands import (
    ALL, CLS, CONTROL_TEXT, GVB, LENGTHS, NAMES, RET, RTS, STR, alone, control_message, of_counts, of_sockets,
    read_numbers, split,
)  # fmt: skip

# the octets of the numbers of each command that the contract looks at
FIELDS = {RTS: (4, 4, 1), STR: (4, 4, 1), CLS: (4, 4), ALL: (1, 2, 4), RET: (1, 2, 4), GVB: (1, 1, 1)}


class Command(NamedTuple):
    """A command: its code and its numbers; of those that the contract doesn't look at, none."""

    code: int
    numbers: tuple[int, ...] = ()

    def __str__(self) -> str:
        return " ".join([NAMES[self.code], *map(str, self.numbers)])

    def octets(self) -> bytes:
        """Its octets, of commands whose numbers are looked at or that have none."""
        if self.code in (RTS, STR, CLS):
            return of_sockets(self.code, *self.numbers)
        if self.code in (ALL, RET):
            return of_counts(self.code, *self.numbers)
        return alone(self.code) + bytes(self.numbers)


class Data(NamedTuple):
    """A message of data: the size of its bytes and its bits. Padding after what the header announces is no data."""

    size: int
    bits: Bits


def data_of(text: Bits) -> Data | None:
    """The data of a text; None where it is shorter than its header announces."""
    parts = split(text)
    return Data(parts.size, parts.following[: parts.size * parts.number]) if parts else None


def commands_of(text: Bits) -> list[Command]:
    """The commands of a control text, read until something is none; none where the text is malformed."""
    parts = split(text)
    if parts is None or parts.size != 8 or parts.number > CONTROL_TEXT:
        return []
    left = octets(parts.following[: 8 * parts.number])
    found = []
    while left and (length := LENGTHS.get(left[0], len(left) + 1)) <= len(left):
        found.append(Command(left[0], tuple(read_numbers(left, *FIELDS.get(left[0], ())))))
        left = left[length:]
    return found


def text_of(*commands: Command) -> Bits:
    """The text of a message with these commands."""
    return control_message(it.octets() for it in commands)
