"""What a dialogue is: steps, each with what a right program may answer, in words.

An answer is commands and data between commas, as in `RTS 16 33 L, ALL L _ _`. A command is its name and its numbers.
Data are `data LINK SIZE DIGITS`, with the octets of all messages on a link that follow one another. `_` is any word,
and a single capital a name, which is bound where it first occurs. The empty answer is silence, and NOP is passed over.
"""

from __future__ import annotations

from collections.abc import Iterator, Sequence
from dataclasses import dataclass

from dorydate.explore.pattern import Names, Part
from dorydate.model.bits import Bits, octets
from dorydate.model.commands import CONTROL_TEXT, NAMES, NOP, RRP, RST, split
from dorydate.model.formats import Fault, command

HERE, MINE, OTHER = "0/1", "0/2", "0/3"  # the proved host, the program's, and the second stranger's
ALONE = NAMES[RST], NAMES[RRP]  # each has a message of its own


@dataclass(frozen=True)
class Step:
    """Somebody does something, and then a right program says one of these answers to one host, and nothing to others."""

    who: str  # `user` at the program's host, `here` at the proved host; `other` is the second stranger
    does: str  # a line of a script; of the second stranger what it says
    peer: str  # the host that is answered
    right: tuple[str, ...] = ("",)
    seen: tuple[str, ...] = ()  # lines that then are printed
    link: str = "0"  # on which the second stranger says it, as a number or a name
    text: Bits = ""  # the text of its message


@dataclass(frozen=True)
class Dialogue:
    """Some steps, and the rule that they try."""

    name: str
    rule: str
    steps: tuple[Step, ...]


def fits(said: Sequence[str], right: str, names: Names) -> Names | None:
    """The names with which what was said is an answer that is right; None where it isn't."""
    wanted = [it.strip() for it in right.split(",")] if right else []
    bound: Names | None = names
    for words, one in zip(said, wanted):
        bound = Part(tuple(one.split(" "))).match(words.split(" "), bound) if bound is not None else None
    return bound if len(said) == len(wanted) else None


def in_words(link: int, text: Bits) -> list[str]:
    """What a message says, in words."""
    parts = split(text)
    if parts is None:
        return [f"malformed {link}"]
    if link:
        return [f"data {link} {parts.size} {octets(parts.following[: parts.size * parts.number]).hex().upper() or '-'}"]
    if parts.size != 8 or parts.number > CONTROL_TEXT:
        return [f"malformed {link}"]
    said = [*commands_of(octets(parts.following[: 8 * parts.number]))]
    return [f"beside others: {it}" if it in ALONE and len(said) > 1 else it for it in said if it != NAMES[NOP]]


def commands_of(left: bytes) -> Iterator[str]:
    """The commands of a text."""
    while left:
        try:
            words, used = command(left)
        except Fault as fault:
            yield f"no command: {fault}"
            return
        yield words.split(" (")[0] if words else f"erroneous: {left[:used].hex().upper()}"
        left = left[used:]


def joined(said: Sequence[str]) -> list[str]:
    """What was said, with data on a link that follow one another as one."""
    whole: list[str] = []
    for it in said:
        head, _, digits = it.rpartition(" ")
        if it.startswith("data ") and whole and whole[-1].rpartition(" ")[0] == head:
            whole[-1] = f"{head} {(whole[-1].rpartition(' ')[2] + digits).replace('-', '') or '-'}"
        else:
            whole.append(it)
    return whole
