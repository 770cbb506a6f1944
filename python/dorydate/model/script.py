"""Lines of scripts: an independent reader of them.

It was written from docs/program.md, but for which operands follow which word: that is in one table. `check model` and
`check explain` use it.
"""

from __future__ import annotations

import re
from collections.abc import Collection, Iterator, Sequence
from typing import Any, TypeAlias

from dorydate.model.bits import Bits, bits_of
from dorydate.model.names import Flow, HostName
from dorydate.sentences.events import EVENTS, OF_RAW, OF_WORLDS, words_of

HOST = r"([0-3])/([1-9]|[1-5][0-9]|6[0-3])"
OCTET = r"(0|[1-9][0-9]?|1[0-9][0-9]|2[0-4][0-9]|25[0-5])"
IMP = r"([1-9]|[1-5][0-9]|6[0-3])"
NUMBER = r"(0|[1-9][0-9]{0,9})"
FLOW = rf"{HOST} {HOST} {OCTET}"
OCTETS = r"(-|(?:[0-9A-F][0-9A-F])+)"
# how an operand is spelled; all others are numbers of 32 bits, but for those of SIZES
SPELLED = {
    "S": HOST, "D": HOST, "H": HOST, "P": HOST, "N": OCTET, "I": IMP, "J": IMP,
    "+|-": "([+-])", "OCTETS": OCTETS, "TEXT": "([ -~]*)",
}  # fmt: skip
SIZES = {"SIZE": 8, "OCTET": 8, "FRACTION": 8, "MESSAGES": 16}
FORMS = {
    word: re.compile(" ".join([word, *(SPELLED.get(name, NUMBER) for name in it.operands)]))
    for word, it in EVENTS.items()
}
OF_PROGRAM = {word: FORMS[word] for word in words_of("programs")}
OF_SERVICES = ("server", "user", "type")

MOST_TEXT = 8063
EVERYTHING = "worlds", "services"  # what a program may or may not run yet beside raw networks

Event: TypeAlias = tuple[Any, ...]  # an event's kind, and its parts in the order of its line


class BadLine(Exception):
    """A line that is no event."""


def read_number(word: str, size: int = 32) -> int:
    """A number of this many bits."""
    if int(word) >= 1 << size:
        raise BadLine
    return int(word)


def host_of(number: str, imp: str) -> HostName:
    """The host of two words."""
    return HostName(int(number), int(imp))


def read_flow(words: Sequence[str]) -> Flow:
    """A flow, by the five numbers of its two hosts and its link."""
    source, source_imp, destination, destination_imp, link = words
    return Flow(host_of(source, source_imp), host_of(destination, destination_imp), int(link))


def read_text(count: str, octets: str) -> Bits:
    """The bits of a text, the rest of whose last octet has to be zero."""
    bits, octets = read_number(count), "" if octets == "-" else octets
    if len(octets) != 2 * -(-bits // 8) or octets and int(octets[-2:], 16) % (1 << -bits % 8):
        raise BadLine
    return bits_of(bytes.fromhex(octets))[:bits]


def read_parts(operands: Sequence[str], words: Sequence[str]) -> Iterator[Any]:
    """The parts of an event, by the words of its operands; a host is two words here."""
    rest = iter(words)
    while operands:
        match operands:
            case ["S", "D", "N", *left]:
                yield read_flow([next(rest) for _ in range(5)])
            case ["BITS" | "COUNT", "OCTETS", *left]:
                yield read_text(next(rest), next(rest))
            case ["H" | "P", *left]:
                yield host_of(next(rest), next(rest))
            case ["+|-" | "TEXT", *left]:
                yield next(rest)
            case [name, *left]:
                yield read_number(next(rest), SIZES.get(name, 32))
        operands = left


def read_line(line: str, raw: bool = True, runs: Collection[str] = EVERYTHING, strangers: bool = False) -> Event | None:
    """The event that a line asks for, None for a line that is passed over. Strangers send as a raw network's script does."""
    if line == "" or line[0] == "#":
        return None
    word = line.split(" ")[0]
    is_here = word in (OF_RAW if raw else OF_WORLDS) or strangers and word == "out"
    found = FORMS[word].fullmatch(line) if is_here else None
    if not found or word in OF_SERVICES and "services" not in runs:
        raise BadLine
    parts = [*read_parts(EVENTS[word].operands, found.groups())]
    if word == "out" and len(parts[1]) > MOST_TEXT:
        raise BadLine
    return word, *parts


def read_event(line: str, raw: bool = True, strangers: bool = False) -> Event:
    """The event of a line that has one."""
    event = read_line(line, raw, strangers=strangers)
    if event is None:
        raise BadLine
    return event
