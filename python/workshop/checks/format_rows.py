"""Calls on bits and allocations, and those that write octets, answered from the formats by the independent model."""

from __future__ import annotations

from dorydate.model import formats
from dorydate.model.bits import Bits, read_bits, spell_bits, spelled_text
from dorydate.model.commands import LENGTHS, RRP, RST, error, fitting, header
from dorydate.model.formats import ANSWERS, NOP, Fault, command, stripped
from dorydate.model.names import HostName, address, read_host, spell_host
from dorydate.model.packets import MOST_IMPS, Kind, answer, body, spell_packet
from dorydate.model.script import MOST_TEXT
from workshop.checks.imp_rows import read_flow
from workshop.checks.reader_rows import TEXTS, octets_in
from workshop.checks.readings import Reading, Unread

MESSAGES, BITS = 65535, 4294967295  # the most that is granted
FAULTS = {**TEXTS["body"], "TooLong": "text too long"}  # of a body
DATA_BITS = 8023  # the most data that a message carries
WHOLE = 128


def in_digits(octets: bytes) -> str:
    """Octets as rows spell them, without runs."""
    return octets.hex().upper() or "-"


def in_word(is_so: bool) -> str:
    """Whether something is so."""
    return str(is_so).lower()


def one(answers: str) -> list[str]:
    """An answer of one part."""
    return [answers]


class BitRows:
    """A list of bits, and its last copy."""

    def __init__(self) -> None:
        self.list: Bits = ""
        self.copy: Bits = ""

    def answers(self, call: str, wanted: list[str]) -> list[str]:
        name, *words = call.split(" ")
        said = self.asked(name, words)
        return [self.changed(name, words) if said is None else said]

    def asked(self, name: str, words: list[str]) -> str | None:
        """What a query says; None for other calls."""
        bits = self.list
        match name, words:
            case "get", [place]:
                return bits[int(place)] if int(place) < len(bits) else "nothing"
            case "empty", []:
                return in_word(not bits)
            case "mark", []:
                return in_word("1" in bits)
            case "is", [count, digits]:
                return in_word(bits == read_bits(count, digits))
            case "same", []:
                return in_word(bits == self.copy)
            case "anew", []:
                return "true"
            case "parts", [_, lengths]:
                return lengths
            case "octets", []:
                return spelled_text(bits)
            case "octets_at", [start, octets]:
                at, end = int(start), int(start) + 8 * int(octets)
                return spelled_text(bits[at:end]) if end <= len(bits) else "refused out of range"
        return None

    def changed(self, name: str, words: list[str]) -> str:
        """What the list is after a call that changes it, or takes a copy."""
        new = self.new(name, words)
        if new.startswith("refused"):
            return new
        if name == "copy":
            self.copy = new
        else:
            self.list = new
        return spell_bits(new)

    def new(self, name: str, words: list[str]) -> Bits:
        """The list that a call leads to, or why it is refused."""
        bits = self.list
        match name, words:
            case "copy", []:
                return bits
            case "push", [bit]:
                return bits + bit
            case "append", [count, digits]:
                return bits + read_bits(count, digits)
            case "read", [count, digits]:
                return read_bits(count, digits) if int(count) <= 8 * len(octets_in(digits)) else "refused out of range"
            case "cut", [start, end]:
                return bits[int(start) : int(end)] if int(start) <= int(end) <= len(bits) else "refused out of range"
            case "pad", []:
                return body(bits) if len(bits) <= MOST_TEXT else "refused text too long"
            case "strip", []:
                try:
                    stripped(bits)
                except Fault as fault:
                    return f"refused {FAULTS[str(fault)]}"
                return bits[: bits.rindex("1")]
        raise Unread(f"{name} of bits")


# ---- octets that are written


class WriterRows:
    """What is sent, made from its parts."""

    def answers(self, call: str, wanted: list[str]) -> list[str]:
        name, *words = call.split(" ")
        match name, words:
            case "leader", [kind, host, link]:
                codes = {**{said: code for code, said in ANSWERS.items()}, "regular": 0, "nottaken": 9}
                return one(in_digits(bytes([codes[kind], address(read_host(host)), int(link), 0])))
            case "nop", []:
                return one(in_digits(bytes([NOP, 0, 0, 0])))
            case "packet", [kind, *flow, number]:
                return one(in_digits(spell_packet(answer(Kind[kind.upper()], read_flow(flow), int(number)))))
            case "header", [size, count]:
                return one(f"{spell_bits(header(int(size), int(count)))}, data {int(size) * int(count)}")
            case "error", [code, digits]:
                return one(in_digits(error(int(code), octets_in(digits))))
            case "pack", [digits]:
                return one(packed(octets_in(digits)))
            case "single", [digits]:
                return one(in_word(octets_in(digits)[0] in (RST, RRP)))
        return one(named(name, words))


def packed(octets: bytes) -> str:
    """How many of the commands that octets spell go into one message, and its octets."""
    queue: list[bytes] = []
    while octets:
        queue.append(octets[: LENGTHS[octets[0]]])
        octets = octets[command(octets)[1] :]
    count = fitting(queue)
    return f"{count} {in_digits(b''.join(queue[:count]))}"


def named(name: str, words: list[str]) -> str:
    """The name of an IMP or a host, where there can be one."""
    match name, words:
        case "imp", [number]:
            return number if 0 < int(number) <= MOST_IMPS else "nothing"
        case "host", [number, imp]:
            host = HostName(int(number), int(imp))
            is_there = host.number < 4 and 0 < host.imp <= MOST_IMPS
            return f"{spell_host(host)} {address(host):02X}" if is_there else "nothing"
        case "address", [digits]:
            host = formats.host_of(octets_in(digits)[0])
            return f"{spell_host(host)}, host {host.number} of {host.imp}" if host.imp else "nothing"
    raise Unread(name)


# ---- allocations


class AllocationRows:
    """What is granted: messages and bits."""

    def __init__(self) -> None:
        self.messages = self.bits = 0

    def answers(self, call: str, wanted: list[str]) -> list[str]:
        name, *words = call.split(" ")
        match name, [int(word) for word in words]:
            case "may_send", [size, count]:
                fits = min(self.bits, DATA_BITS) // size if self.messages else 0
                return one(str(min(count, fits)))
            case "set", [messages, bits]:
                self.messages, self.bits = messages, bits
            case "grant", [messages, bits]:
                self.messages, self.bits = min(self.messages + messages, MESSAGES), min(self.bits + bits, BITS)
            case "spend", [bits]:
                self.messages, self.bits = self.messages - 1, self.bits - bits
            case "give_back", [of_messages, of_bits]:
                messages = self.messages * min(of_messages, WHOLE) // WHOLE
                bits = self.bits * min(of_bits, WHOLE) // WHOLE
                self.messages, self.bits = self.messages - messages, self.bits - bits
                return one(f"{messages} {bits}, left {self.messages} {self.bits}")
            case _:
                raise Unread(f"{name} of allocations")
        return one(f"{self.messages} {self.bits}")


def open_formats(call: str) -> tuple[Reading, list[str]]:
    """What a block's first row opens."""
    kinds: dict[str, type[Reading]] = {"bits": BitRows, "writers": WriterRows, "allocation": AllocationRows}
    return kinds[call](), []
