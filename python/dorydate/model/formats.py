"""The formats: independent readers of what octets say.

They were written from docs/formats.md, in another language and another form than the definitions. Each reader gives the words in
which tools/calls prints what was read and how that is written again, or the fault. `check readers` compares the code with them.
"""

from __future__ import annotations

from collections.abc import Callable, Sequence
from typing import TypeVar

from dorydate.model.bits import Bits, spell_bits
from dorydate.model.commands import ALL, CLS, ECO, ERP, ERR, GVB, INR, INS, LENGTHS, LINKS, NAMES, QUOTED, RET, RTS, STR, header, read_numbers, split
from dorydate.model.names import HostName, spell_host
from dorydate.model.packets import ASK, DATA, DEAD, INFINITE, MOST_IMPS, NEVER, PIECE, RFNM, VERSION, body
from dorydate.model.script import MOST_TEXT

NOP, ANSWERS = 4, {5: "rfnm", 7: "dead", 9: "incomplete"}
KINDS: dict[int, str] = {DATA: "data", RFNM: "rfnm", DEAD: "dead", ASK: "ask", NEVER: "never"}
PACKET_HEAD, UNIT = 9, 16
IMPS = range(1, MOST_IMPS + 1)

T = TypeVar("T")


class Fault(Exception):
    """Why octets say nothing, by the fault's name."""


def told(read: Callable[[T], str], given: T) -> str:
    """What a reader says of octets or bits, or its fault."""
    try:
        return read(given)
    except Fault as fault:
        return str(fault)


def refuse_if(holds: bool, fault: str) -> None:
    """Raises a fault where something holds that may not."""
    if holds:
        raise Fault(fault)


def in_digits(octets_in: bytes) -> str:
    """Octets in hexadecimal digits."""
    return octets_in.hex().upper()


def host_of(octet: int) -> HostName:
    """The host that an address octet names."""
    return HostName(octet >> 6, octet & 0b111111)


# ---- leaders and bodies


def leader(octets_in: bytes, from_imp: bool) -> str:
    """A leader, from an IMP or from a host."""
    refuse_if(len(octets_in) < 4, "ShortLeader")
    kind, address, link = octets_in[0] & 0b1111, octets_in[1], octets_in[2]
    if kind == NOP:
        return "nop = 04000000"
    name = "regular" if kind == 0 else ANSWERS.get(kind) if from_imp else None
    refuse_if(name is None, f"UnknownType {kind}")
    host = host_of(address)
    refuse_if(host.imp == 0, "BadImp")
    return f"{name} {spell_host(host)} {link} = {in_digits(bytes([kind, address, link, 0]))}"


def stripped(bits: Bits) -> str:
    """The text of a body."""
    refuse_if("1" not in bits, "NoMark")
    text = bits[: bits.rindex("1")]
    refuse_if(len(text) > MOST_TEXT, "TooLong")
    refuse_if(len(bits) % UNIT != 0, "Range")
    return f"{spell_bits(text)} = {spell_bits(body(text))}"


# ---- packets and frames


def packet_in_words(octets_in: bytes) -> str:
    """The fields of a packet."""
    refuse_if(len(octets_in) < PACKET_HEAD, "Short")
    kind, source, destination, link = octets_in[:4]
    number, place_octet, count = octets_in[4] << 8 | octets_in[5], octets_in[6], octets_in[7] << 8 | octets_in[8]
    end = PACKET_HEAD + -(-count // 8)
    refuse_if(len(octets_in) < end, "Short")
    place, last, between = place_octet & 7, place_octet >> 7 == 1, place_octet >> 3 & 15
    hosts = host_of(source), host_of(destination)
    has_bits = kind == DATA
    refuse_if(
        kind not in KINDS
        or any(imp not in IMPS for _, imp in hosts)
        or between != 0
        or place == 7 and not last
        or not has_bits and place_octet != 128
        or len(octets_in) > end,
        "NotCanonical",
    )
    if has_bits:
        refuse_if(not 0 < count <= PIECE or count % UNIT != 0 or not last and count != PIECE, "BadLength")
    else:
        refuse_if(count > 0, "BadLength")
    bits = f"{count} {in_digits(octets_in[PACKET_HEAD:]) or '-'}"
    flow = " ".join(map(spell_host, hosts))
    return f"{KINDS[kind]} {flow} {link} {number} {place} {'last' if last else 'more'} {bits}"


def packet(octets_in: bytes) -> str:
    """A packet."""
    return f"{packet_in_words(octets_in)} = {in_digits(octets_in)}"


def frame(octets_in: bytes) -> str:
    """A frame."""
    refuse_if(not octets_in, "Short")
    refuse_if(octets_in[0] != VERSION, "BadVersion")
    refuse_if(len(octets_in) < 3, "Short")
    kind, acknowledged, content = octets_in[1], octets_in[2], octets_in[3:]
    refuse_if(kind == 0 and not content or kind == 2 and len(content) < len(IMPS), "Short")
    channels = "".join(str(channel) for channel in range(8) if acknowledged >> channel & 1)
    if kind == 0:
        refuse_if(content[0] > 15, "NotCanonical")
        words = f"packet {channels} on {content[0] & 7} under {content[0] >> 3} {packet_in_words(content[1:])}"
    elif kind == 1:
        refuse_if(bool(content), "NotCanonical")
        words = f"acknowledgements {channels}"
    else:
        refuse_if(kind > 2 or len(content) > len(IMPS) or any(it > INFINITE for it in content), "NotCanonical")
        words = f"routes {channels} {' '.join(map(str, content))}"
    return f"{words} = {in_digits(octets_in)}"


# ---- commands and the header of a message


def command(octets_in: bytes) -> tuple[str | None, int]:
    """The command that octets begin with, in words, and how many octets it has; None in place of words if it is erroneous."""
    quoted = min(len(octets_in), QUOTED)
    refuse_if(bool(octets_in) and octets_in[0] not in LENGTHS, f"IllegalCode {quoted}")
    refuse_if(not octets_in or len(octets_in) < LENGTHS[octets_in[0]], f"Short {quoted}")
    code = octets_in[0]
    spelling = octets_in[: LENGTHS[code]]
    fields = fields_of(code, spelling)
    if fields is None:
        return None, len(spelling)
    return f"{' '.join([NAMES[code], *map(str, fields)])} ({in_digits(spelling)})", len(spelling)


def fields_of(code: int, spelling: bytes) -> Sequence[int | str] | None:
    """The fields of a command; None where it is erroneous."""
    if code in (RTS, STR):
        own, foreign, third = read_numbers(spelling, 4, 4, 1)
        receive, send = (own, foreign) if code == RTS else (foreign, own)
        is_good = receive % 2 == 0 and send % 2 == 1 and (third in LINKS if code == RTS else third > 0)
        return (own, foreign, third) if is_good else None
    if code == CLS:
        return read_numbers(spelling, 4, 4)
    if code in (ALL, RET):
        return read_numbers(spelling, 1, 2, 4)
    if code == GVB:
        return read_numbers(spelling, 1, 1, 1)
    if code in (INR, INS, ECO, ERP):
        return read_numbers(spelling, 1)
    return (spelling[1], in_digits(spelling[2:])) if code == ERR else ()


def control_text(octets_in: bytes) -> str:
    """The commands of a control text, one after the other, up to its end or to a fault that ends reading."""
    words: list[str] = []
    while octets_in:
        try:
            said, used = command(octets_in)
        except Fault as fault:
            return ", ".join([*words, str(fault)])
        words.append(said or f"Erroneous {used}")
        octets_in = octets_in[used:]
    return ", ".join([*words, "end"])


def one_command(octets_in: bytes) -> str:
    """The command that octets begin with."""
    said, used = command(octets_in)
    return said or f"Erroneous {used}"


def message_header(text: Bits) -> str:
    """The header of a host message."""
    parts = split(text)
    if parts is None:
        raise Fault("malformed")
    return f"{parts.number} {parts.size} = {spell_bits(header(parts.size, parts.number))}"
