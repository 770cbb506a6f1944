"""What the text of a host's message says, in words.

`text_in_words` reads a text as hosts with programs read it: a header, then commands on link 0 and bytes of data on every
other link. `raw_text_in_words` is for raw networks, where a script sends what it likes. Header and commands are split by
the independent model of a host's program, so that only one place knows their forms.
"""

from __future__ import annotations

from dorydate.model.bits import Bits, bits_of
from dorydate.model.bits import octets as octets_of
from dorydate.model.commands import (
    ALL, CLS, CONTROL_TEXT, ECO, ERP, ERR, GVB, HEADER, INR, INS, LENGTHS, LINKS, NAMES, NOP, RET, RTS, STR, read_numbers, split,
)  # fmt: skip
from dorydate.sentences.table import count, filled, sentences

TEXTS, ERRORS = sentences("texts"), sentences("error codes")
SHOWN = 60  # characters or hexadecimal digits of data that are shown


# ---- whole texts


def text_in_words(link: int, octets: bytes, bits: int) -> str:
    """What a text of this many bits says, which lies in these octets and came on this link."""
    text = bits_of(octets)[:bits]
    parts = split(text)
    if parts is None:
        return malformed(text)
    size, number, following = parts
    if link != 0:
        return data_in_words(size, number, following[: size * number])
    if size != 8:
        return filled(TEXTS["byte size"], size=size)
    if number > CONTROL_TEXT:
        return filled(TEXTS["too many"], number=number, most=CONTROL_TEXT)
    return ", ".join(commands_in_words(octets_of(following[: 8 * number]))) or TEXTS["none"]


def malformed(text: Bits) -> str:
    """Why a text has no header, or ends before what its header announces."""
    if len(text) < HEADER:
        return filled(TEXTS["short"], bits=len(text), header=HEADER)
    return filled(TEXTS["announced"], size=int(text[8:16], 2), number=int(text[16:32], 2), left=len(text) - HEADER)


def raw_text_in_words(octets: bytes, bits: int) -> str:
    """What a text of this many bits holds, where nothing is known of its form."""
    return shown(octets, bits) if bits else "nothing"


# ---- data


def data_in_words(size: int, number: int, data: Bits) -> str:
    """The bytes after the header of a data message."""
    amount = f"{count(number, 'byte')} of {count(size, 'bit')}"
    return f"{amount}: {shown(octets_of(data), len(data))}" if data else amount


def shown(octets: bytes, bits: int, most: int = SHOWN) -> str:
    """Octets as text between quotation marks where they are text, else in hexadecimal digits; the end is left out where there is much."""
    is_text = bits % 8 == 0 and all(32 <= it <= 126 or it in b"\t\r\n" for it in octets)
    words = f"“{''.join(ESCAPED.get(it, chr(it)) for it in octets)}”" if is_text else octets.hex().upper()
    return words if len(words) <= most else f"{words[:most]}.."


ESCAPED = {9: "\\t", 10: "\\n", 13: "\\r", 92: "\\\\"}


# ---- commands


def commands_in_words(octets: bytes) -> list[str]:
    """The commands in a control text, each in words. The last is about octets that are no command."""
    found: list[str] = []
    while octets:
        length = LENGTHS.get(octets[0])
        if length is None:
            return [*found, filled(TEXTS["no code"], code=octets[0])]
        if len(octets) < length:
            return [*found, filled(TEXTS["cut"], name=NAMES[octets[0]], octets=len(octets))]
        found.append(command_in_words(octets[:length]))
        octets = octets[length:]
    return found


def command_in_words(command: bytes) -> str:
    """A whole command. Of one with erroneous parameters its faults are named too."""
    code, name = command[0], NAMES[command[0]]
    if code in (RTS, STR):
        own, foreign, last = read_numbers(command, 4, 4, 1)
        return request_in_words(code, own, foreign, last)
    if code == CLS:
        own, foreign = read_numbers(command, 4, 4)
        return filled(TEXTS["CLS"], own=own, foreign=foreign)
    if code in (ALL, RET):
        link, messages, bits = read_numbers(command, 1, 2, 4)
        return filled(TEXTS["ALL"], name=name, messages=messages, bits=bits, link=link)
    if code == GVB:
        link, messages, bits = read_numbers(command, 1, 1, 1)
        return filled(TEXTS["GVB"], messages=messages, bits=bits, link=link)
    if code in (INR, INS):
        return filled(TEXTS["INR"], name=name, link=command[1])
    if code in (ECO, ERP):
        return f"{name} {command[1]}"
    return error_in_words(command[1], command[2:]) if code == ERR else name


def request_in_words(code: int, own: int, foreign: int, last: int) -> str:
    """An RTS or STR, whose first socket is its sender's own."""
    if code == RTS:
        said = filled(TEXTS["RTS"], own=own, foreign=foreign, link=last)
        faults = parities(own, foreign) + ([] if last in LINKS else [f"link {last} is never connected"])
    else:
        said = filled(TEXTS["STR"], own=own, foreign=foreign, size=last)
        faults = parities(foreign, own) + ([] if last else ["bytes have a bit at least"])
    return f"{said} (erroneous: {'; '.join(faults)})" if faults else said


def parities(receive: int, send: int) -> list[str]:
    """What is wrong with a receive socket and a send socket."""
    return [f"{receive} is a send socket"] * (receive % 2) + [f"{send} is a receive socket"] * (1 - send % 2)


def error_in_words(kind: int, quoted: bytes) -> str:
    """An ERR: the command that it quotes, or the octets where they are none."""
    meaning = f" ({ERRORS[str(kind)]})" if str(kind) in ERRORS else ""
    length = LENGTHS.get(quoted[0], len(quoted) + 1)
    is_command = quoted[0] != NOP and length <= len(quoted) and not any(quoted[length:])
    return f"ERR {kind}{meaning}, quoting {command_in_words(quoted[:length]) if is_command else quoted.hex().upper()}"
