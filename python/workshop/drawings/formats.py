"""Leaders, packets, frames, headers and commands as boxes of bits, an octet a row."""

from __future__ import annotations

from workshop.drawings.facts import command_lengths, shown, value
from workshop.drawings.svg import Drawing

LEFT, BIT, ROW = 50.0, 52.0, 30.0


class Octets:
    """A drawing of octets below one another, with their numbers at the left and their bits side by side, bit 7 first."""

    def __init__(self, drawing: Drawing, top: float) -> None:
        self.drawing, self.y = drawing, top
        for bit in range(8):
            drawing.text(LEFT + (7.5 - bit) * BIT, top - 10, str(bit), "soft mono", size=12)
        drawing.text(LEFT - 8, top - 10, "bit", "soft", size=12, at="end")

    def row(self, number: str, *fields: tuple[int, str, str], rows: int = 1, dash: bool = False) -> None:
        """The next octet, or several that are one field: its number, and its fields from bit 7 on as bits, words and kind."""
        high, at = ROW * rows, LEFT
        self.drawing.text(LEFT - 8, self.y + high / 2, number, "soft mono", size=12, at="end")
        for bits, words, kind in fields:
            self.drawing.box(at, self.y, bits * BIT, high, kind, dash=dash, round_by=2)
            self.drawing.text(at + bits * BIT / 2, self.y + high / 2, words)
            at += bits * BIT
        self.y += high

    def note(self, words: str, kind: str = "soft") -> None:
        self.y += 17
        self.drawing.text(LEFT, self.y, words, kind, size=12.5, at="start")

    def whole(self, *notes: str) -> Drawing:
        """The drawing with these lines below it, as high as what is on it."""
        for words in notes:
            self.note(words)
        self.drawing.height = self.y + 16
        return self.drawing


def address(words: str, kind: str) -> tuple[tuple[int, str, str], tuple[int, str, str]]:
    """The two fields of an address octet."""
    return (2, f"host 0 to {value('most_hosts') - 1}", kind), (6, f"{words}: IMP 1 to {shown('most_imps')}", kind)


def leader() -> Drawing:
    drawing = Drawing(
        "leader",
        "The leader: four octets",
        "Octet 0 has flags, which are ignored, in bits 7 to 4 and the type in bits 3 to 0. Octet 1 has the host's number, 0 to 3, in bits 7 and 6 and its IMP, "
        "1 to 63, in bits 5 to 0. Octet 2 is the link, 0 to 255. Octet 3 is ignored.",
        196,
    )
    octets = Octets(drawing, 32)
    octets.row("0", (4, "flags: ignored", "plain"), (4, "type", "blue"))
    octets.row("1", *address("the other end", "green"))
    octets.row("2", (8, "link 0 to 255", "orange"))
    octets.row("3", (8, "ignored", "plain"), dash=True)
    return octets.whole("type: 0 message, 4 NOP; from an IMP also 5 RFNM,", "7 destination dead, 9 incomplete")


def packet() -> Drawing:
    drawing = Drawing(
        "packet",
        "A packet: nine octets and the bits of its piece",
        "Octet 0 is the kind: 0 a piece, 1 RFNM, 2 Dead, 3 Ask, 4 Never. Octets 1 and 2 are the addresses of the message's source and destination, octet 3 the link, "
        "octets 4 and 5 the message number, 0 to 65,535. Octet 6 has the last flag in bit 7, zeros, and the place, 0 to 7, in bits 2 to 0. Octets 7 and 8 are the number "
        "of bits, at most 1,008. The bits follow from octet 9 on.",
        390,
    )
    octets = Octets(drawing, 32)
    kinds = ", ".join(f"{value(f'kind_{it.lower()}')} {it}" for it in ("Dead", "Ask", "Never"))
    octets.row("0", (8, f"kind: 0 piece, {value('kind_rfnm')} RFNM, {kinds}", "blue"))
    octets.row(shown("source_at"), *address("source", "green"))
    octets.row(shown("destination_at"), *address("destination", "green"))
    octets.row(shown("link_at"), (8, "link 0 to 255", "orange"))
    octets.row(f"{shown('number_at')}, 5", (8, f"message number 0 to {value('message_numbers') - 1:,}", "orange"), rows=2)
    octets.row(shown("place_at"), (1, "last", "purple"), (4, "zeros", "plain"), (3, f"place 0 to {value('most_pieces') - 1}", "purple"))
    octets.row(f"{shown('count_at')}, 8", (8, f"number of bits, at most {shown('piece_bits')}", "purple"), rows=2)
    octets.row(f"{shown('header_octets')} ..", (8, f"the bits of the piece, in units of {shown('unit_bits')}", "plain"), dash=True)
    return octets.whole(
        "An answer or a question has place 0, the last flag and no bits.", "Of two octets the first is the higher one."
    )


def frame() -> Drawing:
    drawing = Drawing(
        "frame",
        "A frame: version, kind, acknowledgements, and what it carries",
        "Octet 0 is the version F2, octet 1 the kind: 0 a packet, 1 acknowledgements only, 2 routes. Octet 2 has an acknowledgement bit for each of the eight channels, "
        "channel 0 in bit 0. In a packet frame octet 3 has the packet's bit in bit 3 and its channel in bits 2 to 0, and the packet follows. In a routes frame octets 3 to 65 are "
        "the distances to IMP 1 to 63, each 0 to 63.",
        384,
    )
    octets = Octets(drawing, 32)
    octets.row("0", (8, f"version {value('version'):X}", "blue"))
    octets.row("1", (8, f"kind: {value('frame_packet')} packet, {value('frame_acks')} acknowledgements only, {value('frame_routes')} routes", "blue"))
    octets.row("2", *((1, f"ack {bit}", "green") for bit in reversed(range(value("channels")))))
    octets.note("in a packet frame:", "ink bold")
    octets.y += 12
    octets.row("3", (4, "zeros", "plain"), (1, "bit", "purple"), (3, f"channel 0 to {value('channels') - 1}", "purple"))
    octets.row("4 ..", (8, f"the packet, {shown('header_octets')} to {value('header_octets') + value('piece_bits') // 8} octets", "plain"), dash=True)
    octets.note("in a routes frame:", "ink bold")
    octets.y += 12
    octets.row(f"3..{value('most_imps') + 2}", (8, f"the sender's distance to IMP 1 .. {shown('most_imps')}, each 0 to {shown('infinite')}", "orange"), dash=True)
    octets.note("An acknowledgement frame ends after octet 2.")
    octets.note("ack c is the bit expected next on channel c of the other direction.")
    return octets.whole()


COMMANDS = (
    ("NOP", ()),
    ("RTS", ((4, "receive socket"), (4, "send socket"), (1, "link"))),
    ("STR", ((4, "send socket"), (4, "receive socket"), (1, "size"))),
    ("CLS", ((4, "own socket"), (4, "foreign socket"))),
    ("ALL", ((1, "link"), (2, "messages"), (4, "bits"))),
    ("GVB", ((1, "link"), (1, "m/128"), (1, "b/128"))),
    ("RET", ((1, "link"), (2, "messages"), (4, "bits"))),
    ("INR", ((1, "link"),)),
    ("INS", ((1, "link"),)),
    ("ECO", ((1, "octet"),)),
    ("ERP", ((1, "octet"),)),
    ("ERR", ((1, "kind"), (10, "ten octets quoted"))),
    ("RST", ()),
    ("RRP", ()),
)


def commands() -> Drawing:
    drawing = Drawing(
        "commands",
        "The header of a message between hosts, and the fourteen commands",
        "Every message between two hosts begins with 40 bits: eight zeros, the byte size, the byte count in two octets, eight zeros. "
        "A command is a code octet and its fields. "
        + "; ".join(f"{code} {name}: {', '.join(f'{words}, {wide} octets' for wide, words in fields) or 'no fields'}" for code, (name, fields) in enumerate(COMMANDS))
        + ".",
        128 + 25 * len(COMMANDS),
    )
    drawing.text(14, 18, f"the header: {shown('header_bits')} bits before the text of every message", "ink bold", at="start")
    at = 14.0
    for wide, words, kind in ((62, "zeros", "plain"), (92, "byte size", "blue"), (140, "byte count", "blue"), (62, "zeros", "plain"), (96, "the bytes", "plain")):
        drawing.box(at, 34, wide, 26, kind, dash=words == "the bytes", round_by=2)
        drawing.text(at + wide / 2, 47, words)
        at += wide
    for at, words in ((45, "1 octet"), (122, "1"), (238, "2"), (339, "1"), (418, "size × count bits")):
        drawing.text(at, 70, words, "soft", size=12)
    drawing.text(14, 100, "the commands: a code octet, then the fields", "ink bold", at="start")
    unit = 35.5
    for code, (name, fields) in enumerate(COMMANDS):
        y = 114 + 25 * code
        drawing.text(46, y + 11, name, "ink mono", at="end")
        drawing.box(52, y, 26, 22, "blue", round_by=2)
        drawing.text(65, y + 11, str(code), "ink mono", size=12)
        at = 78.0
        for wide, words in fields:
            long = unit * min(wide, 9) if wide > 1 else 48.0
            drawing.box(at, y, long, 22, "orange" if words in ("link", "size", "kind", "octet", "m/128", "b/128") else "green", round_by=2)
            drawing.text(at + long / 2, y + 11, words, size=12)
            at += long
    return drawing


def faults() -> list[str]:
    """The commands whose drawn fields aren't as long as the reader's."""
    drawn = [1 + sum(wide for wide, _ in fields) for _, fields in COMMANDS]
    read = command_lengths()
    return [] if drawn == read else [f"drawings/formats.py: commands of {drawn} octets, and the reader has {read}"]


ALL = (leader, packet, frame, commands)
