"""The network: its sites, its levels, one IMP, the channels of a line, the window, and one message through all of it."""

from __future__ import annotations

from math import cos, hypot, radians, sin

from workshop.drawings.facts import shown, value
from workshop.drawings.svg import Drawing


def network() -> Drawing:
    drawing = Drawing(
        "network",
        "A network: hosts at IMPs, and lines between IMPs",
        "The four sites of December 1969. UCLA is IMP 1, SRI 2, UCSB 3 and UTAH 4, each with one host. Lines join UCLA and SRI, UCLA and UCSB, SRI and UCSB, SRI and UTAH. "
        "A message from the host at UTAH goes over SRI to the host at UCLA.",
        304,
    )
    places = {"SRI": (170, 92, "2"), "UTAH": (400, 92, "4"), "UCSB": (80, 212, "3"), "UCLA": (270, 212, "1")}
    hosts = {"SRI": (170, 26), "UTAH": (400, 26), "UCSB": (80, 278), "UCLA": (270, 278)}
    for one, other in (("UCLA", "SRI"), ("UCLA", "UCSB"), ("SRI", "UCSB"), ("SRI", "UTAH")):
        (x1, y1, _), (x2, y2, _) = places[one], places[other]
        long = hypot(x2 - x1, y2 - y1)
        dx, dy = 28 * (x2 - x1) / long, 28 * (y2 - y1) / long
        drawing.arrow(x1 + dx, y1 + dy, x2 - dx, y2 - dy, "plain", head=False)
    drawing.path("M372 78L206 78", "blue")
    drawing.path("M202 112L254 176", "blue")
    drawing.text(287, 64, "a packet, line by line", "blue-text")
    for name, (x, y, number) in places.items():
        host_x, host_y = hosts[name]
        toward = 1 if host_y > y else -1
        drawing.arrow(x, y + 28 * toward, host_x, host_y - 14 * toward, "plain", head=False)
        drawing.circle(x, y, 28, "green")
        drawing.lines(x, y, ["IMP", number], "ink bold")
        drawing.label(host_x - 36, host_y - 14, 72, 28, [f"host 0/{number}"], "orange")
        at = "end" if name in ("SRI", "UCSB") else "start"
        drawing.text(x + (34 if at == "start" else -34), y, name, "soft", at=at)
    drawing.lines(398, 240, ["the host at UTAH sends", "to the host at UCLA"], "soft", size=12.5)
    return drawing


def levels() -> Drawing:
    drawing = Drawing(
        "levels",
        "Three levels: what is promised, why it holds, and the code",
        "At the top the promise: mailboxes, streams and partners, in a few definitions. In the middle machines over definitions, with laws that say why such machines keep the promise. "
        "At the bottom the code, each of whose calls is proved to do exactly what a definition says.",
        258,
    )
    rows = (
        ("green", "1. What is promised", "mailboxes, and a safe book of connections:", "no packet, route or number occurs in it"),
        ("blue", "2. Machines, and why they keep it", "each flow, reset and stream as a small machine:", "laws over every list of events"),
        ("purple", "3. The code", "each call does exactly what a definition says:", "its contract, proved"),
    )
    for at, (kind, head, first, second) in enumerate(rows):
        y = 10 + at * 84
        drawing.box(20, y, 440, 66, kind)
        drawing.text(240, y + 15, head, "ink bold", size=14)
        drawing.lines(240, y + 42, [first, second], "soft", size=12.5)
        if at:
            drawing.arrow(240, y - 1, 240, y - 17, "plain")
    return drawing


def imp() -> Drawing:
    drawing = Drawing(
        "imp",
        "The inside of an IMP",
        "Hosts are above, lines below. On the way out a message gets the next number of its flow and is cut into one to eight packets, which go to the store. "
        "On the way in a packet for a host here is judged by its number, waits in one of eight slots until its message is whole, and the message waits in the host's queue of sixteen. "
        "The store and the channels together hold at most 32 packets. Each line has eight channels. The table of routes says on which line a packet leaves.",
        494,
    )
    for host in range(value("most_hosts")):
        drawing.label(30 + host * 108, 8, 96, 28, [f"host {host}"], "orange")
    drawing.box(12, 62, 456, 356, "plain", round_by=10)
    drawing.arrow(130, 36, 130, 82)
    drawing.arrow(350, 82, 350, 38)
    drawing.label(34, 84, 192, 56, ["source of a flow", "the number begun last,", "answered or not"], "green", soft_after=1)
    drawing.label(34, 164, 192, 46, ["cut", f"1 to {shown('most_pieces')} pieces, ≤ {shown('piece_bits')} bits"], "green", soft_after=1)
    drawing.label(254, 84, 192, 46, ["queue of each host", f"{shown('queue_places')} messages, and answers"], "blue", soft_after=1)
    drawing.label(254, 150, 192, 46, [f"{shown('most_slots')} slots", "where messages are joined"], "blue", soft_after=1)
    drawing.label(254, 216, 192, 56, ["destination of a flow", "the number noted last:", "is this one new?"], "blue", soft_after=1)
    drawing.arrow(130, 140, 130, 162)
    drawing.arrow(130, 210, 130, 290)
    drawing.arrow(350, 150, 350, 132)
    drawing.arrow(350, 216, 350, 198)
    drawing.arrow(420, 362, 420, 274)
    drawing.path("M252 107L240 107L240 252L190 252L190 290", "orange", dash=True)
    drawing.text(184, 238, "RFNM", "orange-text", at="start")
    drawing.label(34, 292, 192, 54, ["store", "with the channels", f"at most {shown('store_places')} packets"], "purple", soft_after=1)
    drawing.label(254, 296, 140, 46, ["routes", "which line to take"], "red", soft_after=1)
    drawing.arrow(252, 319, 228, 319)
    for port in range(3):
        x = 34 + port * 143
        drawing.label(x, 362, 126, 44, [f"port {port}", f"{shown('channels')} channels"], "purple", soft_after=1)
        drawing.arrow(x + 44, 407, x + 44, 446)
        drawing.arrow(x + 82, 446, x + 82, 408)
        drawing.text(x + 63, 458, "line", "soft", size=12.5)
    drawing.arrow(130, 346, 130, 360)
    drawing.text(240, 480, f"up to {shown('most_lines')} lines; a packet for elsewhere goes from its port to the store", "soft", size=12.5)
    return drawing


def channels() -> Drawing:
    drawing = Drawing(
        "channels",
        "The eight channels of a line, one way",
        "Each of the eight channels has a bit at the sender and an expected bit at the receiver. A channel is free where both bits are equal; a packet waits on it that wasn't given yet where both are equal and it is busy; "
        "it was given where the receiver expects the other bit. Each frame in the other direction brings the eight expected bits back, and frees a channel whose packet has another bit.",
        358,
    )
    drawing.lines(96, 22, ["sender", "packet and bit"], "ink bold")
    drawing.lines(384, 22, ["receiver", "bit expected"], "ink bold")
    rows = (("A", 0, 1), ("B", 1, 1), ("C", 0, 0), (None, 1, 1), ("D", 1, 0), (None, 0, 0), (None, 0, 0), (None, 1, 1))
    for channel, (packet, bit, expected) in enumerate(rows[: value("channels")]):
        y = 44 + channel * 30
        state = "plain" if packet is None else ("green" if bit != expected else "orange")
        drawing.text(24, y + 12, str(channel), "soft mono")
        drawing.box(40, y, 74, 24, state, round_by=3)
        drawing.text(77, y + 12, f"packet {packet}" if packet else "free", size=12.5)
        drawing.box(118, y, 30, 24, state, round_by=3)
        drawing.text(133, y + 12, str(bit), "ink mono")
        if packet is None:
            drawing.arrow(156, y + 12, 360, y + 12, "plain", dash=True, head=False)
        else:
            drawing.arrow(156, y + 12, 360, y + 12, state)
        drawing.box(368, y, 30, 24, state, round_by=3)
        drawing.text(383, y + 12, str(expected), "ink mono")
    drawing.path("M383 290L383 306L133 306L133 292", "blue")
    drawing.text(258, 318, f"{shown('channels')} expected bits in every frame back", "blue-text", size=12.5)
    for x, words, kind in ((20, "waits, not given yet", "orange"), (180, "given: the bit back frees it", "green"), (378, "free", "plain")):
        drawing.box(x, 334, 16, 14, kind, round_by=3)
        drawing.text(x + 22, 341, words, "soft", size=12, at="start")
    return drawing


def window() -> Drawing:
    numbers, wide = value("message_numbers"), value("window")
    drawing = Drawing(
        "window",
        "The window on the circle of message numbers",
        f"There are {numbers:,} numbers on a circle, and the destination keeps the one that it noted last. A number 1 to {wide:,} steps ahead of it is new. The kept number itself, and those 1 to {wide:,} steps behind it, are old. "
        f"One number is left, {numbers - wide - 1:,} steps away: it counts as old.",
        394,
    )
    x, y, radius = 240.0, 192.0, 142.0

    def point(degrees: float, at: float = radius) -> tuple[float, float]:
        return x + at * sin(radians(degrees)), y - at * cos(radians(degrees))

    def arc(start: float, end: float, kind: str) -> None:
        (x1, y1), (x2, y2) = point(start), point(end)
        drawing.parts.append(f'<path class="stroke {kind}-line" style="stroke-width:14" d="M{x1:.1f} {y1:.1f}A{radius:g} {radius:g} 0 0 {1 if end > start else 0} {x2:.1f} {y2:.1f}"/>')

    arc(6, 174, "green")
    arc(-6, -174, "orange")
    drawing.circle(*point(0), 9, "blue")
    drawing.circle(*point(180), 7, "plain")
    drawing.text(x, 24, "the number noted last", "ink bold")
    drawing.lines(x + 66, y, ["new", f"1 to {wide:,}", "steps ahead"], "green-text")
    drawing.lines(x - 66, y, ["old", f"1 to {wide:,}", "steps behind"], "orange-text")
    drawing.text(x, 362, f"{numbers - wide - 1:,} steps away: counts as old", "soft")
    drawing.text(x, 380, f"{numbers:,} numbers in all", "soft", size=12)
    (hx, hy), (tx, ty) = point(32, radius - 22), point(14, radius - 22)
    drawing.arrow(tx, ty, hx, hy, "green")
    drawing.text(x + 40, y - 84, "next", "soft", size=12)
    return drawing


def message() -> Drawing:
    drawing = Drawing(
        "message",
        "One typed line through all of it",
        "A terminal at host 0/1 types a line. The host's program queues its octets on a socket and offers a message to the mailbox. The source's IMP numbers it, cuts it into packets and sends frames over lines. "
        "The destination's IMP joins the packets. The host takes the message from the mailbox, its program finds the socket, and the echo service gets the octets. An RFNM goes back the same way.",
        430,
    )
    rows = (
        (("terminal", "types a line"), ("echo service", "gets the octets"), "orange"),
        (("host's program", "queues it, waits for a grant"), ("host's program", "finds the socket"), "orange"),
        (("source's IMP", "numbers it, cuts packets"), ("destination's IMP", "joins packets: new? whole?"), "green"),
    )
    for column, x in enumerate((14, 260)):
        for at, (left, right, kind) in enumerate(rows):
            drawing.label(x, 34 + at * 118, 206, 54, [*(left, right)[column]], kind, soft_after=1)
    drawing.text(117, 16, "host 0/1", "ink bold")
    drawing.text(363, 16, "host 0/2", "ink bold")
    drawing.arrow(100, 88, 100, 150)
    drawing.text(108, 120, "HELLO, CR, LF", "soft mono", size=12, at="start")
    drawing.arrow(100, 206, 100, 268)
    drawing.arrow(346, 268, 346, 208)
    drawing.arrow(346, 150, 346, 90)
    drawing.text(354, 120, "arrived", "soft mono", size=12, at="start")
    drawing.arrow(14, 237, 466, 237, "blue", dash=True, head=False)
    drawing.text(108, 222, "out", "soft mono", size=12, at="start")
    drawing.text(354, 222, "in", "soft mono", size=12, at="start")
    drawing.text(223, 228, "the mailbox", "blue-text", size=12.5)
    drawing.path("M117 325L117 376L363 376L363 327", "plain")
    drawing.lines(240, 354, ["frames over lines,", "again until acknowledged"], "soft", size=12.5)
    drawing.path("M400 325L400 402L80 402L80 327", "red", dash=True)
    drawing.text(240, 416, "RFNM: taken. Only now may the next message go", "red-text", size=12.5)
    return drawing


ALL = (network, levels, message, imp, channels, window)
