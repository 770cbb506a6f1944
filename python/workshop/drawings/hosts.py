"""Hosts: the phases of a reset, the life of a connection's end, and the safe book."""

from __future__ import annotations

import re

from workshop.parts import ROOT
from workshop.drawings.svg import Drawing

EXAMPLE = "examples/lo-of-login"


def reset() -> Drawing:
    drawing = Drawing(
        "reset",
        "The phases of a reset",
        "A pair of hosts begins in Closed. A contact leads to Want. When the RST goes out the phase is Gone. An RFNM for it leads to Heard; if an RRP came before that RFNM, it leads back to Want. "
        "An RRP in Heard leads to Ready. An RST that comes in leads from Closed to Ready. From Ready a contact leads to Want. Another answer than RFNM leads from Gone, Heard and Ready to Closed.",
        448,
    )
    for name, x, y, kind in (("Closed", 70, 190, "plain"), ("Want", 240, 60, "orange"), ("Gone", 240, 190, "orange"), ("Heard", 240, 320, "blue"), ("Ready", 410, 190, "green")):
        drawing.label(x - 42, y - 20, 84, 40, [name], kind, size=15)
    drawing.path("M70 168L70 60L194 60", "plain")
    drawing.text(128, 48, "contact")
    drawing.path("M410 168L410 60L286 60", "plain")
    drawing.text(350, 48, "contact")
    drawing.arrow(262, 81, 262, 168)
    drawing.text(270, 125, "RST goes out", at="start")
    drawing.arrow(218, 169, 218, 82)
    drawing.lines(210, 125, ["RFNM after", "an early RRP"], at="end")
    drawing.arrow(240, 211, 240, 298)
    drawing.text(250, 255, "RFNM", at="start")
    drawing.path("M283 320L392 320L392 212", "plain")
    drawing.text(336, 308, "RRP")
    drawing.path("M197 190L114 190", "red", dash=True)
    drawing.path("M197 320L88 320L88 212", "red", dash=True)
    drawing.path("M412 211L412 360L70 360L70 212", "red", dash=True)
    drawing.path("M52 211L52 394L430 394L430 212", "plain")
    drawing.text(240, 382, "RST comes in")
    drawing.text(240, 416, "dashed: an answer other than RFNM came", "red-text", size=12.5)
    drawing.text(240, 434, "a contact leads to Want from every phase", "soft", size=12.5)
    return drawing


def end() -> Drawing:
    drawing = Drawing(
        "end",
        "The life of a connection's end",
        "An end begins when its request is queued, or when a request comes for a socket that listens. It is open once both requests have crossed. When its user closes it, a receiving end queues CLS at once, "
        "and a sending end first drains what waits. The CLS goes out, the partner's comes in, and the end is over. The partner's CLS, if it comes first, drops what waits and closes this end too. A reset or a stop ends it at once.",
        458,
    )
    states = {
        "asked": "requests are under way", "open": "bits are sent and taken", "closing": "a sender drains what waits",
        "CLS queued": "nothing more is sent", "CLS sent": "the partner's is awaited", "over": "both CLS have passed",
    }  # fmt: skip
    kinds = ("plain", "green", "orange", "orange", "orange", "plain")
    until = (
        "RTS and STR have crossed", "its user closes it", "all is sent and answered", "it goes out", "the partner's CLS",
    )  # fmt: skip
    for at, ((name, does), kind) in enumerate(zip(states.items(), kinds)):
        y = 44 + at * 70
        drawing.label(20, y, 206, 46, [name, does], kind, soft_after=1)
        if at:
            drawing.arrow(123, y - 24, 123, y - 2)
    drawing.text(20, 14, "a user asks, or a listening socket is asked", "soft", size=12, at="start")
    drawing.arrow(123, 24, 123, 42)
    for at, words in enumerate(until):
        drawing.text(133, 102 + at * 70, words, "soft", size=12, at="start")
    drawing.box(318, 114, 150, 46, "blue")
    drawing.lines(393, 137, ["user is told:", "opened"], "ink", size=12.5)
    drawing.arrow(228, 137, 316, 137, "blue")
    drawing.box(318, 394, 150, 46, "blue")
    drawing.lines(393, 417, ["user is told:", "ended"], "ink", size=12.5)
    drawing.arrow(228, 417, 316, 417, "blue")
    drawing.path("M226 122L290 122L290 277L228 277", "red", dash=True)
    drawing.lines(300, 206, ["the partner's CLS", "comes first: what", "waits is dropped"], "red-text", size=12, at="start")
    drawing.lines(300, 330, ["a reset or a stop ends", "it at once, in any state"], "soft", size=12, at="start")
    return drawing


def lives() -> dict[str, list[str]]:
    """The two lives of the first connection of the example, as its stored output has them: the words of each, by its kind."""
    with open(f"{ROOT}/{EXAMPLE}.stdout", encoding="ascii") as file:
        found: dict[str, list[str]] = {}
        for words in re.findall(r"^life (.*)$", file.read(), re.MULTILINE):
            found.setdefault("send" if " send " in words else "receive", words.split())
    return found


def book() -> Drawing:
    send, receive = lives()["send"], lives()["receive"]
    sent, taken, granted = int(send[8]) // 8, int(receive[8]) // 8, receive[9:11]
    drawing = Drawing(
        "book",
        "The safe book: two lives that match",
        f"The first connection of the example lo-of-login. The sender's life is that of socket {send[1]} at host {send[0]}, the receiver's that of socket {receive[1]} at host {receive[0]}. "
        f"The own request of each is the partner's request of the other. LOG was handed over and sent, {send[8]} bits, and LO was taken, {receive[8]} bits: a prefix. "
        f"Both are within the grant of {granted[0]} messages and {granted[1]} bits.",
        372,
    )
    drawing.box(10, 10, 216, 330, "plain", round_by=8)
    drawing.box(254, 10, 216, 330, "plain", round_by=8)
    for x, life, words in ((118, send, "the sender's life"), (362, receive, "the receiver's life")):
        drawing.text(x, 28, words, "ink bold", size=14)
        drawing.text(x, 47, f"host {life[0]}, socket {life[1]}", "soft")
    for x, life in ((22, send), (266, receive)):
        for at, words in ((0, f"own request: out at {life[4]}"), (1, f"partner's: in at {life[5]}")):
            drawing.label(x, 64 + at * 40, 192, 30, [words], "blue" if (at == 0) == (x == 22) else "green")
    drawing.path("M214 79L264 119", "blue", head=False)
    drawing.path("M266 79L216 119", "green", head=False)
    letters = "LOG"
    for at, (words, count, x) in enumerate((("handed over", sent, 22), ("sent", sent, 22), ("taken", taken, 266))):
        y = (150, 204, 204)[at]
        drawing.text(x, y + 12, words, "soft", at="start")
        for place in range(count):
            drawing.box(x + 88 + place * 28, y - 1, 26, 26, "orange", round_by=3)
            drawing.text(x + 101 + place * 28, y + 12, letters[place], "ink mono", size=14)
    drawing.arrow(150, 177, 150, 199, "orange")
    drawing.path("M196 216L248 216", "orange")
    drawing.text(22, 242, "a prefix of what was handed over", "soft", size=12, at="start")
    drawing.text(266, 242, "a prefix of what was sent", "soft", size=12, at="start")
    drawing.label(266, 272, 192, 46, [f"granted: {granted[0]} messages", f"and {granted[1]} bits"], "purple")
    drawing.arrow(362, 270, 362, 254, "purple")
    drawing.path("M264 295L118 295L118 254", "purple")
    drawing.text(118, 310, "both are within it", "soft", size=12)
    drawing.text(240, 358, f"{EXAMPLE}: the first connection", "soft", size=12)
    return drawing


def phase_faults() -> list[str]:
    """The phases that the picture and the code don't share."""
    path = f"{ROOT}/crates/ncp_control/src/phase.rt"
    with open(path, encoding="utf-8") as file:
        found = re.search(r"pub enum Phase \{(.*?)\n\}", file.read(), re.DOTALL)
    names = set(re.findall(r"^\s+([A-Z]\w+)", found[1], re.MULTILINE)) if found else set()
    drawn = {text.words for text in reset().texts} & {"Closed", "Want", "Gone", "Heard", "Ready"}
    return [] if names == drawn else [f"drawings/hosts.py: phases {sorted(drawn)}, and the code has {sorted(names)}"]


ALL = (reset, end, book)
