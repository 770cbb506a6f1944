"""The repository: the layers of crates, who proves what, and the map of lessons."""

from __future__ import annotations

import os
import re
from dataclasses import dataclass

from workshop.parts import ROOT
from workshop.drawings.svg import WIDTH, Drawing, width_of


@dataclass(frozen=True)
class Layer:
    """A layer of crates.txt: its name, what it is for, and its crates with what kind each is of."""

    name: str
    purpose: str
    crates: dict[str, str]


def layers() -> list[Layer]:
    """The layers of crates.txt, from below."""
    with open(f"{ROOT}/crates.txt", encoding="utf-8") as file:
        text = file.read()
    found = []
    for name, words, lines in re.findall(r"^# (\w+): (.*)\n((?:\w+:.*\n)+)", text, re.MULTILINE):
        coded = re.search(r"((?:\w+(?:, | and )?)+) have code", words)
        named = re.findall(r"\w+", coded[1]) if coded else []
        kinds = {}
        for crate in re.findall(r"^(\w+):", lines, re.MULTILINE):
            kind = "code" if "All" in named or crate in named else "laws"
            kinds[crate] = kind
        found.append(Layer(name, words.split(". ")[0].removesuffix("."), kinds))
    return found


def purpose_of(layer: Layer) -> str:
    """What a layer is for, without what doesn't fit beside its name."""
    words = layer.purpose
    while width_of(words, 12, "soft") > WIDTH - 116 and "," in words:
        words = words.rpartition(",")[0]
    return words


KINDS = {"code": "blue", "laws": "purple"}


def layers_drawing() -> Drawing:
    """The layers, the lowest at the bottom."""
    found = layers()
    rows: list[tuple[Layer, list[list[tuple[str, float]]]]] = []
    for layer in reversed(found):
        lines: list[list[tuple[str, float]]] = [[]]
        used = 0.0
        for crate in layer.crates:
            wide = width_of(crate, 12, "mono") + 14
            if used + wide > WIDTH - 40 and lines[-1]:
                lines.append([])
                used = 0.0
            lines[-1].append((crate, wide))
            used += wide + 6
        rows.append((layer, lines))
    height = 44.0 + sum(34 + 28 * len(lines) for _, lines in rows)
    counts = {kind: sum(1 for layer in found for it in layer.crates.values() if it == kind) for kind in KINDS}
    drawing = Drawing(
        "layers",
        "The crates, in layers",
        "From the top: " + "; ".join(f"{layer.name}: {', '.join(layer.crates)}" for layer, _ in rows) + ".",
        height,
    )
    y = 8.0
    for layer, lines in rows:
        high = 28.0 + 28 * len(lines)
        drawing.box(8, y, WIDTH - 16, high, "plain", round_by=7)
        drawing.text(18, y + 14, layer.name, "ink bold", at="start")
        drawing.text(100, y + 14, purpose_of(layer), "soft", size=12, at="start")
        for at, line in enumerate(lines):
            x = 16.0
            for crate, wide in line:
                drawing.box(x, y + 25 + 28 * at, wide, 23, KINDS[layer.crates[crate]], round_by=4)
                drawing.text(x + wide / 2, y + 36.5 + 28 * at, crate, "ink mono", size=12)
                x += wide + 6
        y += high + 6
    for x, kind, words in ((16, "code", "with code"), (180, "laws", "laws only")):
        drawing.box(x, y + 8, 16, 16, KINDS[kind], round_by=3)
        drawing.text(x + 22, y + 16, f"{words}: {counts[kind]}", "soft", at="start")
    return drawing


# what of the promise is proved where: the law over definitions, the crate in which code keeps it, and where it holds of every world
PROOFS = (
    ("messages", "taken whole, exactly once", (("flow_law",), ("imp_node", "subnet"), ("net_sim",))),
    ("resets", "nothing of an older contact", (("reset_law",), ("host_pairs", "sockets"), ("net_sim",))),
    ("partners", "one opening, one partner", (("pairing_law",), ("host_keeps_pairing",), ("world_keeps_pairing",))),
    ("streams", "what is taken is a prefix", (("stream_law",), ("host_keeps_streams", "pair_keeps_streams"), ("world_keeps_streams",))),
    ("grants", "within what was granted", (("stream_law",), ("host_keeps_streams",), ("world_keeps_lives", "world_keeps_streams"))),
    ("connections", "four sockets, rightly paired", (("pairing_law",), ("host_keeps_pairing",), ("world_keeps_connections",))),
)


def proofs() -> Drawing:
    drawing = Drawing(
        "proofs",
        "Who proves what",
        "; ".join(f"{name} ({means}): law in {', '.join(law)}, kept by code in {', '.join(kept)}, of every world in {', '.join(world)}" for name, means, (law, kept, world) in PROOFS)
        + ". All of it meets in headline, whose call book_of has the promise, and command_line prints what that book says.",
        92 + 72 * len(PROOFS),
    )
    for x, words in ((59, "the law"), (199, "the code keeps it"), (381, "in every world")):
        drawing.text(x, 16, words, "ink bold")
    for at, (name, means, columns) in enumerate(PROOFS):
        y = 30 + at * 72
        drawing.text(14, y + 10, name, "ink bold", at="start")
        drawing.text(122, y + 10, means, "soft", at="start")
        for x, wide, crates, kind in ((10, 98, columns[0], "purple"), (128, 142, columns[1], "blue"), (290, 182, columns[2], "green")):
            drawing.box(x, y + 22, wide, 38, kind)
            drawing.lines(x + wide / 2, y + 41, list(crates), "ink mono", size=12)
        drawing.arrow(109, y + 41, 126, y + 41)
        drawing.arrow(271, y + 41, 288, y + 41)
    y = 36 + 72 * len(PROOFS)
    drawing.path(f"M464 {y - 12:g}L464 {y + 20:g}L428 {y + 20:g}", "green")
    drawing.label(150, y, 276, 44, ["headline: the promise of every book", "command_line: what is printed of it"], "green")
    return drawing


# the lines of the map: a heading of docs/lessons.md, and its colour
LINES = (
    ("For a class", "orange"),
    ("Lessons in a subnet", "blue"),
    ("Lessons of hosts with their programs", "green"),
    ("The first network, and its first message", "red"),
    ("A grown network", "red"),
    ("Lessons of services", "purple"),
    ("Lessons among strangers", "red"),
)


def lessons() -> list[tuple[str, str, list[str]]]:
    """The lines of the map: a heading of docs/lessons.md, a colour, and the lessons of its list; of the class those of the hour."""
    with open(f"{ROOT}/docs/lessons.md", encoding="utf-8") as file:
        text = file.read()
    found = []
    for heading, colour in LINES:
        part = text.partition(f"\n## {heading}\n")[2].partition("\n## ")[0]
        cells = r"^\| \d+ \| \[([\w-]+)\]" if heading == "For a class" else r"^- \*\*\[([\w-]+)\]\(\.\./examples"
        found.append((heading, colour, re.findall(cells, part, re.MULTILINE)))
    return found


def lessons_drawing() -> Drawing:
    found = lessons()
    hour = found[0][2]
    stops = sum(len(names) for _, _, names in found)
    drawing = Drawing(
        "lessons",
        "The map of lessons",
        "; ".join(f"{heading}: {', '.join(names)}" for heading, _, names in found) + ". Orange stops are those of the hour for a class.",
        10.0 + 21 * stops + 40 * len(found),
    )
    y, trunk = 10.0, 0.0
    for heading, colour, names in found:
        words = "An hour for a class, in this order" if colour == "orange" else heading
        drawing.text(60, y + 12, words, f"{colour}-text bold", size=14, at="start")
        top = y + 33
        trunk = top - 20
        drawing.path(f"M14 {trunk:g}Q14 {top:g} 30 {top:g}", colour, head=False)
        drawing.path(f"M36 {top:g}L36 {top + 21 * (len(names) - 1):g}", colour, head=False)
        for at, name in enumerate(names):
            drawing.circle(36, top + 21 * at, 6, "orange" if name in hour else colour)
            drawing.text(60, top + 21 * at, name, "ink", size=13, at="start")
        y = top + 21 * len(names) + 7 - 21 + 12
    drawing.arrow(14, 12, 14, trunk, "plain", head=False)
    drawing.height = y + 2
    return drawing


def faults() -> list[str]:
    """Crates that are drawn and don't exist, and lessons that aren't there."""
    crates = {it for layer in layers() for it in layer.crates}
    drawn = {it for _, _, columns in PROOFS for column in columns for it in column} | {"headline", "command_line"}
    missing = [f"drawings/repository.py: no crate {it}" for it in sorted(drawn - crates)]
    with open(f"{ROOT}/crates.txt", encoding="utf-8") as file:
        named = set(re.findall(r"^(\w+):", file.read(), re.MULTILINE))
    missing += [f"drawings/repository.py: {it} is in no layer of crates.txt" for it in sorted(named - crates)]
    missing += [f"drawings/repository.py: docs/lessons.md has no lessons under `{heading}`" for heading, _, names in lessons() if not names]
    return missing + [f"drawings/repository.py: no example {it}" for _, _, names in lessons() for it in names if not os.path.exists(f"{ROOT}/examples/{it}")]


ALL = (layers_drawing, proofs, lessons_drawing)
