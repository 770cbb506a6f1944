"""Sequence charts in Mermaid's language, as ./explain --chart writes them, drawn as SVG in the colours of the page that has them."""

from __future__ import annotations

import html
import re
import textwrap
from collections.abc import Iterator, Sequence
from typing import NamedTuple


class NotDrawn(Exception):
    """Why a chart isn't drawn."""


# pixels from one lane to the next, so that a telephone has room for two, and of a character and a line at most
LANE, CHARACTER, LINE = 164, 6.6, 17
PARTICIPANT = re.compile(r"participant (\w+) as (.+)")
ARROW = re.compile(r"(\w+)(->>|-->>|-x)(\w+): (.*)")
NOTE = re.compile(r"Note over (\w+): (.*)")


class Row(NamedTuple):
    """An arrow between two lanes, or a note over one."""

    source: str
    destination: str
    words: str
    kind: str  # `->>`, `-->>` and `-x` as Mermaid has them, or `note`

    def lines(self, at: Sequence[str]) -> list[str]:
        """Its words in lines that have room."""
        lanes = max(abs(at.index(self.source) - at.index(self.destination)), 1)
        return textwrap.wrap(self.words, int((LANE * lanes - 16) / CHARACTER)) or [""]


def unescaped(text: str) -> str:
    """A text as Mermaid shows it."""
    return re.sub(r"#(\d+);", lambda found: chr(int(found[1])), text)


def read(chart: str) -> tuple[dict[str, str], list[Row]]:
    """The lanes of a chart with their names, and its rows."""
    first, *lines = [it.strip() for it in chart.strip().split("\n")]
    if first != "sequenceDiagram":
        raise NotDrawn(f"only sequence charts are drawn, and this one begins with {first}")
    lanes: dict[str, str] = {}
    rows: list[Row] = []
    for line in lines:
        if found := PARTICIPANT.fullmatch(line):
            lanes[found[1]] = unescaped(found[2])
        elif found := ARROW.fullmatch(line):
            rows.append(Row(found[1], found[3], unescaped(found[4]), found[2]))
        elif found := NOTE.fullmatch(line):
            rows.append(Row(found[1], found[1], unescaped(found[2]), "note"))
        else:
            raise NotDrawn(f"a chart has the line {line}")
    if unknown := {it for row in rows for it in (row.source, row.destination)} - {*lanes}:
        raise NotDrawn(f"a chart has no participant {min(unknown)}")
    return lanes, rows


def words(x: float, y: float, lines: Sequence[str]) -> Iterator[str]:
    """Lines of text, one below the other, in the middle of a place."""
    for number, line in enumerate(lines):
        yield f'<text x="{x:g}" y="{y + LINE * number:g}" text-anchor="middle">{html.escape(line)}</text>'


def arrow(row: Row, x: float, to: float, y: float) -> Iterator[str]:
    """An arrow; one that is lost ends in a cross before the lane."""
    way = 1 if to > x else -1
    if row.kind == "-x":
        to -= way * 24
        yield f'<line class="lost" x1="{x:g}" y1="{y:g}" x2="{to:g}" y2="{y:g}"/>'
        yield f'<path class="lost" d="M{to - 5:g} {y - 5:g}l10 10m0 -10l-10 10"/>'
        return
    dashes = ' stroke-dasharray="5 4"' if row.kind == "-->>" else ""
    yield f'<line x1="{x:g}" y1="{y:g}" x2="{to:g}" y2="{y:g}"{dashes}/>'
    yield f'<path class="head" d="M{to:g} {y:g}l{-way * 9} -4.5v9z"/>'


def drawn(chart: str) -> str:
    """The chart as SVG."""
    lanes, rows = read(chart)
    names = [*lanes]
    at = {it: LANE * (place + 0.5) for place, it in enumerate(names)}
    titles = {it: textwrap.wrap(name, int((LANE - 24) / CHARACTER)) for it, name in lanes.items()}
    y = 16.0 + LINE * max(map(len, titles.values()), default=1)
    top, parts = y, [it for name in names for it in words(at[name], 16, titles[name])]
    for row in rows:
        lines = row.lines(names)
        if row.source == row.destination:
            height = LINE * len(lines) + 8
            parts.append(
                f'<rect x="{at[row.source] - LANE / 2 + 6:g}" y="{y + 6:g}" width="{LANE - 12}" height="{height}" rx="4"/>'
            )
            parts += words(at[row.source], y + 21, lines)
            y += height + 6
        else:
            parts += words((at[row.source] + at[row.destination]) / 2, y + 18, lines)
            y += LINE * len(lines) + 10
            parts += arrow(row, at[row.source], at[row.destination], y)
    y += 14
    wires = [f'<line class="lane" x1="{it:g}" y1="{top:g}" x2="{it:g}" y2="{y:g}"/>' for it in at.values()]
    said = f"A sequence chart: {', '.join(lanes.values())}; {len(rows)} messages and notes"
    size = f'width="{LANE * len(names)}" height="{y:g}" viewBox="0 0 {LANE * len(names)} {y:g}"'
    return f'<svg xmlns="http://www.w3.org/2000/svg" {size} role="img" aria-label="{html.escape(said, quote=True)}">{"".join([*wires, *parts])}</svg>'
