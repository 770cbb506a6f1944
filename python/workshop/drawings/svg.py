"""One style for all drawings: boxes, texts and arrows as SVG, light and dark, legible at the width of a telephone.

A drawing is 480 units wide, and no text is smaller than 12, so that on a telephone of 360 points it has 9 points at least.
"""

from __future__ import annotations

import re
from dataclasses import dataclass, field
from html import escape

WIDTH = 480
SMALLEST = 12.0

# what each class looks like in light and in dark: the line or letter, and the filling
COLOURS = {
    "plain": ("#59636e", "#f3f5f7", "#7d8590", "#21262d"),
    "blue": ("#0969da", "#ddf0ff", "#58a6ff", "#12283f"),
    "green": ("#1a7f37", "#dafbe1", "#3fb950", "#12301d"),
    "orange": ("#bc4c00", "#ffeedd", "#f0883e", "#3a2512"),
    "purple": ("#8250df", "#f6ebff", "#bc8cff", "#2b1d44"),
    "red": ("#cf222e", "#ffebe9", "#ff7b72", "#3d1518"),
}
INK, SOFT, PAPER = ("#1f2328", "#e6edf3"), ("#4a525b", "#aab2bc"), ("#ffffff", "#0d1117")


def style() -> str:
    """The style sheet that all drawings have."""
    light: list[str] = []
    dark: list[str] = []
    for name, (line, fill, dark_line, dark_fill) in COLOURS.items():
        for into, stroke, inside in ((light, line, fill), (dark, dark_line, dark_fill)):
            into += [f".{name}{{stroke:{stroke};fill:{inside}}}", f".{name}-line{{stroke:{stroke}}}", f".{name}-text,.{name}-head{{fill:{stroke}}}"]
    for into, at in ((light, 0), (dark, 1)):
        into += [f".ink{{fill:{INK[at]}}}", f".soft{{fill:{SOFT[at]}}}", f".paper{{fill:{PAPER[at]}}}"]
    fixed = "text{font-family:system-ui,-apple-system,'Segoe UI',Roboto,'Helvetica Neue',Arial,'DejaVu Sans',sans-serif}"
    fixed += ".mono{font-family:ui-monospace,SFMono-Regular,Menlo,Consolas,'DejaVu Sans Mono',monospace}"
    fixed += ".bold{font-weight:600}.stroke{fill:none;stroke-width:1.6}.dash{stroke-dasharray:5 4}rect,circle{stroke-width:1.3}.none{stroke:none}"
    return f"{fixed}{''.join(light)}@media(prefers-color-scheme:dark){{{''.join(dark)}}}"


@dataclass
class Text:
    """A text that was drawn, with the room that it takes by a careful estimate."""

    words: str
    left: float
    right: float
    top: float
    bottom: float

    def overlaps(self, other: Text) -> bool:
        return self.left < other.right and other.left < self.right and self.top < other.bottom and other.top < self.bottom

    def is_crossed(self, segment: tuple[float, float, float, float]) -> bool:
        """Whether a line runs through the text: looked at in steps of two units."""
        x1, y1, x2, y2 = segment
        steps = 1 + int(max(abs(x2 - x1), abs(y2 - y1)) / 2)
        return any(self.left < x1 + (x2 - x1) * it / steps < self.right and self.top < y1 + (y2 - y1) * it / steps < self.bottom for it in range(steps + 1))


def width_of(words: str, size: float, kind: str) -> float:
    """How wide a text is at most, in fonts as wide as DejaVu Sans."""
    if "mono" in kind:
        return 0.602 * size * len(words)
    narrow = sum(words.count(it) for it in "il.,:;'|!()[]/ jtfIr")
    broad = sum(words.count(it) for it in "mwMW@—→")
    bold = 1.08 if "bold" in kind else 1.0
    return bold * size * (0.61 * (len(words) - narrow - broad) + 0.36 * narrow + 0.9 * broad)


@dataclass
class Drawing:
    """A drawing: its name, what those read who don't see it, and what is on it."""

    name: str
    title: str
    description: str
    height: float
    parts: list[str] = field(default_factory=list)
    texts: list[Text] = field(default_factory=list)
    segments: list[tuple[float, float, float, float]] = field(default_factory=list)

    def box(self, x: float, y: float, wide: float, high: float, kind: str = "plain", *, dash: bool = False, round_by: float = 5) -> None:
        extra = " dash" if dash else ""
        self.parts.append(f'<rect class="{kind}{extra}" x="{x:g}" y="{y:g}" width="{wide:g}" height="{high:g}" rx="{round_by:g}"/>')

    def circle(self, x: float, y: float, radius: float, kind: str = "plain") -> None:
        self.parts.append(f'<circle class="{kind}" cx="{x:g}" cy="{y:g}" r="{radius:g}"/>')

    def text(self, x: float, y: float, words: str, kind: str = "ink", *, size: float = 13, at: str = "middle") -> None:
        """Writes words with their middle line at y; `at` says whether x is their start, middle or end."""
        wide = width_of(words, size, kind)
        left = x - {"start": 0.0, "middle": wide / 2, "end": wide}[at]
        self.texts.append(Text(words, left, left + wide, y - 0.42 * size, y + 0.42 * size))
        anchor = "" if at == "start" else f' text-anchor="{at}"'
        self.parts.append(f'<text class="{kind}" x="{x:g}" y="{y + 0.35 * size:g}" font-size="{size:g}"{anchor}>{escape(words)}</text>')

    def lines(self, x: float, y: float, rows: list[str], kind: str = "ink", *, size: float = 13, at: str = "middle") -> None:
        """Writes several lines, of which the middle is at y."""
        step = size * 1.3
        for row, words in enumerate(rows):
            self.text(x, y + (row - (len(rows) - 1) / 2) * step, words, kind, size=size, at=at)

    def label(self, x: float, y: float, wide: float, high: float, rows: list[str], kind: str = "plain", *, size: float = 13, dash: bool = False, mono: bool = False, soft_after: int = 99) -> None:
        """A box with lines in its middle; those from `soft_after` on are smaller and soft."""
        self.box(x, y, wide, high, kind, dash=dash)
        step = size * 1.3
        for row, words in enumerate(rows):
            soft = row >= soft_after
            face = ("soft" if soft else "ink") + (" mono" if mono and not soft else "") + (" bold" if soft_after < 99 and not soft else "")
            self.text(x + wide / 2, y + high / 2 + (row - (len(rows) - 1) / 2) * step, words, face, size=max(SMALLEST, size - 1) if soft else size)

    def path(self, d: str, kind: str = "plain", *, dash: bool = False, head: bool = True) -> None:
        """A line along a path, with a head at its end."""
        extra = " dash" if dash else ""
        end = f' marker-end="url(#{kind})"' if head else ""
        places = [(float(x), float(y)) for x, y in re.findall(r"[MLQ ]([\d.]+) ([\d.]+)", d)]
        self.segments += [(*one, *other) for one, other in zip(places, places[1:])]
        self.parts.append(f'<path class="stroke {kind}-line{extra}" d="{d}"{end}/>')

    def arrow(self, x1: float, y1: float, x2: float, y2: float, kind: str = "plain", *, dash: bool = False, head: bool = True) -> None:
        self.path(f"M{x1:g} {y1:g}L{x2:g} {y2:g}", kind, dash=dash, head=head)

    def svg(self) -> str:
        """The drawing as a file."""
        heads = "".join(
            f'<marker id="{it}" viewBox="0 0 8 8" refX="7" refY="4" markerWidth="7" markerHeight="7" markerUnits="userSpaceOnUse" orient="auto"><path class="{it}-head" d="M0 0.5L8 4L0 7.5Z"/></marker>'
            for it in COLOURS
            if any(f"url(#{it})" in part for part in self.parts)
        )
        body = "\n".join(self.parts)
        return (
            f'<svg xmlns="http://www.w3.org/2000/svg" viewBox="0 0 {WIDTH} {self.height:g}" width="640" role="img" aria-labelledby="t d">\n'
            f"<title id=\"t\">{escape(self.title)}</title>\n<desc id=\"d\">{escape(self.description)}</desc>\n"
            f"<style>{style()}</style>\n<defs>{heads}</defs>\n"
            f'<rect class="paper none" width="{WIDTH}" height="{self.height:g}" rx="8"/>\n{body}\n</svg>\n'
        )

    def faults(self) -> list[str]:
        """What a reader would stumble over: texts over texts, past the edge, or too small."""
        found = []
        for at, text in enumerate(self.texts):
            if text.left < 2 or text.right > WIDTH - 2 or text.top < 0 or text.bottom > self.height:
                found.append(f"pictures/{self.name}.svg: `{text.words}` leaves the picture")
            found += [f"pictures/{self.name}.svg: `{text.words}` and `{it.words}` overlap" for it in self.texts[:at] if text.overlaps(it)]
            found += [f"pictures/{self.name}.svg: a line runs through `{text.words}`" for it in self.segments if text.is_crossed(it)]
        sizes = [float(it) for part in self.parts for it in re.findall(r'font-size="([\d.]+)"', part)]
        return found + [f"pictures/{self.name}.svg: a text of size {it:g}" for it in sorted(set(sizes)) if it < SMALLEST]

    def numbers(self) -> set[int]:
        """The numbers that its texts name."""
        return {int(it.replace(",", "")) for text in self.texts for it in re.findall(r"(?<![\w.-])\d{1,3}(?:,\d{3})+|(?<![\w.-])\d+(?![\w.])", text.words)}
