"""A slide as SVG: the map of a network after an event, and beside it the chart of what crossed last."""

from __future__ import annotations

import html
from collections.abc import Callable, Sequence
from typing import NamedTuple

from dorydate.drawing import SIZE, drawn
from dorydate.export.replayed import Happened, Line, Replayed
from dorydate.sentences import texts as decode
from dorydate.network import Host, Network
from dorydate.script import Flow, Text
from dorydate.state import State

WIDTH, HEIGHT = 1280, 720
TOP, ROW, ROWS = 120, 30, 18  # of the chart: where it begins, the height of a row, and how many there are
LEFT, RIGHT = 600, 1240  # of the chart
COLOURS = {"rfnm": "#2a7", "dead": "#b00", "incomplete": "#b60", "nottaken": "#b60"}  # of answers
HEAD = (
    f'<svg xmlns="http://www.w3.org/2000/svg" viewBox="0 0 {WIDTH} {HEIGHT}" width="{WIDTH}" height="{HEIGHT}" '
    'font-family="system-ui, sans-serif" font-size="14" role="img" aria-label="{}">'
)


class Row(NamedTuple):
    """A row of the chart: an arrow from one host to another, or words at one host."""

    words: str
    source: str
    destination: str = ""
    colour: str = "#333"
    is_back: bool = False  # an answer
    share: tuple[float, float] = (0.0, 1.0)  # of the way from one lane to the other: where it begins and ends


def rows_of(lines: Sequence[Line], is_raw: bool) -> list[Row]:
    """The rows of printed lines: a message at its taking or, if it is never taken, where it goes out; answers; and who stops or starts.

    A message that is not taken ends on the way, and so begins an answer that doesn't come from the other host."""
    rows: list[Row] = []
    for at, line in enumerate(lines):
        match line.words:
            case ["out" | "in" as kind, source, destination, link, bits, octets]:
                if kind == "in" or not is_taken(line.words[1:4], lines[at + 1 :]):
                    words = f"{bits} bits" if is_raw else in_words(int(link), Text.read(bits, octets))
                    rows.append(Row(f"{words}, link {link}", source, destination, share=(0.0, 1.0 if kind == "in" else 0.7)))
            case ["answer", kind, source, destination, link]:
                rows.append(Row(f"{kind}, link {link}", destination, source, COLOURS[kind], True, (0.0 if kind == "rfnm" else 0.5, 1.0)))
            case ["down" | "up" as kind, host]:
                rows.append(Row(kind, host, colour="#b00" if kind == "down" else "#2a7"))
    return rows


def in_words(link: int, said: Text, most: int = 44) -> str:
    """What the text of a host's program says, in short."""
    tell: Callable[[int, bytes, int], str] = decode.text_in_words
    words = tell(link, said.octets, said.bits)
    return words if len(words) <= most else f"{words[:most]}.."


def is_taken(flow: Sequence[str], later: Sequence[Line]) -> bool:
    """Whether the message that went out on a flow is taken by one of the later lines."""
    kinds = [it.kind for it in later if it.kind in ("out", "in") and [*it.words[1:4]] == [*flow]]
    return kinds[:1] == ["in"]


def lanes(rows: Sequence[Row], network: Network) -> dict[str, float]:
    """The place of each host's lane, in order of IMP and host."""
    hosts = sorted({it for row in rows for it in (row.source, row.destination) if it}, key=lambda it: Host.read(it).order())
    hosts = hosts or [str(it) for it in network.hosts()[:2]]
    step = (RIGHT - LEFT) / max(len(hosts), 1)
    return {host: LEFT + step * (at + 0.5) for at, host in enumerate(hosts)}


def text(x: float, y: float, words: str, **style: str) -> str:
    more = "".join(f' {key.replace("_", "-")}="{value}"' for key, value in style.items())
    return f'<text x="{x:.0f}" y="{y:.0f}"{more}>{html.escape(words)}</text>'


def row_parts(row: Row, y: float, at: dict[str, float]) -> list[str]:
    """A row of the chart."""
    x = at[row.source]
    if not row.destination or row.source == row.destination:
        return [f'<circle cx="{x:.0f}" cy="{y:.0f}" r="5" fill="{row.colour}"/>', text(x + 10, y + 5, row.words, fill=row.colour)]
    u = at[row.destination]
    begin, end = (x + (u - x) * it for it in row.share)
    dash = ' stroke-dasharray="5 4"' if row.is_back else ""
    back = -8 if u > x else 8
    tip = f"m {back} -5 l {-back} 5 l {back} 5" if row.share[1] == 1.0 else "m -5 -5 l 10 10 m 0 -10 l -10 10"
    style = f'fill="none" stroke="{row.colour}" stroke-width="1.5"'
    arrow = f'<path d="M {begin:.0f} {y:.0f} H {end:.0f}" {style}{dash}/><path d="M {end:.0f} {y:.0f} {tip}" {style}/>'
    return [arrow, text((x + u) / 2, y - 6, row.words, text_anchor="middle", fill=row.colour, font_size="12")]


def chart_parts(rows: Sequence[Row], network: Network) -> list[str]:
    """The lanes of hosts and the last rows."""
    shown = rows[-ROWS:]
    at = lanes(shown, network)
    bottom = TOP + ROW * (max(len(shown), 1) + 0.5)
    parts = [f'<line x1="{x:.0f}" y1="{TOP - 12}" x2="{x:.0f}" y2="{bottom:.0f}" stroke="#ccc"/>' for x in at.values()]
    parts += [text(x, TOP - 20, named(network, host), text_anchor="middle", font_weight="bold") for host, x in at.items()]
    for place, row in enumerate(shown, 1):
        parts += row_parts(row, TOP + ROW * place, at)
    if len(rows) > len(shown):
        parts.append(text(LEFT, HEIGHT - 20, f"the last {len(shown)} of {len(rows)} rows", fill="#777", font_size="12"))
    return parts


def named(network: Network, host: str) -> str:
    """A host with the name of its site where that is known."""
    title = network.title(Host.read(host))
    return host if title == host else f"{title} ({host})"


def unanswered(lines: Sequence[Line]) -> list[Flow]:
    """The flows whose last message has no answer."""
    waiting: dict[tuple[str, ...], bool] = {}
    for line in lines:
        if line.kind in ("out", "answer"):
            waiting[line.words[1:4] if line.kind == "out" else line.words[2:5]] = line.kind == "out"
    return [Flow.read(*flow) for flow, waits in waiting.items() if waits]


def slide(what: Replayed, state: State, step: int) -> str:
    """The slide after this many events."""
    done: Sequence[Happened] = what.events[:step]
    lines = [it for happened in done for it in happened.lines]
    title = f"Event {len(done)} of {len(what.events)}, {done[-1].said}" if done else "Before the first event"
    picture = drawn(what.network, state, unanswered(lines)).replace("<svg ", f'<svg x="40" y="{(HEIGHT - SIZE) / 2:.0f}" ', 1)
    printed = "; ".join(map(str, done[-1].lines[:3])) if done else ""
    parts = [HEAD.format(html.escape(title, quote=True)), '<rect width="100%" height="100%" fill="#fff"/>']
    parts += [text(40, 44, title[:110], font_size="22", font_weight="bold"), text(40, 72, printed[:150], fill="#555"), picture]
    return "\n".join([*parts, *chart_parts(rows_of(lines, what.network.raw), what.network), "</svg>"]) + "\n"
