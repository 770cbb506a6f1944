"""A map of a network as SVG: IMPs on a ring, their lines with the frames that are live, and what is down."""

from __future__ import annotations

import html
import math
from collections import Counter
from collections.abc import Sequence

from dorydate.network import Network
from dorydate.script import Flow
from dorydate.state import State

SIZE = 460  # of the whole picture
RADIUS = 165  # of the ring
HEAD = f'<svg xmlns="http://www.w3.org/2000/svg" viewBox="0 0 {SIZE} {SIZE}" width="{SIZE}" height="{SIZE}" font-family="system-ui, sans-serif" font-size="13" role="img" aria-label="{{}}">'


def places(network: Network) -> dict[int, tuple[float, float]]:
    """The place of each IMP."""
    count = len(network.imps)
    if count == 1:
        return {network.imps[0].number: (SIZE / 2, SIZE / 2)}
    turn = {imp.number: 2 * math.pi * at / count - math.pi / 2 - (math.pi / 2 if count == 2 else 0) for at, imp in enumerate(network.imps)}
    return {number: (SIZE / 2 + RADIUS * math.cos(it), SIZE / 2 + RADIUS * math.sin(it)) for number, it in turn.items()}


def drawn(network: Network, state: State, unanswered: Sequence[Flow] = ()) -> str:
    """The map."""
    at = places(network)
    down = [imp for imp in network.imps if state.is_down(imp.number)]
    said = f"{len(network.imps)} IMPs, {len(network.lines)} lines" + (f"; down: {', '.join(map(str, down))}" if down else "")
    parts = [HEAD.format(html.escape(said, quote=True)), '<rect width="100%" height="100%" fill="#fff"/>']
    parts += [it for number in range(len(network.lines)) for it in line_parts(network, state, number, at)]
    parts += [it for imp in network.imps for it in imp_parts(network, state, imp.number, at[imp.number])]
    waiting = [f"{network.title(it.source)} to {network.title(it.destination)}, link {it.link}" for it in unanswered]
    if waiting:
        words = f"no answer yet: {'; '.join(waiting[:2])}{f' and {len(waiting) - 2} more' if len(waiting) > 2 else ''}"
        parts.append(f'<text x="{SIZE / 2}" y="{SIZE - 8}" text-anchor="middle" fill="#444">{html.escape(words)}</text>')
    return "\n".join([*parts, "</svg>"])


def line_parts(network: Network, state: State, number: int, at: dict[int, tuple[float, float]]) -> list[str]:
    """A line, dashed where an end of it is down, with how many frames are live each way."""
    line = network.lines[number]
    (x, y), (u, v) = at[line.a], at[line.b]
    is_up = state.end_is_up(line.a, number) and state.end_is_up(line.b, number)
    style = 'stroke="#333"' if is_up else 'stroke="#b00" stroke-dasharray="6 6"'
    parts = [f'<line x1="{x:.0f}" y1="{y:.0f}" x2="{u:.0f}" y2="{v:.0f}" stroke-width="2" {style}/>']
    frames = Counter(it.way for it in state.frames() if it.line == number and it.packet)
    for way, share in (("+", 0.35), ("-", 0.65)):
        if frames[way]:
            px, py = x + (u - x) * share, y + (v - y) * share
            parts.append(f'<circle cx="{px:.0f}" cy="{py:.0f}" r="9" fill="#ffd"  stroke="#860"/><text x="{px:.0f}" y="{py + 4:.0f}" text-anchor="middle" font-size="11">{frames[way]}</text>')
    return parts


def imp_parts(network: Network, state: State, number: int, at: tuple[float, float]) -> list[str]:
    """An IMP with its name, its hosts below it; crossed out where it is down."""
    x, y = at
    imp = network.imp(number)
    is_down, held = state.is_down(number), state.imp(number)
    fill = "#fdd" if is_down else "#eef4ff"
    parts = [f'<rect x="{x - 38:.0f}" y="{y - 17:.0f}" width="76" height="34" rx="5" fill="{fill}" stroke="#333" stroke-width="{1 if not is_down else 2}"/>']
    parts.append(f'<text x="{x:.0f}" y="{y - 1:.0f}" text-anchor="middle">{html.escape(str(imp)[:10])}</text>')
    count = len(held.store) + sum(map(len, held.sending)) if held else 0
    words = "down" if is_down else f"holds {count}" if count else f"IMP {number}" if imp.name else ""
    parts.append(f'<text x="{x:.0f}" y="{y + 12:.0f}" text-anchor="middle" font-size="10" fill="#555">{words}</text>')
    for host in range(imp.hosts):
        is_up = not is_down and (held is None or held.hosts[host].up)
        cx = x - 12 * (imp.hosts - 1) + 24 * host
        parts.append(f'<circle cx="{cx:.0f}" cy="{y + 28:.0f}" r="8" fill="{"#dfd" if is_up else "#fdd"}" stroke="#333"/><text x="{cx:.0f}" y="{y + 32:.0f}" text-anchor="middle" font-size="10">{host if is_up else "×"}</text>')
    return parts
