"""A page of the site for each example: a button that opens the workbench at it, its map and chart, its script, and what it prints."""

from __future__ import annotations

import html
import os
import re
from collections.abc import Iterator

from dorydate.drawing import SIZE
from dorydate.drawing import drawn as map_of
from dorydate.explain.charts import short_chart
from dorydate.explain.command import drawn
from dorydate.explain.runs import CannotTell, replay
from dorydate.explain.topology import network_by
from dorydate.given import Input
from dorydate.program import Program
from dorydate.state import State
from workshop.builds.site_charts import drawn as chart_of
from workshop.builds.site_pages import Page
from workshop.parts import ROOT, text_of
from workshop.wasm.pack import examples_in

MOST_ROWS, MOST_LANES = 80, 12  # of a chart
MOST_IMPS = 16  # of a map
ENDINGS = {"stdout": "It prints", "stderr": "It is refused"}


def shortened(chart: str) -> tuple[str, int]:
    """A chart with as many rows as are shown, and how many it leaves out."""
    lines = chart.split("\n")
    begin = 1 + sum(it.strip().startswith("participant ") for it in lines)
    return "\n".join(lines[: begin + MOST_ROWS]), max(len(lines) - begin - MOST_ROWS, 0)


def chart_part(given: Input, program: Program) -> Iterator[str]:
    """The chart of a replay; nothing of an input that is refused, or that has too many hosts."""
    try:
        found = replay(given, program)
    except CannotTell:
        return
    chart, left = shortened(drawn(given, found, short_chart))
    if found.status or "->>" not in chart or chart.count("participant ") > MOST_LANES:
        return
    yield f'<h2>What crosses</h2>\n<div class="chart">{chart_of(chart)}</div>'
    if left:
        yield f'<p class="said">{left} more are left out; the workbench has them.</p>'


def map_part(given: Input) -> Iterator[str]:
    network = network_by(given)
    if network and len(network.imps) <= MOST_IMPS:
        picture = map_of(network, State(network, {}))
        if len(network.imps) <= 2:  # they are side by side, in the middle
            picture = picture.replace(
                f'viewBox="0 0 {SIZE} {SIZE}" width="{SIZE}" height="{SIZE}"',
                f'viewBox="0 {SIZE // 2 - 40} {SIZE} 90" width="{SIZE}" height="90"',
            )
        yield f'<h2>The network</h2>\n<div class="picture">{picture}</div>'


def printed_part(name: str) -> Iterator[str]:
    for ending, words in ENDINGS.items():
        path = f"{ROOT}/examples/{name}.{ending}"
        if os.path.exists(path) and (text := text_of(path)):
            yield f"<h2>{words}</h2>\n<pre><code>{html.escape(text)}</code></pre>"


def command_of(name: str) -> str:
    """How the program is called on it."""
    path = f"{ROOT}/examples/{name}.args"
    return " ".join(["./arpasim", *(text_of(path).split() if os.path.exists(path) else []), f"&lt; examples/{name}"])


def body_of(example: dict[str, str], program: Program | None, in_lessons: bool) -> str:
    """The page's body."""
    name, given = example["name"], Input(example["text"].encode())
    lines = "".join(f"<span>{html.escape(it)}</span>\n" for it in example["text"].rstrip("\n").split("\n"))
    lessons = ' <a href="../docs/lessons.html">The lessons</a> explain it.' if in_lessons else ""
    parts = [
        f"<h1>{html.escape(example['title'])}</h1>",
        f'<p><a class="open" href="../dorydate.html#e={name}">Open in the workbench</a></p>',
        f"<p><code>{command_of(name)}</code> replays it at a command line.{lessons}</p>",
        *map_part(given),
        *(chart_part(given, program) if program else []),
        f'<h2>The script</h2>\n<pre class="lines">{lines}</pre>',
        *printed_part(name),
    ]
    return "\n".join(parts)


def example_pages(program: Program | None) -> list[Page]:
    """The pages of all examples, and the list of them."""
    named = {*re.findall(r"\]\(\.\./examples/([a-z0-9-]+)\)", text_of(f"{ROOT}/docs/lessons.md"))}
    examples = examples_in(f"{ROOT}/examples")
    rows = "\n".join(f'<li><a href="{it["name"]}.html">{html.escape(it["title"])}</a></li>' for it in examples)
    pages = [
        Page(f"examples/{it['name']}.html", it["title"], body_of(it, program, it["name"] in named)) for it in examples
    ]
    return [Page("examples/index.html", "Examples", f"<h1>Examples</h1>\n<ul>\n{rows}\n</ul>"), *pages]
