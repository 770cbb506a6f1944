"""docs/measured/planted.md: the planted bugs of each crate, and when each was last refused.

The counts come from the folders, and the days from docs/measured/planted.json, into which `./check edits --note` writes:
of each planted bug the day on which it was last refused, and the digest of its text then. One whose text has changed
since counts as not tried.
"""

from __future__ import annotations

import json
import os
import threading
from collections.abc import Iterator, Sequence
from datetime import date

from workshop.checks.planting import Edit, edits_of
from workshop.drawings.repository import layers
from workshop.parts import ROOT

PAGE = f"{ROOT}/docs/measured/planted.md"
BY_ITSELF = "\n## Bodies that `rt plant` makes\n"
RESULTS = f"{ROOT}/docs/measured/planted.json"
HEAD = (
    "# Planted bugs\n\n`./check docs --write` makes this page. Refused counts the bugs that `./check edits --note` saw refused "
    "at goals of their own functions, with the text that they have now. [What it means](../PLANTED.md).\n\n"
    "| Crate | Planted bugs | of these tried by the gate | Refused | First | Last |\n"
    "|---|---|---|---|---|---|\n"
)
UNTRIED = "\nNot seen refused:\n\n"
NOTING = threading.Lock()  # several crates are tried at once
# of each crate its planted bugs, each with the day on which it was refused and the digest of its text
Results = dict[str, dict[str, tuple[str, str]]]


def results() -> Results:
    if not os.path.exists(RESULTS):
        return {}
    with open(RESULTS, encoding="utf-8") as file:
        read: dict[str, dict[str, list[str]]] = json.load(file)
    return {crate: {name: (day, digest) for name, (day, digest) in found.items()} for crate, found in read.items()}


def write_results(found: Results) -> None:
    """Writes a line for each planted bug."""
    crates = []
    for crate in sorted(found):
        lines = ",\n".join(f"  {json.dumps(name)}: {json.dumps(found[crate][name])}" for name in sorted(found[crate]))
        crates.append(f" {json.dumps(crate)}: {{\n{lines}\n }}")
    with open(RESULTS, "w", encoding="utf-8") as file:
        file.write("{\n" + ",\n".join(crates) + "\n}\n")


def note(crate: str, refused: Sequence[Edit], failed: Sequence[Edit] = ()) -> None:
    """Writes down which planted bugs of a crate were refused today, and which weren't. Those that are gone go."""
    today, there = date.today().isoformat(), {it.title for it in edits_of(crate)}
    gone = {it.title for it in failed}
    with NOTING:
        found = results()
        noted = found.get(crate, {}) | {it.title: (today, it.digest) for it in refused}
        found[crate] = {name: kept for name, kept in noted.items() if name in there and name not in gone}
        write_results(found)
        write()


def untried(crate: str, found: Results) -> list[str]:
    """The planted bugs of a crate that weren't refused in the words that they have now."""
    known = found.get(crate, {})
    return [it.title for it in edits_of(crate) if known.get(it.title, ("", ""))[1] != it.digest]


def row(crate: str, found: Results) -> tuple[list[int], list[str]]:
    """What the page has of a crate: its counts, and the first and the last day."""
    edits, left = edits_of(crate), untried(crate, found)
    days = sorted(found[crate][it.title][0] for it in edits if it.title not in left)
    counts = [len(edits), sum(it.is_of_gate for it in edits), len(days)]
    return counts, [days[0], days[-1]] if days else ["", ""]


def page() -> str:
    rows, sums, left = [], [0, 0, 0], []
    found = results()
    for crate in (it for layer in layers() for it in layer.crates):
        numbers, days = row(crate, found)
        if any(numbers):
            sums = [one + other for one, other in zip(sums, numbers)]
            rows.append(f"| `{crate}` | {' | '.join([*(str(it or '') for it in numbers), *days])} |")
            if names := untried(crate, found):
                left.append(f"- `{crate}`: {', '.join(f'`{it}`' for it in names)}\n")
    table = "\n".join(rows) + f"\n| all | {' | '.join(map(str, sums))} | | |\n"
    return HEAD + table + (UNTRIED + "".join(left) if left else "")


def stored() -> str:
    """The page as it is."""
    if not os.path.exists(PAGE):
        return ""
    with open(PAGE, encoding="utf-8") as file:
        return file.read()


def write() -> None:
    """Writes the page, and leaves on it what `rt plant` made, which is written by hand."""
    text = page()
    _, heading, rest = stored().partition(BY_ITSELF)
    with open(PAGE, "w", encoding="utf-8") as file:
        file.write(text + heading + rest)


def faults_of(crate: str, found: Results, stored: str) -> Iterator[str]:
    """What is wrong with the planted bugs of a crate, and with what the page has of them."""
    again = "(./check docs --write)"
    edits = edits_of(crate)
    if f"| `{crate}` |" not in stored:
        yield f"docs/measured/planted.md: no row of {crate} {again}"
    for edit in edits:
        if edit.applied({}) is None:
            yield f"crates/{crate}/wrong-bodies/{edit.name}: what it replaces isn't once in its file"
    for title in found.get(crate, {}).keys() - {it.title for it in edits}:
        yield f"docs/measured/planted.json: {crate} has no planted bug {title} {again}"
    for title in untried(crate, found):
        if f"`{title}`" not in stored:
            yield f"docs/measured/planted.md: {crate}/{title} isn't there {again}"


def faults() -> list[str]:
    """Crates and planted bugs that the page lacks, bugs that don't fit the sources, and results of bugs that are gone. How
    many each crate has changes with every new bug, and isn't compared."""
    found = results()
    crates = [it for layer in layers() for it in layer.crates if any(row(it, found)[0])]
    return [fault for it in crates for fault in faults_of(it, found, stored())]
