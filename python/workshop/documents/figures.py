"""Figures in prose are those of the tables that measured them, and of the sources that are counted.

A page has a figure between `<!--=NAME-->` and `<!--/-->`, which no reader of the page sees. `./check docs` compares each with what its name
says below, and `--write` puts that there. So a figure can't outlive its table.
"""

from __future__ import annotations

import glob
import os
import re
import statistics
from collections.abc import Callable, Iterator

from workshop.checks import readers
from workshop.checks.stops import dialogue
from workshop.documents.rules import read
from workshop.parts import ROOT

MARKED = re.compile(r"<!--=([^<>]*?)-->(.*?)<!--/-->")
Row = list[str]


def rows(page: str, columns: int) -> list[Row]:
    """The rows of this width in the tables of a page of docs/measured, without their heads."""
    found = [[it.strip() for it in line.strip("|").split("|")] for line in read(f"{ROOT}/docs/measured/{page}").splitlines() if line.startswith("|")]
    return [it for it in found if len(it) == columns and any(re.search(r"\d", cell) for cell in it[1:])]


def number(text: str) -> float:
    """The number that a cell begins with."""
    found = re.match(r"[\d,.]+", text)
    return float(found[0].replace(",", "")) if found else 0.0


def beside_plain() -> list[Row]:
    """The measurements beside the plain program: what is measured, network, count, then plain, proved and times for instructions, time and memory."""
    return rows("beside-plain.md", 11)


def times() -> list[float]:
    return [number(it[8]) for it in beside_plain() if it[8]]


def instructions() -> list[float]:
    return [number(it[5]) for it in beside_plain() if it[5]]


def memory() -> list[float]:
    return [number(it[10]) / number(it[9]) for it in beside_plain() if it[9] and it[10]]


def growth() -> list[float]:
    """How many times as long each measurement with ten times the count takes."""
    found: dict[tuple[str, str], list[tuple[float, float]]] = {}
    for it in beside_plain():
        found.setdefault((it[0], it[1]), []).append((number(it[2]), number(it[7])))
    return [more[1] / less[1] for several in found.values() for less in several for more in several if more[0] == 10 * less[0] and less[1]]


def traced(what: str) -> float:
    """The most times the plain run that a trace of this takes."""
    return max(number(it[3]) for it in rows("traces.md", 7) if re.search(rf"\d, {what}", it[0]))


def audited() -> list[float]:
    """The seconds that the audits of logs took."""
    return [number(it[4]) for it in rows("audit.md", 7)]


def bugs() -> int:
    return len(glob.glob(f"{ROOT}/crates/*/wrong-bodies/*.edit"))


def naming(word: str) -> int:
    """How many sources have a word."""
    paths = [it for end in ("rt", "antt") for it in glob.glob(f"{ROOT}/crates/*/**/*.{end}", recursive=True)]
    return sum(1 for it in paths if "/out/" not in it and re.search(rf"\b{word}\b", read(it)))


def gates(column: int) -> str:
    """The least and the most minutes of the gates of docs/measured/gate.md that proved everything from nothing."""
    whole = [it for it in rows("gate.md", 6) if re.match(r"`rt ci`|`\.ci/run`", it[5])]
    found = [number(it[column]) for it in whole if number(it[column])]
    return f"{min(found):.0f} to {max(found):.0f}"


def millions_a_second(has_programs: bool) -> str:
    """How many millions of octets a second each trace writes at least, in tens."""
    found = [number(it[6]) for it in rows("traces.md", 7) if (", programs" in it[0]) == has_programs]
    return f"{min(found) // 10 * 10:.0f}"


def audited_lives() -> str:
    """How many lives the logs have at most whose audit was timed, in thousands."""
    return f"{max(number(it[3]) for it in rows('audit.md', 7)) // 1_000 * 1_000:,.0f}"


def stops() -> int:
    """After how many events of its dialogue `./check stops` stops everything."""
    return len(dialogue()[1].lines)


def octet_sequences() -> int:
    """How many sequences of octets `./check readers` gives to the readers."""
    return sum(len(readers.rows_of(reader, spelled)) for reader, spelled, _ in readers.WORKED)


def searches() -> list[Row]:
    """The searches of all states that took both programs long enough. Steps a second are the columns 5 and 9."""
    return [it for it in rows("search.md", 10) if it[5] and it[9]]


def by_the_plain_program() -> list[float]:
    """The steps a second of each search by the plain program that took long enough."""
    return [number(it[-1]) for width in (10, 6) for it in rows("search.md", width) if it[-1]]


FIGURES: dict[str, Callable[[], str]] = {
    "times, median": lambda: f"{statistics.median(times()):.1f}",
    "times, most": lambda: f"{max(times()):.2f}",
    "measurements": lambda: f"{len(times())}",
    "measurements up to 1.5": lambda: f"{sum(1 for it in times() if it <= 1.5)}",
    "instructions, median": lambda: f"{statistics.median(instructions()):.2f}",
    "instructions, most": lambda: f"{max(instructions()):.2f}",
    "memory, most": lambda: f"{max(memory()):.2f}",
    "growth, most": lambda: f"{max(growth()):.1f}",
    "trace of mailboxes, times": lambda: f"{traced('plain mailboxes'):.1f}",
    "trace of programs over mailboxes, times": lambda: f"{traced('programs over plain mailboxes'):.1f}",
    "audit, most seconds": lambda: f"{max(audited()):.1f}",
    "audit, most lives": audited_lives,
    "trace, millions a second": lambda: millions_a_second(False),
    "trace of programs, millions a second": lambda: millions_a_second(True),
    "gates, minutes": lambda: gates(2),
    "gates, processor minutes": lambda: gates(3),
    "states where questions may be alive": lambda: next(it[2] for it in rows("spin.md", 5) if it[1] == "5 and 2: both"),
    "inputs of readers": lambda: f"{len(list(readers.inputs())):,}",
    "octet sequences of readers": lambda: f"{octet_sequences():,}",
    "rows of readers": lambda: f"{len(readers.WORKED)}",
    "events of stops": lambda: f"{stops():,}",
    "runs of stops": lambda: f"{7 * stops():,}",
    "runs of stops in the gate": lambda: f"{7 * (stops() // 10):,}",
    "searches, times": lambda: f"{statistics.median(number(it[9]) / number(it[5]) for it in searches()):.0f}",
    "searches, least steps": lambda: f"{min(by_the_plain_program()) // 10_000 * 10_000:,.0f}",
    "planted bugs": lambda: f"{bugs():,}",
    "files with Interrupt": lambda: f"{naming('Interrupt')}",
}


def pages() -> list[str]:
    found = [f"{ROOT}/README.md", f"{ROOT}/CONTRIBUTING.md", f"{ROOT}/CHANGELOG.md", *glob.glob(f"{ROOT}/docs/*.md"), *glob.glob(f"{ROOT}/docs/measured/*.md")]
    return sorted(it for it in found if os.path.exists(it))


def written(text: str) -> str:
    """A page with each figure as its table has it; a name that is none is left."""
    return MARKED.sub(lambda it: f"<!--={it[1]}-->{FIGURES[it[1]]()}<!--/-->" if it[1] in FIGURES else it[0], text)


def write() -> None:
    for path in pages():
        text = read(path)
        if (new := written(text)) != text:
            with open(path, "w", encoding="utf-8") as file:
                file.write(new)


def wrong_in(page: str, text: str) -> Iterator[str]:
    """The figures of a page that are not as their tables have them."""
    for name, said in MARKED.findall(text):
        if name not in FIGURES:
            yield f"{page}: there is no figure `{name}`"
        elif (right := FIGURES[name]()) != said:
            yield f"{page}: `{name}` is {right}, and not {said} (./check docs --write)"


def faults() -> list[str]:
    return [it for path in pages() for it in wrong_in(os.path.relpath(path, ROOT), read(path))]
