"""How many seconds of the processor the gate spends on each crate, as a table in docs/measured/gate.md: ./measure gate [PID]

It runs `.ci/run` in a fresh clone of what is committed, and looks every 0.4 seconds at what its processes have used: the library of
each crate, its tests, and its planted bugs. With the PID of a `.ci/run` that was begun by `setsid`, it watches that one. Of what
passed on this machine before the gate proves nothing again, so the table takes the place of that between the two marker
comments of the page only where no crate was kept; else it is only printed. From nothing it takes an hour on four cores.

A second of the processor is worth more on one day than on another. The yardstick is what eight crates took that hardly
ever change, against the table before, of those whose lines are the same; the first table with it has 1.00. So minutes
divided by the yardstick are those of the day of that table, to a tenth.
"""

from __future__ import annotations

import os
import re
import subprocess
import sys
import tempfile
import time
from collections.abc import Callable, Mapping
from dataclasses import dataclass

from workshop.parts import ROOT, text_of
from workshop.words import Words

PAGE = f"{ROOT}/docs/measured/gate.md"
MARKERS = "<!-- gate table: begin -->", "<!-- gate table: end -->"
TICKS = os.sysconf("SC_CLK_TCK")
PARTS = "library", "tests", "planted bugs"
Work = tuple[str, str]  # a crate, and a part of it
YARDSTICK = "imp_channel", "imp_node", "host_pairs", "sockets", "icp", "topology", "script", "replay"


def crates() -> list[str]:
    """The crates, in the order of crates.txt."""
    with open(f"{ROOT}/crates.txt", encoding="utf-8") as file:
        return [it[1] for line in file if (it := re.match(r"(\w+)[^:#]*:", line))]


def lines_of(crate: str) -> int:
    """The lines of a crate's sources."""
    count = 0
    for folder, _, names in os.walk(f"{ROOT}/crates/{crate}"):
        if f"crates/{crate}/out" not in folder:
            for name in names:
                if name.endswith((".rt", ".antt")):
                    with open(f"{folder}/{name}", "rb") as file:
                        count += file.read().count(b"\n")
    return count


def read(path: str) -> str:
    """A file of /proc, empty where its process has ended."""
    try:
        with open(path, "rb") as file:
            return file.read().decode(errors="replace")
    except OSError:
        return ""


def work_of(pid: str, parent: Work | None) -> Work | None:
    """What a process works on: a crate and which part of it. Whoever is no call of the compiler works for its parent."""
    words = read(f"/proc/{pid}/cmdline").split("\0")
    if not words[0].endswith("/rattle") or "--crate-name" not in words:
        return parent
    try:
        folder = os.readlink(f"/proc/{pid}/cwd")
    except OSError:
        return parent
    crate = words[words.index("--crate-name") + 1]
    # `rt ci` tries planted bugs in folders rt-edit.., and `./check edits --gate` in folders edits-..
    part = 2 if re.search(r"/(rt-edit|edits-)", folder) else 1 if "--test" in words else 0
    return crate, PARTS[part]


def watch(session: int, goes_on: Callable[[], bool]) -> dict[Work | None, float]:
    """The seconds of the processor of each work of a session, as long as it continues."""
    used: dict[tuple[str, str], int] = {}
    works: dict[tuple[str, str], Work | None] = {}
    latest: dict[str, Work | None] = {}
    while goes_on():
        for pid in filter(str.isdigit, os.listdir("/proc")):
            fields = read(f"/proc/{pid}/stat").rpartition(")")[2].split()
            if not fields or int(fields[3]) != session:
                continue
            key = pid, fields[19]  # with its start, since numbers are given again
            if works.get(key) is None:  # a process may be seen before it has become the compiler
                works[key] = work_of(pid, latest.get(fields[1]))
            latest[pid] = works[key]
            used[key] = int(fields[11]) + int(fields[12])
        time.sleep(0.4)
    seconds: dict[Work | None, float] = {}
    for key, ticks in used.items():
        seconds[works[key]] = seconds.get(works[key], 0) + ticks / TICKS
    return seconds


@dataclass(frozen=True)
class Row:
    """What the page's table has of a crate: its lines, and the seconds of its library, its tests and its planted bugs."""

    lines: int
    seconds: tuple[float, float, float]


def stored(page: str) -> tuple[dict[str, Row], float]:
    """The table of a page, by crates, and its yardstick."""
    found: dict[str, Row] = {}
    rows = page.partition(MARKERS[0])[2].partition(MARKERS[1])[0]
    for crate, *cells in re.findall(r"^\| `(\w+)` \|" + 4 * r" ([\d,]*) \|" + "$", rows, re.MULTILINE):
        lines, library, tests, bugs = (int(it.replace(",", "") or 0) for it in cells)
        found[crate] = Row(lines, (library, tests, bugs))
    measure = re.search(r"^\| yardstick ([\d.]+) \|", page, re.MULTILINE)
    return found, float(measure[1]) if measure else 1.0


def yardstick(seconds: Mapping[Work | None, float], page: str) -> float | None:
    """How much longer the crates of the yardstick took than on the day of the first table; None where none compares."""
    before, measure = stored(page)
    same = [it for it in YARDSTICK if it in before and before[it].lines == lines_of(it) and (it, PARTS[0]) in seconds]
    then = sum(before[it].seconds[0] for it in same)
    return measure * sum(seconds[it, PARTS[0]] for it in same) / then if then else None


def table(seconds: Mapping[Work | None, float], measure: float | None) -> tuple[list[str], list[str]]:
    """The rows of the table, and the crates of which no proof was seen."""
    rows = ["| Crate | Lines | Library | Tests | Planted bugs |", "|---|---|---|---|---|"]
    kept: list[str] = []
    whole = [0.0, 0.0, 0.0]
    for crate in crates():
        own = [seconds.get((crate, part), 0) for part in PARTS]
        whole = [a + b for a, b in zip(whole, own)]
        kept += [crate] * (sum(own[:2]) < 5)
        rows.append(f"| `{crate}` | {lines_of(crate):,} | {' | '.join(f'{it:,.0f}' if it >= 0.5 else '' for it in own)} |")
    rows.append(f"| all {len(crates())} | | {' | '.join(f'{it:,.0f}' for it in whole)} |")
    rows.append(f"| all other work | | {seconds.get(None, 0):,.0f} | | |")
    if measure:
        took = sum(seconds.get((it, PARTS[0]), 0) for it in YARDSTICK)
        rows.append(f"| yardstick {measure:.2f} | | {took:,.0f} | | |")
    return rows, kept


def write(rows: list[str]) -> None:
    """Puts the table between the markers of the page."""
    text = text_of(PAGE)
    if [text.count(it) for it in MARKERS] != [1, 1]:
        sys.exit(f"measure gate: docs/measured/gate.md lacks the lines `{MARKERS[0]}` and `{MARKERS[1]}`, so the table is only printed")
    head, rest = text.split(MARKERS[0])
    with open(PAGE, "w", encoding="utf-8") as file:
        file.write("\n".join([head + MARKERS[0], "", *rows, "", MARKERS[1] + rest.split(MARKERS[1])[1]]))


def gate(folder: str) -> dict[Work | None, float]:
    """The seconds of each work of a gate in a fresh clone."""
    subprocess.run(["git", "clone", "-q", ROOT, f"{folder}/gate"], check=True)
    os.symlink(os.path.realpath(f"{ROOT}/../shared"), f"{folder}/shared")
    with open(f"{ROOT}/out/gate-log", "w", encoding="utf-8") as log:
        words, env = ["bash", ".ci/run"], {**os.environ, "CI": "true"}
        run = subprocess.Popen(words, cwd=f"{folder}/gate", stdin=subprocess.DEVNULL, stdout=log, stderr=log, env=env, start_new_session=True)
        seconds = watch(run.pid, lambda: run.poll() is None)
    if run.returncode:
        sys.exit("measure gate: the gate failed; out/gate-log says why")
    return seconds


def main() -> None:
    words = Words(__doc__)
    words.add_argument("pid", nargs="?", type=int, metavar="PID", help="of a gate that runs already")
    if (pid := words.asked().pid) is not None:
        seconds = watch(pid, lambda: os.path.exists(f"/proc/{pid}"))
    else:
        os.makedirs(f"{ROOT}/out", exist_ok=True)
        with tempfile.TemporaryDirectory(prefix="gate-") as folder:
            seconds = gate(folder)
    measure, minutes = yardstick(seconds, text_of(PAGE)), sum(seconds.values()) / 60
    rows, kept = table(seconds, measure)
    print(*rows, sep="\n")
    by_it = f"{minutes / measure:.1f} by the yardstick of {measure:.2f}" if measure else "with no crate for a yardstick"
    print(f"measure gate: {minutes:.1f} minutes of the processor, {by_it}")
    if kept:
        print(f"measure gate: the page stays as it is, since these were kept: {' '.join(kept)}")
    else:
        write(rows)
