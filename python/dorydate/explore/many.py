"""Many networks side by side in one run of the program: the start of a process costs more than a thousand events.

A topology needn't be connected, so copies of a small network fit into 63 IMPs, and one script holds a schedule for each. Only
calms are shared. Hosts show which copy a printed line is of. IMP 63 has a host whose stops and starts print marks.
"""

from __future__ import annotations

from collections.abc import Iterable, Sequence
from dataclasses import dataclass, fields, replace
from typing import Any

from dorydate.network import MOST_IMPS, Host, Imp, Line, Network
from dorydate.program import Program
from dorydate.script import Event, Flow, octets_of

MARKER = 63  # the IMP of the marks
MARKS = (f"hostdown 0/{MARKER}", f"hostup 0/{MARKER}")
# the words of a printed line that are hosts
HOSTS = {"out": (1, 2), "in": (1, 2), "answer": (2, 3), "done": (2,), "failed": (2,), "opened": (1, 3), "ended": (1, 3), "life": (1, 3)}
PAIRS = ("ready", "contactfailed", "pairreset", "echoed", "error")
IMPS = ("imp", "other")  # the parts of an event that are IMPs


class CannotRun(Exception):
    """Why networks can't be run side by side."""


def moved(value: Any, name: str, imps: int, lines: int) -> Any:
    """A part of an event in the copy whose IMPs and lines begin after these numbers."""
    if isinstance(value, Host):
        return Host(value.host, value.imp + imps)
    if isinstance(value, Flow):
        return Flow(moved(value.source, "", imps, 0), moved(value.destination, "", imps, 0), value.link)
    if name in IMPS:
        return value + imps
    return value + lines if name == "line" else value


@dataclass(frozen=True)
class Result:
    """What one network printed: all its lines, those of the last calm among them, and the lives of its book."""

    lines: tuple[str, ...]
    last: tuple[str, ...]


class Many:
    """Copies of a network, and runs of scripts in them."""

    def __init__(self, network: Network, program: Program, copies: int | None = None) -> None:
        if sorted(it.number for it in network.imps) != list(range(1, len(network.imps) + 1)):
            raise CannotRun("the IMPs of a network that is explored are numbered from 1 without a gap")
        size = len(network.imps)
        fitting = (MOST_IMPS - 1) // size
        if fitting < 1:
            raise CannotRun(f"a network of {size} IMPs leaves no room for the marks: at most {MOST_IMPS - 1} are explored")
        self.network, self.program = network, program
        self.copies = min(copies or fitting, fitting)
        self.size, self.line_count = size, len(network.lines)
        self._known: dict[str, tuple[int, str]] = {}
        self.head = self.topology().toml() + "%\n"

    def topology(self) -> Network:
        """All copies, and the marker."""
        copied = [(it, copy * self.size) for copy in range(self.copies) for it in self.network.imps]
        imps = [Imp(it.number + before, it.hosts, foreign=it.foreign) for it, before in copied]
        lines = [Line(it.a + copy * self.size, it.b + copy * self.size) for copy in range(self.copies) for it in self.network.lines]
        return replace(self.network, imps=(*imps, Imp(MARKER, 1)), lines=tuple(lines))

    def spelled(self, copy: int, event: Event) -> str:
        """An event's line in a copy."""
        shift = copy * self.size, copy * self.line_count
        return str(type(event)(*(moved(getattr(event, it.name), it.name, *shift) for it in fields(event)))) if copy else str(event)

    def table(self, events: Sequence[Event]) -> list[list[str]]:
        """For each copy the lines of these events."""
        return [[self.spelled(copy, event) for event in events] for copy in range(self.copies)]

    def local(self, line: str) -> tuple[int, str]:
        """The copy that a printed line is of, and the line as the single network prints it; -1 for lines of no copy."""
        if (known := self._known.get(line)) is not None:
            return known
        words = line.split(" ")
        places = HOSTS.get(words[0]) or ((1, 2) if words[0] in PAIRS else (1,))
        copy = -1
        if words[0] != "refused":
            copy = (int(words[places[0]].split("/")[1]) - 1) // self.size if not words[places[0]].endswith(f"/{MARKER}") else -1
        if copy >= 0:
            for place in places:
                host, imp = words[place].split("/")
                words[place] = f"{host}/{int(imp) - copy * self.size}"
        found = copy, " ".join(words)
        if words[0] != "life":
            self._known[line] = found
        return found

    def text(self, parts: Sequence[Sequence[Sequence[str]]], calms: Sequence[int], last: int) -> str:
        """The input: for each copy its parts, which are lines, with the calms that all share, and a last calm between two marks."""
        lines: list[str] = []
        for at, rounds in enumerate(calms):
            for part in parts:
                lines += part[at]
            if rounds:
                lines.append(f"calm {rounds}")
        lines.append(MARKS[0])
        if last:
            lines.append(f"calm {last}")
        return self.head + "\n".join(lines) + "\n"

    def run(self, parts: Sequence[Sequence[Sequence[str]]], calms: Sequence[int], last: int = 0, book: bool = False) -> list[Result]:
        """What each copy printed."""
        ran = self.program.run(octets_of(self.text(parts, calms, last)), *(["--book"] if book else []))
        if ran.status:
            raise CannotRun(f"the program says: {ran.said.strip()} (status {ran.status})")
        return self.apart(ran.output.splitlines()[:-1])

    def apart(self, output: Iterable[str]) -> list[Result]:
        """The lines of each copy."""
        found: list[list[str]] = [[] for _ in range(self.copies)]
        begins = [0] * self.copies
        known, mark = self._known, f"down 0/{MARKER}"
        ends: list[int] | None = None
        for line in output:
            if line == mark:
                begins = [len(it) for it in found]
                continue
            if ends is None and line.startswith("life "):
                ends = [len(it) for it in found]
            copy, local = known.get(line) or self.local(line)
            if copy >= 0:
                found[copy].append(local)
        ends = ends or [len(it) for it in found]
        return [Result(tuple(lines), tuple(lines[begin:end])) for lines, begin, end in zip(found, begins, ends)]


class One(Many):
    """The single network, in a process of its own, with the marks."""

    def __init__(self, network: Network, program: Program) -> None:
        super().__init__(network, program, 1)

    def of(self, script: Sequence[Event], last: int = 0, book: bool = False) -> Result:
        """What it prints on a script."""
        return self.run([[list(map(str, script))]], [0], last, book)[0]
