"""Traces of many scripts side by side: what the last event of each changed and printed, as the single network has it.

Copies of a network share one process, their calms and one log. So names of hosts, IMPs and lines are changed back, and the places of
requests are counted again among the crossings of their own copy.
"""

from __future__ import annotations

import json
import re
from bisect import bisect_left
from collections.abc import Iterator, Sequence
from dataclasses import dataclass, field, replace
from typing import Any

from dorydate.explore.many import CannotRun, Many
from dorydate.explore.shrink import Script as Events
from dorydate.network import Network
from dorydate.program import Program
from dorydate.script import Calm, Event, octets_of, read_event
from dorydate.trace import opening, records

NAMES = re.compile(r'([0-3])/(\d+)|"(imp|line) (\d+)"|"(\d+)":')
NUMBER = re.compile(r'\{"line":\d+,"number":(\d+),')
HEADING = re.compile(r'"event":"([^"]*)","(?:fate":"[^"]*",")?crossed":(\[.*?\]),"printed":')
PLACE = re.compile(r"\d+/(\d+)")
GROUPS = ("parts", "programs", "services")
OF_LINES = ("deliver", "drop", "garble")
EVERYONE = -1  # owns what all copies share


def calms_of(script: Sequence[Event]) -> tuple[int, ...]:
    """The rounds of a script's calms. Scripts that have the same ones can be run side by side."""
    return tuple(it.rounds for it in script if isinstance(it, Calm))


@dataclass
class Record:
    """An elementary event of a copy: its line, the fate of its frame, what it printed, and the texts that it changed, by name."""

    event: str
    fate: str | None
    printed: list[str]
    texts: dict[str, str] = field(default_factory=dict)

    def is_refused(self) -> bool:
        return self.printed[:1] != [] and self.printed[0].startswith("refused ")


class Sides:
    """Runs of scripts side by side over the trace."""

    def __init__(self, network: Network, program: Program) -> None:
        self.many = Many(network, program)
        self.copies, self.size, self.line_count = self.many.copies, self.many.size, max(self.many.line_count, 1)

    # ---- runs

    def first(self) -> dict[str, str]:
        """The texts of the network at its opening."""
        return self.texts_of(opening(self.ran("").splitlines()[0] + "\n"), 0, [])

    def ran(self, text: str) -> str:
        ran = self.many.program.run(octets_of(self.many.head + text), "--trace")
        if ran.status:
            raise CannotRun(f"the program says: {ran.said.strip()} (status {ran.status})")
        return ran.output

    def run(self, scripts: Sequence[Events], is_whole: bool = False) -> list[list[Record]]:
        """Of each script the records of its last event, or of all. The scripts have calms of the same rounds, and none is empty."""
        lines, owners, ends = self.merged(scripts)
        found: list[list[Record]] = [[] for _ in scripts]
        crossings: list[list[int]] = [[] for _ in range(self.copies)]  # of each copy, the places of its crossings among all
        total = 0
        for record in records(self.ran("".join(f"{it}\n" for it in lines))):
            match = NUMBER.match(record)
            number = int(match[1]) if match else 0
            owner = owners[number]
            heading = HEADING.search(record, match.end() if match else 0)
            assert heading is not None
            if owner == EVERYONE and heading[1] != "quiet":
                owner = self.copy_of(heading[1])
            if heading[2] != "[]" and owner >= 0:
                count = heading[2].count('{"kind":')
                crossings[owner] += range(total, total + count)
                total += count
            wanted = range(len(scripts)) if owner == EVERYONE else [owner] if owner < len(scripts) else []
            if wanted := [it for it in wanted if is_whole or ends[it] == number]:
                self.share(json.loads(record), wanted, crossings, found)
        return found

    def merged(self, scripts: Sequence[Events]) -> tuple[list[str], list[int], list[int]]:
        """The lines of scripts side by side; of each event, counted from 1, the copy whose it is; and of each copy its last event."""
        parts: list[list[list[Event]]] = []
        for script in scripts:
            parts.append([[]])
            for event in script:
                if isinstance(event, Calm):
                    parts[-1].append([])
                else:
                    parts[-1][-1].append(event)
        lines: list[str] = []
        owners, ends = [EVERYONE], [0] * len(scripts)
        for at, rounds in enumerate((*calms_of(scripts[0]), 0)):
            for copy, part in enumerate(parts):
                for event in part[at]:
                    lines.append(self.many.spelled(copy, event))
                    owners.append(copy)
                    ends[copy] = len(lines)
            if rounds:
                lines.append(f"calm {rounds}")
                owners.append(EVERYONE)
                ends = [len(lines)] * len(scripts)
        return lines, owners, ends

    # ---- records

    def share(self, read: Any, copies: Sequence[int], crossings: Sequence[list[int]], found: Sequence[list[Record]]) -> None:
        """Gives copies what is theirs of a record."""
        for copy in copies:
            texts = self.texts_of(read, copy, crossings[copy])
            if texts or read["event"] != "quiet":
                printed = [it if it.startswith("refused ") else self.many.local(it)[1] for it in read["printed"]]
                found[copy].append(Record(self.own_event(copy, read["event"]), read.get("fate"), printed, texts))

    def texts_of(self, read: Any, copy: int, crossings: list[int]) -> dict[str, str]:
        """The texts of a copy's parts, programs and services in a record, by their names in the single network."""
        texts = {}
        for group in GROUPS:
            for name, value in read.get(group, {}).items():
                if name == "down":
                    value = [it for it in value if self.copy_of(it) == copy]
                elif self.copy_of(name) != copy:
                    continue
                if group == "programs" and value:
                    with_own_places(value, crossings)
                local = self.own(copy, f'"{name}"')[1:-1]
                texts[local if group == "parts" else f"{group} {local}"] = self.own(copy, json.dumps(value, separators=(",", ":")))
        return texts

    def copy_of(self, words: str) -> int:
        """The copy that a part or an event names first."""
        if host := PLACE.search(words):
            return (int(host[1]) - 1) // self.size
        kind, number = words.split(" ")[:2]
        return int(number) // self.line_count if kind in ("line", *OF_LINES) else (int(number) - 1) // self.size

    def own(self, copy: int, text: str) -> str:
        """A text of a copy as the single network has it."""
        imps, lines = copy * self.size, copy * self.many.line_count

        def moved(found: re.Match[str]) -> str:
            if found[1]:
                return f"{found[1]}/{int(found[2]) - imps}"
            if found[3]:
                return f'"{found[3]} {int(found[4]) - (imps if found[3] == "imp" else lines)}"'
            return f'"{int(found[5]) - imps}":'

        return NAMES.sub(moved, text) if copy else text

    def own_event(self, copy: int, line: str) -> str:
        """An elementary event of a copy as the single network has it."""
        if not copy or line == "quiet":
            return line
        event = read_event(self.own(copy, line))
        imps, lines = copy * self.size, copy * self.many.line_count
        changed = {name: getattr(event, name) - by for name, by in (("imp", imps), ("other", imps), ("line", lines)) if hasattr(event, name)}
        return str(replace(event, **changed) if changed else event)


def with_own_places(program: Any, crossings: list[int]) -> None:
    """Counts the places of a program's requests among the crossings of its own copy."""
    for end in (end for pair in program["pairs"] for end in pair["ends"]):
        end["requests"] = {whose: None if place is None else bisect_left(crossings, place) for whose, place in end["requests"].items()}


def batches(pairs: Iterator[tuple[Events, Any]], copies: int) -> Iterator[list[tuple[Events, Any]]]:
    """What can be run side by side: scripts with calms of the same rounds, as many as there are copies, each with what belongs to it."""
    waiting: dict[tuple[int, ...], list[tuple[Events, Any]]] = {}
    for script, more in pairs:
        some = waiting.setdefault(calms_of(script), [])
        some.append((script, more))
        if len(some) == copies:
            yield waiting.pop(calms_of(script))
    yield from waiting.values()
