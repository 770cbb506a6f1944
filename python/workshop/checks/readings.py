"""The second reading of stored rows: what an independent model answers to the calls that tools/calls makes.

Each layer that has a model is opened by the words of a block's first row, and is given the words of each call.
"""

from __future__ import annotations

from collections.abc import Callable, Mapping
from typing import Protocol

from workshop.rows import Block, Row, plain, stored


class Unread(Exception):
    """No model knows a call."""


class Reading(Protocol):
    """What a model answers. It may have to look at what is wanted, where the model has a part of a call only."""

    def answers(self, call: str, wanted: list[str]) -> list[str]: ...


class Compared:
    """What came of the second reading of stored rows."""

    def __init__(self) -> None:
        self.rows = 0
        self.unread: set[str] = set()
        self.wrong: list[str] = []

    def compare(self, name: str, row: Row, reading: Reading) -> None:
        """Compares what a row wants with what the model answers."""
        wanted = [plain(answer) for answer in row.answers]
        try:
            found = reading.answers(plain(row.call), wanted)
        except Unread as unread:
            self.unread.add(str(unread))
            return
        self.rows += 1
        if found != wanted:
            self.say(name, row, wanted, found)

    def say(self, name: str, row: Row, wanted: list[str], found: list[str]) -> None:
        """Notes a row that the model answers otherwise."""
        self.wrong.append(f"{name}.rows, line {row.line}: {row.call}")
        self.wrong += [f"  stored: {' | '.join(wanted)}", f"  model:  {' | '.join(found)}"]

    def read(self, name: str, block: Block, open_layer: Callable[[str], tuple[Reading, list[str]]]) -> None:
        """Reads a block, up to its first row that the model answers otherwise."""
        reading, first = open_layer(plain(block.opening.call))
        if first != [plain(answer) for answer in block.opening.answers]:
            self.say(name, block.opening, block.opening.answers, first)
        for times, rows in block.parts:
            for _ in range(times):
                for row in rows:
                    self.compare(name, row, reading)
                    if self.wrong:
                        return


def told(check: str, said: str | None, agreed: str, seen: Mapping[str, int], is_stored: bool) -> int:
    """Says what random calls came to, and gives the status: 1 where some differ, or stored rows did."""
    if said is not None:
        print(said)
        print(f"check {check}: a run came to something else than the rules say (a run is made again by its number)")
        return 1
    print(f"check {check}: {agreed}")
    for name, count in sorted(seen.items()):
        print(f"  {name}: {count}")
    return 0 if is_stored else 1


def read_stored(check: str, open_layer: Callable[[str], tuple[Reading, list[str]]], *layers: str) -> bool:
    """Has a model answer the stored rows of layers; whether all is as stored. It says which calls no model knows."""
    read = Compared()
    for name, block in stored(*layers):
        read.read(name, block, open_layer)
    print("\n".join(read.wrong), end="\n" * bool(read.wrong))
    unread = f"; no model of: {', '.join(sorted(read.unread))}" if read.unread else ""
    print(f"check {check}: {read.rows} stored rows ({', '.join(layers)}) read by the model{unread}")
    return not read.wrong
