"""Stored scripts that break something without a rule, as the folder `without` has them.

The first two lines of a file say which rule is lacking and what breaks. A third one may say how many numbers there are (`# numbers: 8 3`), or
which line is there only for the reader (`# beside: LINE`). Lines between `repeat N` and `done` are there N times.
"""

from __future__ import annotations

from collections.abc import Iterable, Iterator

from dorydate.model.imp_state import NUMBERS, Numbers
from dorydate.model.runs import Place
from dorydate.model.topology import network_of
from dorydate.model.without import broken, opened_without, read_line


def numbers_of(words: str | None) -> Numbers:
    """How many numbers there are and the window, as words say it; those of the program where there are no words."""
    return Numbers(*map(int, words.split())) if words else NUMBERS


def unrolled(lines: Iterable[str]) -> Iterator[str]:
    """The lines of a script, those between `repeat N` and `done` N times."""
    left = iter(lines)
    for line in left:
        if line.startswith("repeat "):
            yield from [*iter(left.__next__, "done")] * int(line.removeprefix("repeat "))
        else:
            yield line


class Lesson:
    """A file of `without`: the rule, what breaks, the network and the events."""

    def __init__(self, path: str) -> None:
        with open(path, encoding="utf-8") as file:
            self.lines = file.read().splitlines()
        self.rule = self.lines[0].removeprefix("# lacks: ")
        self.breaks = self.lines[1].removeprefix("# breaks: ")
        self.beside = self.said("beside")  # a line that is there only for the reader
        self.numbers = numbers_of(self.said("numbers"))
        marker = self.lines.index("%")
        self.network = network_of("\n".join(self.lines[:marker]))
        self.script = self.lines[marker + 1 :]

    def said(self, name: str) -> str | None:
        """What the third line says under a name, None where it is another line."""
        return self.lines[2].removeprefix(f"# {name}: ") if self.lines[2].startswith(f"# {name}: ") else None

    def run(self, rule: str | None, script: Iterable[str]) -> Place:
        """What a script comes to without a rule."""
        place = opened_without(rule, self.network, self.numbers)
        for line in unrolled(script):
            if event := read_line(line, self.network.raw):
                place.happen(*event)
        return place

    def part(self, rule: str | None, script: Iterable[str]) -> str | None:
        """What breaks without a rule."""
        return broken(self.run(rule, script))

    def without_a_line(self) -> Iterator[tuple[int, str, list[str]]]:
        """Each line that has to be needed, with its number in the file and the script without it."""
        for at, line in enumerate(self.script):
            if line != self.beside and line and not line.startswith(("#", "repeat ", "done")):
                yield len(self.lines) - len(self.script) + at + 1, line, self.script[:at] + self.script[at + 1 :]
