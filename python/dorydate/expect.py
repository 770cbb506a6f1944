"""Expectations in scripts: a comment `#= LINE` after an event says that it prints that line, and just `#=` that it prints nothing.

An event with such comments has to print exactly these lines, in their order. One without any may print what it will.
"""

from __future__ import annotations

import sys
from collections.abc import Sequence
from dataclasses import dataclass
from pathlib import Path

from dorydate.network import BadNetwork
from dorydate.program import NoProgram, Program, TookTooLong
from dorydate.deeds import Stopped
from dorydate.replay import Replay
from dorydate.script import BadLine, Entry, Script


@dataclass(frozen=True)
class Difference:
    """An event that printed something else than was expected."""

    entry: Entry
    printed: tuple[str, ...]

    def __str__(self) -> str:
        wanted = self.entry.expected or ()
        at = next((it for it in range(max(len(wanted), len(self.printed))) if wanted[it : it + 1] != self.printed[it : it + 1]), 0)
        one, other = ((it[at] if at < len(it) else "nothing more") for it in (wanted, self.printed))
        which = f"line {at + 1} of what it prints" if at else "it"
        return f"line {self.entry.number}, `{self.entry.event}`: {which} should be\n  {one}\nand is\n  {other}"


def differences(script: Script, program: Program | None = None) -> list[Difference]:
    """The events of a script that print something else than is expected, in order."""
    net = Replay.of(script, program)
    pairs = zip(script.entries, (step.printed for step in net.steps))
    return [Difference(entry, printed) for entry, printed in pairs if entry.expected is not None and entry.expected != printed]


def expected(script: Script, program: Program | None = None) -> Script:
    """The script with what each event prints now as its expectation."""
    net = Replay.of(script, program)
    entries = tuple(Entry(it.event, it.comments, step.printed, it.number) for it, step in zip(script.entries, net.steps))
    return Script(script.network, entries, script.heading)


def command(paths: Sequence[str]) -> int:
    """`./explain --expect FILE..`: 0 if every event printed what is expected of it, 1 otherwise, with the first difference of each file."""
    return max(map(judged, paths))


def judged(path: str) -> int:
    """The status of a file, which is printed."""
    try:
        script = Script.of_octets(Path(path).read_bytes())
        found = differences(script)
    except OSError as fault:
        print(f"explain: {path}: {fault.strerror}", file=sys.stderr)
        return 1
    except (BadLine, BadNetwork, Stopped, NoProgram, TookTooLong) as why:
        print(f"explain: {path}: {why}", file=sys.stderr)
        return 1
    if found:
        print(f"{path}: {found[0]}")
        print(f"{path}: {len(found)} events printed something else than is expected")
        return 1
    count = sum(it.expected is not None for it in script.entries)
    print(f"{path}: {count} of {len(script.entries)} events have expectations, and all printed what is expected")
    return 0
