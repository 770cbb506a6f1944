"""What each event of a script prints, by marks between the events.

A mark is two events that the program refuses at any time, the first with `NoSuch` and the second with another name. A refused event changes
nothing, so all that is printed beside the marks is what the script prints. An event prints at most one refusal. So wherever `NoSuch` is followed
by another refusal there is a mark, also if the event before it, or after it, is refused itself.

An input has at most 1 MiB. Where a script has no room for the marks of all its events, it is run more than once: on first parts of it, each with
marks in its last events. The room for marks grows with what is left out, so a script of n events takes at most some log n runs.
"""

from __future__ import annotations

from collections.abc import Iterable, Iterator, Sequence
from dataclasses import dataclass
from typing import NamedTuple

from dorydate.program import MOST_OCTETS

NO_SUCH_LINE = b"drop 256 + 0"  # a network has at most 255 lines, and plain mailboxes have none
NO_SUCH = "refused NoSuch"
LAST = "end"  # the last line of a replay
LINKS = range(255, -1, -1)


class Unmarked(Exception):
    """The lines that were printed don't show the marks that were put in."""


class Part(NamedTuple):
    """The events from one place to another, which are the last ones of an input."""

    begin: int
    end: int


@dataclass(frozen=True)
class Marked:
    """Script lines that are events, the topology before them, and a mark; without one each event is a part."""

    topology: bytes
    events: Sequence[bytes]
    mark: bytes | None

    def parts(self, most: int = MOST_OCTETS) -> Iterator[Part]:
        """All events in parts, of which each has as many as have room in this many octets with a mark after each of them but the last."""
        begin, before = 0, len(self.topology) + 3
        while begin < len(self.events):
            end, octets = begin + 1, before + len(self.events[begin]) + 1
            while self.mark and end < len(self.events) and octets + len(self.mark) + len(self.events[end]) + 2 <= most:
                octets += len(self.mark) + len(self.events[end]) + 2
                end += 1
            yield Part(begin, end)
            before += sum(len(it) + 1 for it in self.events[begin:end])
            begin = end

    def input(self, part: Part) -> bytes:
        """The input of which a part's events are the last ones."""
        between = b"\n" + self.mark + b"\n" if self.mark else b"\n"
        events = between.join(self.events[part.begin : part.end])
        return b"\n".join([self.topology, b"%", *self.events[: part.begin], events, b""])


def mark_for(hosts: Iterable[str], events: Sequence[bytes]) -> bytes | None:
    """A mark for these events of a network with these hosts; None where there is none. Its second event gives up a message that no event sends
    (and no program of a host, since that sends nothing to its own host)."""
    sent = {b" ".join(event.split(b" ", 4)[1:4]) for event in events if event.startswith(b"out ")}
    flows = (f"{host} {host} {link}".encode() for host in hosts for link in LINKS)
    flow = next((it for it in flows if it not in sent), None)
    return NO_SUCH_LINE + b"\ngiveup " + flow if flow else None


def printed_in(part: Part, printed: Sequence[str]) -> list[list[str]]:
    """What each event of a part prints, by the lines that the program prints from its first event on."""
    if printed[-1:] != [LAST]:
        raise Unmarked(f"a run of the first {part.end} events with marks did not end")
    each: list[list[str]] = [[]]
    for line in printed[:-1]:
        each[-1].append(line)
        if len(each[-1]) > 1 and each[-1][-2] == NO_SUCH and line.startswith("refused ") and line != NO_SUCH:
            del each[-1][-2:]
            each.append([])
    if len(each) != part.end - part.begin:
        raise Unmarked(f"a run of the first {part.end} events with marks between the last {part.end - part.begin} printed {len(each) - 1} marks")
    return each


def each_printed(parts: Iterable[Part], outputs: Iterable[str]) -> list[list[str]]:
    """What each event prints, by what the program prints for each part."""
    each: list[list[str]] = []
    before = 0
    for part, output in zip(parts, outputs):
        more = printed_in(part, output.splitlines()[before:])
        before += sum(map(len, more))
        each += more
    return each
