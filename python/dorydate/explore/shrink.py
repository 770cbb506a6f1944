"""The shortest script that still matches: steps that worked, in the order in which they pay, until none helps.

A script is better if it has fewer events, then fewer rounds, smaller numbers, and at last the smaller spelling. Each try is one
run, and tries are remembered.
"""

from __future__ import annotations

from collections.abc import Callable, Iterator, Sequence
from dataclasses import fields, replace
from itertools import combinations

from dorydate.script import Calm, Deliver, Drop, Event, Flow, Text

Script = tuple[Event, ...]
Test = Callable[[Script], bool]


def cost(script: Script) -> tuple[int, int, int, tuple[str, ...]]:
    """How long a script is: the least is the best."""
    rounds = sum(it.rounds for it in script if isinstance(it, Calm))
    return len(script), rounds, sum(map(size, script)), tuple(map(str, script))


def size(event: Event) -> int:
    """The sum of an event's numbers and bits."""
    total = 0
    for it in fields(event):
        value = getattr(event, it.name)
        total += value if isinstance(value, int) else value.link if isinstance(value, Flow) else value.bits if isinstance(value, Text) else 0
    return total


class Shrinker:
    """Tries scripts, and keeps the best that still does what is asked."""

    def __init__(self, test: Test, most: int = 6000) -> None:
        self.test, self.most = test, most
        self.known: dict[tuple[str, ...], bool] = {}
        self.runs = 0

    def does(self, script: Script) -> bool:
        """Whether a script does what is asked. After too many runs none does."""
        key = tuple(map(str, script))
        if key not in self.known:
            if self.runs >= self.most:
                return False
            self.runs += 1
            self.known[key] = self.test(script)
        return self.known[key]

    def shrink(self, script: Sequence[Event]) -> Script:
        """A script that no step makes better."""
        best = tuple(script)
        best = self.removed(self.cut(best))
        while True:
            before = best
            for further in STEPS:
                best = self.removed(self.climbed(best, further))
            if cost(best) >= cost(before):
                return best

    def cut(self, script: Script) -> Script:
        """Without its end, as much of it as may go."""
        part = len(script) // 2
        while part:
            while part <= len(script) and self.does(script[: len(script) - part]):
                script = script[: len(script) - part]
            part //= 2
        return script

    def removed(self, script: Script) -> Script:
        """Without events that aren't needed: first halves, at last single ones."""
        part = max(len(script) // 2, 1)
        while part:
            at = 0
            while at < len(script):
                shorter = script[:at] + script[at + part :]
                if shorter != script and self.does(shorter):
                    script = shorter
                else:
                    at += part
            part //= 2
        return script

    def climbed(self, script: Script, further: Callable[[Script], Iterator[Script]]) -> Script:
        """As far as one kind of step leads."""
        while True:
            better = next((it for it in further(script) if cost(it) < cost(script) and self.does(it)), None)
            if better is None:
                return script
            script = better


# ---- steps


def replaced(script: Script, at: int, *others: Event) -> Script:
    return script[:at] + others + script[at + 1 :]


def shorter_calms(script: Script) -> Iterator[Script]:
    """A calm is shorter, or two are one."""
    for at, event in enumerate(script):
        if isinstance(event, Calm):
            for rounds in sorted({1, event.rounds // 2, event.rounds - 1} - {0}):
                if 0 < rounds < event.rounds:
                    yield replaced(script, at, Calm(rounds))
            for other in range(at + 1, len(script)):
                if isinstance(later := script[other], Calm):
                    yield script[:at] + (Calm(event.rounds + later.rounds),) + script[at + 1 : other] + script[other + 1 :]
                    yield script[:at] + script[at + 1 : other] + (Calm(event.rounds + later.rounds),) + script[other + 1 :]


def lower_numbers(script: Script) -> Iterator[Script]:
    """A number in one event is lower, or a text shorter."""
    for at, event in enumerate(script):
        for it in fields(event):
            value = getattr(event, it.name)
            if isinstance(value, Text) and value.bits:
                yield replaced(script, at, replace(event, **{it.name: Text()}))
            if isinstance(value, int) and not isinstance(event, Calm) and it.name in ("place", "messages", "bits", "size"):
                for lower in sorted({0, 1, value // 2, value - 1}):
                    if 0 <= lower < value:
                        yield replaced(script, at, replace(event, **{it.name: lower}))


def lower_everywhere(script: Script) -> Iterator[Script]:
    """A socket, a link or a size is lower in all events that have it."""
    sockets = sorted({getattr(it, field.name) for it in script for field in fields(it) if field.name in SOCKETS})
    for value in sockets:
        for lower in range(value % 2, value, 2):
            if lower not in sockets:
                yield tuple(with_number(it, SOCKETS, value, lower) for it in script)
                break
    for value in sorted({it.size for it in script if hasattr(it, "size")} - {1}):
        yield tuple(with_number(it, ("size",), value, 1) for it in script)
    links = sorted({it.flow.link for it in script if hasattr(it, "flow")})
    for value in links:
        free = next((it for it in range(value) if it not in links), None)
        if free is not None:
            yield tuple(replace(it, flow=replace(it.flow, link=free)) if hasattr(it, "flow") and it.flow.link == value else it for it in script)


SOCKETS = ("socket", "own", "foreign", "listens", "base", "server")


def with_number(event: Event, names: Sequence[str], value: int, lower: int) -> Event:
    changed = {it.name: lower for it in fields(event) if it.name in names and getattr(event, it.name) == value}
    return replace(event, **changed) if changed else event


def with_shifted_places(script: Script) -> Iterator[Script]:
    """An event is gone, and later events of one way of a line name frames one or two places lower."""
    ways = sorted({(it.line, it.way) for it in script if isinstance(it, (Deliver, Drop))})
    for at in range(len(script)):
        for way in ways:
            for by in (1, 2):
                rest = tuple(replace(it, place=it.place - by) if isinstance(it, (Deliver, Drop)) and (it.line, it.way) == way and it.place >= by else it for it in script[at + 1 :])
                if rest != script[at + 1 :]:
                    yield script[:at] + rest


def events_become_calm(script: Script) -> Iterator[Script]:
    """Several events in a row become a calm."""
    for length in (4, 3, 2):
        for at in range(len(script) - length + 1):
            yield script[:at] + (Calm(1),) + script[at + length :]


def without_two(script: Script) -> Iterator[Script]:
    """Two events that go together are gone."""
    if len(script) <= 40:
        for one, other in combinations(range(len(script)), 2):
            yield script[:one] + script[one + 1 : other] + script[other + 1 :]


def reordered(script: Script) -> Iterator[Script]:
    """Two neighbours change places, or an event goes further to the beginning."""
    for at in range(len(script) - 1):
        yield script[:at] + (script[at + 1], script[at]) + script[at + 2 :]


STEPS = (shorter_calms, with_shifted_places, events_become_calm, without_two, lower_numbers, lower_everywhere, reordered)
