"""Random networks with random events, and what the model of the subnet owes for them.

What happens is mostly about what is there: frames that are live, messages that are outstanding, slots that are held.
"""

from __future__ import annotations

import random
from collections import Counter
from collections.abc import Iterator
from typing import Any

from dorydate.model.imp_state import NUMBERS
from dorydate.model.names import Flow, HostName
from dorydate.model.packets import MOST_IMPS
from dorydate.model.script import Event
from dorydate.model.subnet import Subnet
from dorydate.sentences.events import EVENTS as WORDS
from dorydate.sentences.events import OF_RAW

EVENTS = 100
LARGEST_EVENTS = 400

WEIGHTS = {
    "out": 14, "take": 6, "calm": 2, "deliver": 20, "drop": 6, "resend": 3, "route": 2, "giveup": 4, "ask": 5, "abandon": 1, "forget": 1,
    "garble": 2, "claim": 0.3, "enddown": 2, "endup": 3, "impdown": 0.5, "impup": 2, "hostdown": 1, "hostup": 4, "alive": 3,
}  # fmt: skip
WEIGHTS |= {word: 1 for word in OF_RAW if word not in WEIGHTS}


class Chance:
    """A network, and events in it. An independent model of the subnet goes along, so that what is there can be named."""

    def __init__(self, seed: int | str, is_largest: bool) -> None:
        self.random = random.Random(seed)
        self.events = LARGEST_EVENTS if is_largest else EVENTS
        count = MOST_IMPS if is_largest else self.random.choice([1, 2, 2, 3, 3, 4, 7])
        numbers = sorted(self.random.sample(range(1, MOST_IMPS + 1), count))
        self.imps = [(number, self.random.choice([0, 1, 1, 2, 4])) for number in numbers]
        shuffled = self.random.sample(numbers, len(numbers))
        self.ends = self.most_lines(shuffled) if is_largest else self.lines_of(shuffled)
        self.subnet = Subnet(self.imps, self.ends)
        there = [HostName(host, number) for number, count in self.imps for host in range(count)]
        near = self.random.sample(there, min(len(there), 4))
        # a host that isn't there, now and then
        self.hosts = near * 6 + [HostName(self.random.randrange(4), self.random.randrange(1, 64))]
        self.flows = [self.flow() for _ in range(6)]
        stops = self.random.random() < 0.4
        rare = ("impdown", "impup", "forget", "drop", "garble")
        self.weights = [weight * (4 if stops and kind in rare else 1) for kind, weight in WEIGHTS.items()]
        self.lengths = self.random.choice([(0, 8, 24), (0, 24, 1008), (8, 2100), (1008, 8063)])
        self.seen: Counter[str] = Counter()

    def lines_of(self, numbers: list[int]) -> list[tuple[int, ...]]:
        """A star, a row or a ring; an IMP has at most five lines."""
        match self.random.choice(["star", "row", "ring"]):
            case "star":
                return [(number, numbers[0]) for number in numbers[1:6]]
            case "ring" if len(numbers) > 2:
                return [*zip(numbers, numbers[1:] + numbers[:1])]
        return [*zip(numbers, numbers[1:])]

    def most_lines(self, numbers: list[int]) -> list[tuple[int, ...]]:
        """From each IMP of a ring to its two neighbours each way, and to one across, which of an odd number of IMPs one has not."""
        count, half = len(numbers), len(numbers) // 2
        near = [(numbers[at], numbers[(at + step) % count]) for step in (1, 2) for at in range(count)]
        lines: list[tuple[int, ...]] = [*near, *zip(numbers[:half], numbers[half:])]
        return self.random.sample(lines, len(lines))

    def flow(self) -> Flow:
        """A flow between hosts that are there, as a rule."""
        return Flow(self.random.choice(self.hosts), self.random.choice(self.hosts), self.random.choice([0, 5, 255]))

    def event(self) -> Event:
        """An event with its parts."""
        kind = self.random.choices([*WEIGHTS], self.weights)[0]
        if kind in ("deliver", "drop", "garble") and not any(ways["+"] + ways["-"] for ways in self.subnet.live):
            kind = self.random.choice(["out", "out", "route", kind])
        return kind, *self.parts(kind)

    def parts(self, kind: str) -> tuple[Any, ...]:
        """The parts of an event of a kind: as a rule about what is there."""
        imps = [number for number, _ in self.imps] * 6 + [self.random.randrange(1, 64)]
        sure = self.random.random() < 0.9
        match kind, WORDS[kind].shape if kind in WORDS else "":
            case "out", _:
                length = self.random.choice(self.lengths)
                return self.random.choice(self.flows), "".join(self.random.choice("01") for _ in range(length))
            case _, "ROUNDS":
                return (self.random.choice([0, 1, 1, 2, 3]),)
            case _, "H":
                return (self.random.choice(self.hosts),)
            case _, "I":
                return (self.random.choice(imps),)
            case _, "I J":
                return self.random.choice(imps), self.random.choice(imps)
            case _, "S D N":
                up = [imp for imp in self.subnet.imps.values() if imp] if sure else []
                held = [flow for imp in up for flow in ([*imp.slots] if kind == "abandon" else [*imp.outstanding])]
                return (self.random.choice(held or self.flows),)
            case "alive", _:
                alive = self.subnet.alive() if sure else []
                if alive:
                    flow, number, _ = self.random.choice(alive)
                else:
                    flow, number = self.random.choice(self.flows), self.random.choice([0, 1, 256, NUMBERS.window, NUMBERS.count - 1])
                return flow, (number + self.random.choice([0, 0, 1, 256])) % NUMBERS.count
            case _, "L +|- K":
                live = self.subnet.live if sure else []
                ways = [(line, way) for line, ways in enumerate(live) for way in "+-" if ways[way]]
                if not ways:
                    return self.random.choice([0, 1, 9]), self.random.choice("+-"), self.random.choice([0, 1, 300])
                line, way = self.random.choice(ways)
                return line, way, self.random.choice([0, self.random.randrange(len(live[line][way]))])
            case _, "I L":
                ends = [(imp, line) for line, joined in enumerate(self.ends) for imp in joined] if sure else []
                return self.random.choice(ends or [(self.random.choice(imps), self.random.choice([0, 1, 9]))])
        raise ValueError(kind)

    def run(self) -> Iterator[Event]:
        """Events, one by one: what comes before the next one is what each leads to."""
        if self.random.random() < 0.9:
            yield "calm", self.random.choice([2, 3, 4])
        for _ in range(self.events):
            yield self.event()
