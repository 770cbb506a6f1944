"""Random scripts for raw networks in which IMPs ask what became of their messages.

As in `worlds` each event is chosen by looking at what the model has come to, and then happens in the model. Here messages
are few, and much is lost: of most of them something has to be asked. Now and then a host, an IMP or an end of a line stops
before the question, between question and answer, or after both.
"""

from __future__ import annotations

import random
from collections import Counter
from collections.abc import Callable, Iterable, Sequence
from typing import Any

from dorydate.model.chance.worlds import spell_event
from dorydate.model.crossings import Answered
from dorydate.model.imp import Deed, Imp
from dorydate.model.imp_state import NUMBERS, Numbers
from dorydate.model.names import Flow, HostName
from dorydate.model.script import Event
from dorydate.model.subnet import Subnet
from dorydate.model.topology import Topology

TEXTS = ["1" * 8, "", "10" * 520, "01" * 1500]
MakesSubnet = Callable[[list[tuple[int, int]], list[tuple[int, ...]]], Subnet]


def some_network(chance: random.Random) -> Topology:
    """Two or three IMPs in a row or a ring, with one or two hosts each."""
    numbers = sorted(chance.sample(range(1, 64), chance.choice([2, 2, 2, 3])))
    lines: list[tuple[int, ...]] = [*zip(numbers, numbers[1:])]
    if len(numbers) == 3 and chance.random() < 0.5:
        lines.append((numbers[0], numbers[2]))
    return Topology("subnet", True, [(number, chance.choice([1, 1, 2])) for number in numbers], lines)


class Questions:
    """The lines of a script that is being made, and the subnet that they lead to."""

    def __init__(self, seed: int | str, length: int = 120, make: MakesSubnet = Subnet) -> None:
        self.chance = random.Random(f"questions {seed}")
        self.network = some_network(self.chance)
        self.subnet = make(self.network.imps, self.network.lines)
        self.lines: list[str] = []
        self.drops = self.chance.choice([0.1, 0.3, 0.6])  # how often a frame is lost
        self.stops = self.chance.choice([0, 0, 0.05, 0.15])
        self.rows = self.chance.choice([0, 0, 2])  # how often messages in a row are given up
        hosts = self.subnet.hosts()
        self.flows = [self.flow(*self.chance.sample(hosts, 2)) for _ in range(3)]
        self.do("calm", 3)
        while len(self.lines) < length:
            self.something()
        self.do("calm", 3)

    def do(self, *event: Any) -> bool:
        """Lets an event happen; whether it was refused."""
        self.lines.append(spell_event(*event))
        before = len(self.subnet.printed)
        self.subnet.happen(*event)
        return any(line.startswith("refused") for line in self.subnet.printed[before:])

    def flow(self, source: HostName, destination: HostName) -> Flow:
        """A flow between two hosts."""
        return Flow(source, destination, self.chance.choice([0, 9]))

    def up(self) -> dict[int, Imp]:
        """The IMPs that are up."""
        return {number: imp for number, imp in self.subnet.imps.items() if imp is not None}

    def outstanding(self) -> list[Flow]:
        """The flows with a message that has no answer."""
        return [flow for imp in self.up().values() for flow in imp.outstanding]

    def frames(self) -> list[tuple[int, str]]:
        """The lines and ways on which frames are live."""
        return [(line, way) for line, ways in enumerate(self.subnet.live) for way, frames in ways.items() if frames]

    def something(self) -> None:
        """One event, or some that belong together."""
        chance = self.chance.random()
        if chance < self.stops:
            return self.trouble()
        if chance < 0.3 and (flows := self.outstanding()):
            return self.question(self.chance.choice(flows))
        ways: dict[Callable[[], None], int] = {
            self.some_frame: 30, self.some_take: 12, self.some_out: 12, self.some_lose: 8, self.some_resend: 4, self.some_calm: 2,
            self.some_recover: 6, self.some_row: self.rows,
        }  # fmt: skip
        self.chance.choices([*ways], [*ways.values()])[0]()

    def question(self, flow: Flow) -> None:
        """A message is asked for, as a rule; else it is given up."""
        self.do("giveup" if self.chance.random() < 0.05 else "ask", flow)

    def some_frame(self) -> None:
        """A frame arrives, is lost, or arrives and stays."""
        if not (frames := self.frames()):
            return self.some_out()
        line, way = self.chance.choice(frames)
        if self.chance.random() >= self.drops:
            self.do("deliver", line, way, 0)
        if self.chance.random() < 0.9:
            self.do("drop", line, way, 0)

    def some_take(self) -> None:
        """A host takes, as a rule one for which something waits."""
        waiting = [
            HostName(place, number) for number, imp in self.up().items() for place, host in enumerate(imp.hosts) if host.answers or host.messages
        ]
        self.do("take", self.chance.choice(waiting or self.subnet.hosts()))

    def some_out(self) -> None:
        """A host sends."""
        self.do("out", self.chance.choice(self.flows), self.chance.choice(TEXTS))

    def some_lose(self) -> None:
        """A line is cut for a moment, and what is on it is lost: both ends begin anew, and what they held looks for another way."""
        line = self.chance.randrange(len(self.network[3]))
        self.cut(line)
        if self.chance.random() < 0.8:
            for end in self.network[3][line]:
                self.do("route", end)
            for way in "+-":
                for _ in range(len(self.subnet.live[line][way])):
                    self.do("deliver", line, way, 0)
                    self.do("drop", line, way, 0)

    def cut(self, line: int) -> None:
        """Both ends of a line begin anew, and all that was on it is lost."""
        for end in self.network[3][line]:
            self.do("enddown", end, line)
        for way in "+-":
            for _ in range(len(self.subnet.live[line][way])):
                self.do("drop", line, way, 0)
        for end in self.network[3][line]:
            self.do("endup", end, line)

    def some_row(self) -> None:
        """Messages of a flow in a row are lost and given up, so that its numbers run ahead of the one that was noted last."""
        flow = self.chance.choice(self.flows)
        for _ in range(self.chance.randrange(2, 10)):
            self.do("calm", 2)
            self.do("out", flow, "")
            for line in range(len(self.network[3])):
                self.cut(line)
            if self.do("giveup", flow):
                return
        self.do("calm", 2)

    def some_resend(self) -> None:
        """An IMP sends again."""
        self.do("resend", self.chance.choice([*self.subnet.sites]))

    def some_calm(self) -> None:
        """A round."""
        self.do("calm", 1)

    def trouble(self) -> None:
        """A host or an IMP stops, forgets, or throws pieces away."""
        imp, other = (self.chance.choice([*self.subnet.sites]) for _ in "ab")
        slots = [flow for it in self.up().values() for flow in it.slots]
        ways: list[Event] = [("hostdown", self.chance.choice(self.subnet.hosts()))] * 3
        ways += [("impdown", imp), ("forget", imp, other), ("forget", imp, other)]
        self.do(*self.chance.choice([*ways, *(("abandon", flow) for flow in slots)]))

    def some_recover(self) -> None:
        """What is down tries to come up; an IMP after what is in its way is asked for or given up, lost and forgotten."""
        for number, imp in self.subnet.imps.items():
            if imp is None and self.do("impup", number) and self.chance.random() < 0.6:
                self.clear(number)
                self.do("impup", number)
        for place, number in self.subnet.hosts():
            imp = self.subnet.imps[number]
            if imp is not None and not imp.hosts[place].is_up and self.chance.random() < 0.7:
                self.do("hostup", HostName(place, number))

    def clear(self, number: int) -> None:
        """What is in the way of an IMP is lost, given up or forgotten."""
        for line, way in self.frames():
            for _ in range(len(self.subnet.live[line][way])):
                self.do("drop", line, way, 0)
        for line in self.subnet.lines_of(number):
            far = sum(self.subnet.ends[line]) - number
            self.do("enddown", far, line)
            self.do("endup", far, line)
        for flow in self.outstanding():
            if flow.destination.imp == number and self.chance.random() < 0.8:
                self.do("giveup", flow)
        for other in self.up():
            self.do("forget", other, number)


# ---- what scripts come to


class Counted(Imp):
    """An IMP that counts what its questions come to."""

    seen: Counter[str]

    def answer_to(self, flow: Flow, number: int) -> Deed | None:
        fate = "new" if self.is_new(flow, number) else self.fates[flow] if self.kept[flow] == number else "older"
        self.seen[f"questions: {fate}"] += 1
        return super().answer_to(flow, number)


class Counting(Subnet):
    """A subnet whose IMPs count that."""

    def __init__(self, imps: Iterable[tuple[int, int]], lines: Sequence[tuple[int, ...]], numbers: Numbers = NUMBERS) -> None:
        self.seen: Counter[str] = Counter()
        super().__init__(imps, lines, numbers, Counted)

    def imp_of(self, number: int) -> Imp:
        imp = super().imp_of(number)
        assert isinstance(imp, Counted)
        imp.seen = self.seen
        return imp

    def came_to(self) -> Counter[str]:
        """What its questions and its answers were."""
        answers = Counter(f"answers: {crossing.answer}" for crossing in self.log if isinstance(crossing, Answered))
        return self.seen + answers
