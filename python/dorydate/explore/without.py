"""Which promise breaks without a rule: the shortest script that is found in the independent model that lacks it.

The program has all its rules. So this runs in the model in Python, some hundred schedules a second. Of a raw network what crossed is checked
against the table of the mailboxes, and of hosts with programs the book against the model's audit. Scripts come from random schedules;
for rules about numbers that wrap around from a search that climbs by a plan (`oldest`), in a model with few numbers;
and from the folder `without`, where it is there, whose script for the rule is shortened.
"""

from __future__ import annotations

import random
import sys
import time
from collections.abc import Iterable, Sequence
from dataclasses import dataclass
from functools import partial
from pathlib import Path
from typing import ClassVar

from dorydate.explore.kinds import Maker, chosen, pools
from dorydate.explore.oldest import Plan, climbed
from dorydate.explore.shrink import Script as Events
from dorydate.explore.shrink import Shrinker, cost
from dorydate.model.imp_state import NUMBERS, Numbers
from dorydate.model.runs import Place
from dorydate.model.script import Event as ModelEvent
from dorydate.model.topology import Topology
from dorydate.model.without import HARMLESS, LACKING, broken, opened_without, read_line
from dorydate.model.without.stored import Lesson, unrolled
from dorydate.network import Network
from dorydate.script import Event, GiveUp, Script, read_event
from dorydate.where import here, repository

RAW = Network.joined("LEFT-RIGHT", raw=True)
PROGRAMS = Network.joined("LEFT", "RIGHT", carrier="plain")
FEW = Numbers(3, 1)  # the fewest that keep the laws: what wraps around does so after three messages
SENDING = ("out", "deliver", "ask", "drop", "giveup")
STOPPING = ("out", "deliver", "impdown", "impup", "hostup")
# of one flow, what the two rules about numbers that wrap around are about
ONE_FLOW = ("calm 1", "out 0/1 0/2 0 0 -", "ask 0/1 0/2 0")
FRAMES = tuple(f"deliver 0 {way} {place}" for way in "+-" for place in range(6))
LOSSES = ("giveup 0/1 0/2 0", "drop 0 + 0", "enddown 1 0", "endup 1 0")
COMES_ROUND = Plan(("out", "in", "rfnm", "out", "in", "rfnm", "out"))
BEGUN_AGAIN = Plan(("out", "in", "rfnm", "out", "incomplete", "out", "incomplete", "out"), is_kept=True)


@dataclass(frozen=True)
class Hold(GiveUp):
    """A message of plain mailboxes is held back: only the model has this event."""

    word: ClassVar[str] = "hold"


@dataclass(frozen=True)
class Free(GiveUp):
    """It is let go."""

    word: ClassVar[str] = "free"


@dataclass(frozen=True)
class Sought:
    """Where a rule is sought: the network, the kinds of events that matter, all where none are named, the model's
    numbers, and where the search climbs the lines of which lists are made, and its plan."""

    network: Network = PROGRAMS
    kinds: tuple[str, ...] = ()
    numbers: Numbers = NUMBERS
    lines: tuple[str, ...] = ()
    plan: Plan | None = None


# words of the rules of the network below hosts; all others are of hosts' programs
OF_NETWORK = {
    "whole message": Sought(RAW, SENDING),
    "a window": Sought(RAW, SENDING, FEW, (*ONE_FLOW, "take 0/1", "take 0/2", *FRAMES), COMES_ROUND),
    "an IMP comes up": Sought(RAW, STOPPING),
    "given up": Sought(RAW, SENDING),
    "it is asked about": Sought(RAW, SENDING),
    "a question": Sought(RAW, SENDING),
    "IMP keeps": Sought(RAW, SENDING, FEW, (*ONE_FLOW, *LOSSES), BEGUN_AGAIN),
}
LENGTH = 16  # events of a schedule: the model is slow
MOST_STEPS = 200_000  # of a search that climbs
MATCHES = 5  # scripts that are shrunk; the shortest is taken


def rules() -> list[str]:
    """The rules that can be left out."""
    return [*LACKING]


def print_rules() -> int:
    for rule in rules():
        print(rule + (" (nothing was seen to break without only this rule)" if rule in HARMLESS else ""))
    return 0


def sought_for(rule: str) -> Sought:
    """Where a rule is sought."""
    return next((it for words, it in OF_NETWORK.items() if words in rule), Sought())


class Lacking:
    """A network whose model lacks a rule."""

    def __init__(self, rule: str | None, sought: Sought) -> None:
        self.rule, self.sought = rule, sought
        network = sought.network
        self.read: dict[Event, ModelEvent] = {}
        self.as_model = Topology(network.carrier, network.raw, [(it.number, it.hosts) for it in network.imps], [(it.a, it.b) for it in network.lines])

    def after(self, script: Iterable[Event]) -> Place:
        """The network after a script."""
        place = opened_without(self.rule, self.as_model, self.sought.numbers)
        for event in script:
            if event not in self.read:
                self.read[event] = self.of_model(event)
            place.happen(*self.read[event])
        return place

    def breaks(self, script: Sequence[Event]) -> str | None:
        """The first part of the promise that breaks."""
        return broken(self.after(script))

    def of_model(self, event: Event) -> ModelEvent:
        """An event as the model has it."""
        read = read_line(str(event), self.sought.network.raw)
        assert read is not None
        return read

    def breaks_as(self, part: str, script: Sequence[Event]) -> bool:
        """Whether this part of the promise breaks first; of a raw network, whether any does."""
        found = self.breaks(script)
        return found is not None if self.sought.network.raw else found == part


@dataclass(frozen=True)
class Broke:
    """A script that breaks a part of the promise, how the first one was found, and how few numbers the model had."""

    script: Events
    part: str
    how: str
    numbers: Numbers


class Search:
    """The search for scripts that break something without a rule."""

    def __init__(self, rule: str, seed: int) -> None:
        self.sought = sought_for(rule)
        self.rule, self.chance = rule, random.Random(seed)
        self.lacking = Lacking(rule, self.sought)
        self.schedules = self.steps = 0
        self.best: Broke | None = None

    def run(self, seconds: float, runs: int, matches: int = MATCHES) -> Broke | None:
        """The shortest script of some that break something, each shrunk; None where none was found."""
        begun = time.monotonic()
        if self.sought.plan:
            self.climb(seconds)
        else:
            self.schedule(begun, seconds, runs, matches)
        if lesson := stored_for(self.rule):
            self.shorten(lesson)
        return self.best

    def climb(self, seconds: float) -> None:
        """Climbs by the plan of the rule."""
        assert self.sought.plan is not None
        events = [(it, self.lacking.of_model(it)) for it in map(read_event, self.sought.lines)]
        place = opened_without(self.rule, self.lacking.as_model, self.sought.numbers)
        script, self.steps = climbed(place, events, self.sought.plan, seconds, MOST_STEPS)
        if script:
            self.take(script, self.lacking, f"after {self.steps} steps")

    def schedule(self, begun: float, seconds: float, runs: int, matches: int) -> None:
        """Runs random schedules."""
        every = pools(self.sought.network)
        found = chosen(every, self.sought.kinds) if self.sought.kinds else every
        maker = Maker(found, LENGTH if self.sought.network.raw else 40, opening=1)
        while matches and self.schedules < runs and time.monotonic() - begun < seconds:
            self.schedules += 1
            (parts,), calms = maker.batch(self.chance, 1) if self.schedules % 2 else second_of(maker, self.chance)
            if self.take(tuple(maker.script(parts, calms)), self.lacking, f"after {self.schedules} schedules"):
                matches -= 1

    def shorten(self, lesson: Lesson) -> None:
        """Takes the stored script of the rule."""
        lines = [it for it in unrolled(lesson.script) if it and not it.startswith("#")]
        sought = Sought(self.sought.network, numbers=lesson.numbers)
        self.take(tuple(map(event_of, lines)), Lacking(self.rule, sought), "by a stored script")

    def take(self, script: Events, lacking: Lacking, how: str) -> bool:
        """Shrinks a script, if it breaks something, and keeps it if it is the shortest."""
        part = lacking.breaks(script)
        if part is None:
            return False
        short = Shrinker(partial(lacking.breaks_as, part), 3000).shrink(script)
        if self.best is None or cost(short) < cost(self.best.script):
            how = self.best.how if self.best else how
            self.best = Broke(short, lacking.breaks(short) or part, how, lacking.sought.numbers)
        return True


def event_of(line: str) -> Event:
    """The event of a line, those that only the model has included."""
    kind, _, rest = line.partition(" ")
    made = {"hold": Hold, "free": Free}.get(kind)
    if made is None:
        return read_event(line)
    event = read_event(f"giveup {rest}")
    assert isinstance(event, GiveUp)
    return made(event.flow)


def stored_for(rule: str) -> Lesson | None:
    """The shortest stored script of a rule, where the folder `without` is there."""
    root = repository()
    paths = sorted((root / "without" / "shortest").glob("*")) if root else []
    return next((it for it in (Lesson(str(path)) for path in paths if path.is_file()) if it.rule == rule), None)


def second_of(maker: Maker, chance: random.Random) -> tuple[list[list[list[int]]], list[int]]:
    """A schedule with flat weights: of two networks side by side the second has them."""
    parts, calms = maker.batch(chance, 2)
    return parts[1:], calms


def command(words: str, seed: int, seconds: float, runs: int, file: str | None = None) -> int:
    """Prints the shortest script that breaks a promise without the rule that these words name."""
    meant = [it for it in rules() if words in it]
    if len(meant) != 1:
        print(f"explore: {len(meant)} rules have these words; {here('./explore')} --rules prints all", file=sys.stderr)
        return 2
    (rule,) = meant
    print(f"explore: without the rule: {rule}", file=sys.stderr)
    search = Search(rule, seed)
    broke = search.run(seconds, runs)
    looked = f"{search.steps} steps" if search.sought.plan else f"{search.schedules} schedules"
    if broke is None:
        print(f"explore: nothing broke in {looked}", file=sys.stderr)
        return 1
    print(f"explore: something broke first {broke.how}, of {looked}; shrunk to {len(broke.script)} events", file=sys.stderr)
    text = Script.of(search.sought.network, broke.script, heading(rule, broke)).text()
    print(text, end="")
    if file:
        Path(file).write_text(text, encoding="utf-8")
    return 0


def heading(rule: str, broke: Broke) -> list[str]:
    """The comments by which `./check headline` knows what a script is about."""
    numbers = [f"numbers: {broke.numbers.count} {broke.numbers.window}"] if broke.numbers != NUMBERS else []
    return [f"lacks: {rule}", f"breaks: {broke.part}", *numbers]
