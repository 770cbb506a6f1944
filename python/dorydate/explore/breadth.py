"""Every list of events, from the shortest, so that it can be said that no shorter script does what is asked.

Lists are followed state by state: two that leave the same state, and have come as far in the pattern, continue alike, so one of them is
enough. A state is the texts of all its parts, programs and services in the trace: by the laws of the trace they determine all that any later
event does and prints, but for lives. What is refused changes nothing, so it is not followed. Patterns about lives, or
about a last calm, are looked for in the lists themselves; those with a refused event are left out there, too.
"""

from __future__ import annotations

import json
import sys
import time
from collections.abc import Callable, Iterator, Sequence
from dataclasses import dataclass

from dorydate.explore.confirm import confirm
from dorydate.explore.many import CannotRun, Many
from dorydate.explore.pattern import START, Pattern, State, step
from dorydate.explore.seen import Seen
from dorydate.explore.shrink import Script as Events
from dorydate.explore.sides import Record, Sides, batches, calms_of
from dorydate.network import Network
from dorydate.program import Program
from dorydate.script import Calm, Event, Script
from dorydate.trace import fold
from dorydate.where import here

Texts = tuple[tuple[str, str], ...]  # what a state is, by the names of its parts


@dataclass(frozen=True)
class Node:
    """A script, and where it leads."""

    script: Events
    texts: Texts
    reached: tuple[State, ...]  # how far each part of the pattern has come
    arrived: frozenset[str]  # packets that have arrived, where the pattern asks for first arrivals

    def key(self) -> tuple[object, ...]:
        return self.texts, self.reached, self.arrived

    def is_lost(self) -> bool:
        """Whether the pattern can't come to its end any more, since what must not come has come."""
        return not all(self.reached)


@dataclass(frozen=True)
class Count:
    """What was looked at at a depth: steps, how many of them were refused, states that are new, all states, and seconds."""

    depth: int
    steps: int
    refused: int
    new: int
    states: int
    seconds: float

    def line(self) -> str:
        looked = f"{self.depth} events: {self.steps} steps, {self.refused} refused"
        return f"{looked}, {self.new} new states, {self.states} in all, {self.seconds:.1f} s"


class Walk:
    """A walk through all states that lists of events lead to, after an opening."""

    def __init__(self, network: Network, pattern: Pattern, program: Program, events: Sequence[Event], opening: Events = ()) -> None:
        self.network, self.pattern, self.events, self.opening = network, pattern, events, opening
        self.sides = Sides(network, program)
        self.needs_arrivals = "arrives" in pattern.heads()
        self.needs_refusals = any("refused" in it.words for it in pattern.sequels)
        self.counts: list[Count] = []
        self.clock: Callable[[], float] = time.monotonic
        self.states: dict[tuple[object, ...], int] = {}  # of each state that was seen its number
        self.ways: list[list[tuple[Event, int]]] = []  # of each the events that are served there, and where they lead

    def run(self, depth: int, seconds: float, shows: bool = False) -> Events | None:
        """The first script that matches, by its length; None where none of at most `depth` events does, or time is up. The counts say which."""
        begun = self.clock()
        root = self.root()
        if self.is_match(root):
            return ()
        self.states[root.key()] = 0
        self.ways.append([])
        edge = [root]
        for at in range(1, depth + 1):
            found: list[Node] = []
            steps = refused = 0
            for before, event, node in self.successors(edge):
                steps += 1
                if node is None:
                    refused += 1
                    continue
                if self.is_match(node):
                    return node.script
                self.take(before, event, node, found)
                if self.clock() - begun > seconds:
                    return None
            self.counts.append(Count(at, steps, refused, len(found), len(self.states), self.clock() - begun))
            if shows:
                print(f"explore: {self.counts[-1].line()}", file=sys.stderr, flush=True)
            edge = found
            if not edge:
                return None
        return None

    def is_all(self) -> bool:
        """Whether there are no states but those that were seen."""
        return bool(self.counts) and not self.counts[-1].new

    def take(self, before: Node, event: Event, node: Node, found: list[Node]) -> None:
        """Notes where an event leads."""
        if node.is_lost():
            return
        key = node.key()
        if key not in self.states:
            self.states[key] = len(self.ways)
            self.ways.append([])
            found.append(node)
        self.ways[self.states[before.key()]].append((event, self.states[key]))

    def is_match(self, node: Node) -> bool:
        """Whether the pattern has come to its end, with names that fit together."""
        if not self.pattern.sequels:
            return False
        found: list[dict[str, str]] = [{}]
        for sequel, state in zip(self.pattern.sequels, node.reached):
            ends = [dict(names) for at, names in state if at == len(sequel.parts)]
            found = [{**one, **other} for one in found for other in ends if all(one.get(name, word) == word for name, word in other.items())]
        return any(all(it.holds(names) for it in self.pattern.conditions) for names in found)

    # ---- steps

    def root(self) -> Node:
        """The state after the opening."""
        node = Node((), tuple(sorted(self.sides.first().items())), (START,) * len(self.pattern.sequels), frozenset())
        if not self.opening:
            return node
        (told,) = self.sides.run([self.opening], is_whole=True)
        return self.after(node, (), told)

    def successors(self, edge: Sequence[Node]) -> Iterator[tuple[Node, Event, Node | None]]:
        """What each event of the set leads to in each state: None where it is refused."""
        pairs = (((*self.opening, *node.script, event), (node, event)) for node in edge for event in self.events)
        for some in batches(pairs, self.sides.copies):
            for (_, (node, event)), told in zip(some, self.sides.run([script for script, _ in some])):
                is_refused = any(it.is_refused() for it in told) and not self.needs_refusals
                yield node, event, None if is_refused else self.after(node, (event,), told)

    def after(self, node: Node, events: Events, told: Sequence[Record]) -> Node:
        """The node after these records."""
        texts, reached = dict(node.texts), list(node.reached)
        seen = Seen(self.network)
        if self.pattern.needs_trace():
            seen.parts = {name: json.loads(text) for name, text in node.texts}
            seen.arrived = set(node.arrived)
        for record in told:
            for line in self.lines_of(record, seen) if self.pattern.needs_trace() else record.printed:
                words = line.split(" ")
                reached = [step(sequel, state, words) for sequel, state in zip(self.pattern.sequels, reached)]
            fold(texts, record.texts, "null")
        arrived = frozenset(seen.arrived) if self.needs_arrivals else frozenset()
        return Node((*node.script, *events), tuple(sorted(texts.items())), tuple(reached), arrived)

    def lines_of(self, record: Record, seen: Seen) -> Sequence[str]:
        """What is printed and seen of a record."""
        read = {"event": record.event, "printed": record.printed, "parts": {name: json.loads(text) for name, text in record.texts.items()}}
        return next(iter(seen.lines([json.dumps(read if record.fate is None else {**read, "fate": record.fate})])))[1]


# ---- patterns about lives or a last calm: the lists themselves


class Lists:
    """Lists of events none of which is refused, from the shortest, and what each prints with its last calm and lives."""

    def __init__(self, network: Network, pattern: Pattern, program: Program, events: Sequence[Event], opening: Events = ()) -> None:
        self.pattern, self.opening = pattern, opening
        self.walk = Walk(network, Pattern("", ()), program, events, opening)
        self.many = Many(network, program)
        self.count = self.whole = 0

    def run(self, depth: int, seconds: float) -> Events | None:
        """The first list that matches, by its length; None where none of at most `depth` events does, or time is up."""
        begun = time.monotonic()
        self.walk.run(depth, seconds)
        for length in range(1, (depth if self.walk.is_all() else len(self.walk.counts)) + 1):
            pairs = (((*self.opening, *it), it) for it in self.of_length(length))
            for some in batches(pairs, self.many.copies):
                self.count += len(some)
                if found := self.first_of(some):
                    return found
                if time.monotonic() - begun > seconds:
                    return None
            self.whole = length
        return None

    def of_length(self, length: int, state: int = 0) -> Iterator[Events]:
        """All lists of a number of events that are served, from a state on."""
        if not length:
            yield ()
            return
        for event, after in self.walk.ways[state]:
            for rest in self.of_length(length - 1, after):
                yield (event, *rest)

    def first_of(self, some: Sequence[tuple[Events, Events]]) -> Events | None:
        """The first of some lists that matches."""
        rounds = [*calms_of(some[0][0]), 0]
        parts = [split(self.many, copy, script) for copy, (script, _) in enumerate(some)]
        empty: list[list[list[str]]] = [[[]] * len(rounds)] * (self.many.copies - len(parts))
        results = self.many.run([*parts, *empty], rounds, self.pattern.calm.rounds, self.pattern.needs_lives())
        return next((script for (_, script), it in zip(some, results) if self.pattern.match(it.lines, it.last) is not None), None)


def split(many: Many, copy: int, script: Sequence[Event]) -> list[list[str]]:
    """The lines of a script between its calms, in a copy."""
    parts: list[list[str]] = [[]]
    for event in script:
        if isinstance(event, Calm):
            parts.append([])
        else:
            parts[-1].append(many.spelled(copy, event))
    return parts


# ---- the command


@dataclass(frozen=True)
class Asked:
    """What is asked: a network, a pattern, the script with which each list begins, the events of which lists are made, and limits."""

    network: Network
    pattern: Pattern
    opening: Events
    events: tuple[Event, ...]
    depth: int
    seconds: float

    def words(self) -> str:
        """The events in words."""
        calms = sorted({it.rounds for it in self.events if isinstance(it, Calm)})
        plain = len(self.events) - len(calms)
        after = f" after the {len(self.opening)} of the file" if self.opening else ""
        return f"these {plain} events" + (f" and calms of {' or '.join(map(str, calms))} rounds" if calms else "") + after


def by_whom(program: Program) -> str:
    """What is said of a program without proofs."""
    return " (by the program without proofs)" if program.path.endswith("-unproved") else ""


def command(asked: Asked, program: Program) -> int:
    """Looks at every list of at most a number of events, and prints what was seen."""
    network, pattern = asked.network, asked.pattern
    if pattern.needs_lives() or pattern.calm.rounds:
        lists = Lists(network, pattern, program, asked.events, asked.opening)
        print("explore: the pattern is about lives or a last calm, so lists are looked at one by one, and not states", file=sys.stderr)
        script, whole, is_all = lists.run(asked.depth, asked.seconds), lists.whole, False
        print(f"explore: {lists.count} lists in which nothing is refused were run", file=sys.stderr)
    else:
        walk = Walk(network, pattern, program, asked.events, asked.opening)
        script = walk.run(asked.depth, asked.seconds, True)
        whole, is_all = len(walk.counts), walk.is_all()
    if script is None and is_all:
        print(f"explore: none of any length of {asked.words()}: these are all states{by_whom(program)}", file=sys.stderr)
        return 1
    if script is None:
        print(f"explore: none of up to {whole} of {asked.words()}{by_whom(program)}", file=sys.stderr)
        if whole < asked.depth:
            print(f"explore: not found; time was up before all of {whole + 1} were looked at", file=sys.stderr)
        return 1
    confirm(network, pattern, (*asked.opening, *script), program)
    print(f"explore: {len(script)} events, and no fewer of {asked.words()} do it{by_whom(program)}", file=sys.stderr)
    print(Script.of(network, (*asked.opening, *script), [here("Found by ./explore --all: ") + pattern.text]).text(), end="")
    return 0


def checked(network: Network, pattern: Pattern) -> None:
    """Raises CannotRun where a pattern asks for what this network can't show."""
    if pattern.needs_trace() and not (network.raw and network.carrier == "subnet"):
        raise CannotRun("only raw subnets have the lines of a trace: `noted`, `arrives`, `slots`")
