"""The search for a reassembly lockup, by a measure from the trace.

Eight messages hold the eight slots of an IMP, each with a piece that waits elsewhere; and those pieces can't come, since all eight
channels towards the IMP are full of a message that finds no slot. Nothing is lost, all is up, and nothing moves any more. Before the end
nothing that is printed differs, so random schedules don't find it. What a trace shows differs: a message whose first piece
goes ahead while its last has not left is torn, and the more messages are torn, and the more of another message waits beside the
slots, the nearer is the lockup. The search climbs by that.
"""

from __future__ import annotations

import json
import random
import re
import sys
import time
from collections.abc import Iterable, Sequence
from typing import Any

from dorydate.explore.many import CannotRun, Many, One
from dorydate.explore.shrink import Script as Events
from dorydate.explore.shrink import Shrinker
from dorydate.network import Host, Network
from dorydate.program import Program
from dorydate.script import Calm, Deliver, Event, Flow, Out, Script, Text, octets_of
from dorydate.trace import opening
from dorydate.where import here

WHAT = "eight messages hold all slots of an IMP, and their pieces can never come: by a measure from the trace"
NETWORK = Network.joined("WEST-MIDDLE-EAST", raw=True)
SOURCE, BESIDE, TARGET = Host(0, 1), Host(0, 2), Host(0, 3)
TWO_PIECES, EIGHT_PIECES = Text.of(b"A" * 126), Text.of(b"B" * 883)
SLOTS = 8
LAST = 20  # rounds of the last calm, in which nothing may be printed
PLACES = 16
MOST_EVENTS = 120  # of a script: longer ones are cut
NEAR = 4 * SLOTS + 6  # as near as a lockup is, or what only looks like one
STALE_AT_THE_TOP = 40
STALE = 200  # batches without a better script, after which the search begins anew
OPENING = Calm(2)


def events() -> list[Event]:
    """What the search draws from: messages of two pieces from far, one of eight from beside the destination, and frames that arrive."""
    outs: list[Event] = [Out(Flow(SOURCE, TARGET, link), TWO_PIECES) for link in range(SLOTS)]
    outs.append(Out(Flow(BESIDE, TARGET, 0), EIGHT_PIECES))
    return outs


def frames() -> list[Event]:
    return [Deliver(line, way, place) for line in (0, 1) for way in "+-" for place in range(PLACES)]


Piece = tuple[str, int]  # flow and number of its message, and its place


def pieces_of(packets: Iterable[Any]) -> set[Piece]:
    """The pieces of messages among packets."""
    return {(f"{it['from']} {it['to']} {it['link']} {it['number']}", it["place"]) for it in packets if it["kind"] == "data"}


def leaving(imp: Any) -> set[Piece]:
    """The pieces that wait in the store and in channels of an IMP."""
    busy = [it["packet"] for port in imp["ports"] for it in port["sending"] if "packet" in it]
    return pieces_of([*busy, *imp["store"]])


def in_slots(imp: Any) -> set[Piece]:
    """The pieces of messages in reassembly at an IMP."""
    return pieces_of(it for slot in imp["slots"] for it in slot)


def held_by(imp: Any) -> set[Piece]:
    """The pieces that an IMP holds."""
    return leaving(imp) | in_slots(imp) if imp else set()


def torn(imps: Sequence[Any]) -> int:
    """How many messages from far are torn: their first piece has come to a further IMP, and their last has not left the first one.
    One counts more where the first IMP no longer holds its first piece, since its channel is free again."""
    first, further = held_by(imps[0]), set().union(*map(held_by, imps[1:]))
    return sum(4 + ((message, 0) not in first) for message, piece in further if piece == 0 and (message, 1) in first and (message, 1) not in further)


def measure(imps: Sequence[Any]) -> int:
    """How near the lockup is: messages that are torn, one for each slot; and then, how much of another waits beside the destination."""
    apart = min(torn(imps), 5 * SLOTS)
    waiting = leaving(imps[1]) if imps[1] and apart >= 4 * SLOTS else set()
    return apart + sum(piece >= 2 for _, piece in waiting)


def is_locked(imps: Sequence[Any]) -> bool:
    """Whether all slots of the destination are held, and of each message a piece that it lacks is still alive before it."""
    if any(imp is None for imp in imps) or len(imps[-1]["slots"]) < SLOTS:
        return False
    before = {piece for imp in imps[:-1] for piece in leaving(imp)}
    held = in_slots(imps[-1])
    return all(any(other == message and (other, piece) not in held for other, piece in before) for message in {it for it, _ in held})


class Climb:
    """The search: scripts that are changed a little, those that come nearer are changed again."""

    def __init__(self, program: Program, seed: int) -> None:
        self.many, self.one = Many(NETWORK, program), One(NETWORK, program)
        self.chance = random.Random(seed)
        self.outs, self.frames = events(), frames()
        self.tried = 0

    # ---- what a script comes to

    def traced(self, many: Many, scripts: Sequence[Events], last: int = 0) -> list[str]:
        """The lines of a trace of scripts side by side, with a calm after all of them perhaps."""
        lines = [many.spelled(copy, it) for copy, script in enumerate(scripts) for it in script]
        text = [f"calm {OPENING.rounds}", *lines, *([f"calm {last}"] if last else [])]
        ran = many.program.run(octets_of(many.head + "".join(f"{it}\n" for it in text)), "--trace")
        if ran.status:
            raise CannotRun(f"the program says: {ran.said.strip()} (status {ran.status})")
        return ran.output.splitlines()

    def measures(self, scripts: Sequence[Events]) -> list[int]:
        """How near the lockup scripts come, which are run side by side."""
        self.tried += len(scripts)
        imps = imps_at(self.traced(self.many, scripts), self.many)
        return [measure(imps[copy * self.many.size : (copy + 1) * self.many.size]) for copy in range(len(scripts))]

    def locks(self, script: Events) -> bool:
        """Whether a script, in a process of its own, comes to a lockup that lasts: nothing is printed in a last calm."""
        result = self.one.of((OPENING, *script), LAST)
        return not result.last and is_locked(imps_at(self.traced(self.one, [script], LAST), self.one))

    # ---- changes

    def changed(self, script: Events) -> Events:
        """A script with something more at its end, or elsewhere, or something less."""
        draw = self.chance.random() if len(script) < MOST_EVENTS else 1.0
        if draw < 0.7:
            return script + tuple(self.addition() for _ in range(self.chance.choice((1, 1, 2, 3))))
        at = self.chance.randrange(len(script) + 1)
        if draw < 0.85 or not script:
            return script[:at] + (self.addition(),) + script[at:]
        at = min(at, len(script) - 1)
        return script[:at] + script[at + 1 :]

    def addition(self) -> Event:
        return self.chance.choice(self.outs) if self.chance.random() < 0.35 else self.chance.choice(self.frames)

    def run(self, seconds: float, is_shown: bool = False) -> Events | None:
        """A script that ends in a lockup; None where time is up."""
        begun = shown = time.monotonic()
        edge: list[tuple[int, Events]] = [(0, ())]
        stale = 0  # batches since the best was found
        while time.monotonic() - begun < seconds:
            scripts = [self.changed(self.chance.choice(edge)[1]) for _ in range(self.many.copies)]
            best = max(value for value, _ in edge)
            for script, value in zip(scripts, self.measures(scripts)):
                edge.append((value, script))
                if value >= NEAR and self.chance.random() < 0.25 and self.locks(script):
                    return script
            edge = self.kept(edge)
            if edge[0][0] > best:
                edge = [(edge[0][0], self.trimmed(edge[0][1], edge[0][0]))]
                stale = 0
            stale += 1
            if stale > (STALE if edge[0][0] < NEAR else STALE_AT_THE_TOP):
                edge, stale = [(0, ())], 0
            if is_shown and time.monotonic() - shown > 1:
                shown = time.monotonic()
                print(f"explore: {self.tried} schedules, {self.tried / (shown - begun):.0f} a second; nearest {edge[0][0]} of {6 * SLOTS}", file=sys.stderr, flush=True)
        return None

    def trimmed(self, script: Events, value: int) -> Events:
        """A script without what its measure doesn't need: short ones are run faster, and changes of them do more."""
        part = max(len(script) // 4, 1)
        while part:
            shorter = [script[:at] + script[at + part :] for at in range(0, len(script), part)]
            measures = [it for at in range(0, len(shorter), self.many.copies) for it in self.measures(shorter[at : at + self.many.copies])]
            kept = [at for at, it in enumerate(measures) if it >= value]
            without = tuple(event for at, event in enumerate(script) if at // part not in kept)
            if kept and self.measures([without])[0] >= value:
                script = without  # all of them together
            elif kept:
                script = shorter[kept[-1]]
                continue
            part //= 2
        return script

    def kept(self, scripts: list[tuple[int, Events]], most: int = 16) -> list[tuple[int, Events]]:
        """The nearest scripts; among equals any, the last ones first, so that they keep changing."""
        unique = {script: (value, at) for at, (value, script) in enumerate(scripts)}
        order = sorted(unique.items(), key=lambda it: (-it[1][0], -it[1][1]))
        return [(value, script) for script, (value, _) in order[:most]]

    def shortest(self, script: Events) -> tuple[Events, int]:
        shrinker = Shrinker(self.locks, 8000)
        return shrinker.shrink(script), shrinker.runs


def imps_at(trace: Sequence[str], many: Many) -> list[Any]:
    """The last part of each IMP in the lines of a trace, which are read from their end."""
    wanted = many.copies * many.size
    found: dict[int, Any] = {}
    for record in reversed(trace[1:]):
        if len(found) == wanted:
            break
        number = int(name[1]) if (name := re.search(r'"imp (\d+)"', record)) else 0
        if 0 < number <= wanted and number not in found:
            found[number] = json.loads(record)["parts"][f"imp {number}"]
    first = opening(f"{trace[0]}\n")["parts"]
    return [found[it] if it in found else first[f"imp {it}"] for it in range(1, wanted + 1)]


def command(program: Program, seed: int, seconds: float) -> int:
    """Prints the shortest script of a lockup."""
    climb = Climb(program, seed)
    begun = time.monotonic()
    script = climb.run(seconds, True)
    took = time.monotonic() - begun
    if script is None:
        print(f"explore: nothing found in {climb.tried} schedules and {took:.0f} s", file=sys.stderr)
        return 1
    tried = climb.tried
    short, runs = climb.shortest(script)
    print(f"explore: a lockup after {tried} schedules and {took:.1f} s, with {len(script)} events; shrunk to {len(short)} in {runs} runs", file=sys.stderr)
    print(Script.of(NETWORK, (OPENING, *short, Calm(LAST)), [here("Found by ./explore lockup: ") + WHAT]).text(), end="")
    return 0
