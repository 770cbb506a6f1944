"""A session: events that its parts wish for happen, are written, and only then are heard of."""

from __future__ import annotations

import time
from collections.abc import Callable, Sequence
from dataclasses import dataclass, field

from dorydate.live.engine import Engine, changes
from dorydate.live.record import Record
from dorydate.network import Host, Network
from dorydate.printed import flow_of, refusal
from dorydate.script import Event, Flow
from dorydate.unanswered import Unanswered

Hear = Callable[[Sequence[str]], None]


def nothing(said: Sequence[str]) -> None:
    """What most wishes do with what they printed."""


@dataclass(frozen=True)
class Wish:
    """An event that is to happen in a round, and who hears what it printed."""

    event: Event
    heard: Hear = nothing


class Known:
    """What printed lines say: the hosts that are up, what has no answer, and where an IMP's messages went."""

    def __init__(self, network: Network) -> None:
        self.up = {*network.hosts()}
        self.unanswered = Unanswered()
        self.left: dict[Host, set[Flow]] = {}  # what had no answer when its host stopped
        self.reached: dict[int, set[int]] = {it.number: set() for it in network.imps}

    def without_answer(self) -> list[Flow]:
        """The flows with a message that has no answer, of hosts that have stopped too."""
        return [*self.unanswered.flows, *(flow for flows in self.left.values() for flow in flows)]

    def see(self, line: str) -> None:
        word, *words = line.split(" ")
        if word == "down":
            host = Host.read(words[0])
            self.up.discard(host)
            self.left.setdefault(host, set()).update(it for it in self.unanswered.flows if it.source == host)
        elif word == "up":
            self.up.add(host := Host.read(words[0]))
            self.left.pop(host, None)
        elif word == "out" and (flow := flow_of(line)):
            self.reached[flow.source.imp].add(flow.destination.imp)
        self.unanswered.see(line, time.monotonic())


@dataclass
class Session:
    """A network that runs, and its record."""

    network: Network
    engine: Engine
    record: Record
    say: Callable[[str], None]
    known: Known = field(init=False)
    hears: list[Hear] = field(default_factory=list)
    events: int = 0

    def __post_init__(self) -> None:
        self.known = Known(self.network)

    def happen(self, wishes: Sequence[Wish]) -> bool:
        """Lets events happen, and says whether one of them printed something and was not refused."""
        heard = self.engine.hear([it.event for it in wishes]) if wishes else []
        happened = [(it.event, said) for it, said in zip(wishes, heard) if changes(it.event, said)]
        self.record.add(happened)
        self.events += len(happened)
        printed = False
        for wish, said in zip(wishes, heard):
            if said and refusal(said) is None:
                printed = True
                for line in said:
                    self.known.see(line)
                for hear in self.hears:
                    hear(said)
            wish.heard(said)
        return printed

    def resume(self, lines: Sequence[bytes]) -> None:
        """Takes into account what an earlier session printed."""
        for line in self.engine.resumed(lines):
            self.known.see(line)
