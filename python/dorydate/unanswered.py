"""What crossed and has no answer yet, and what has to be forgotten and given up before an IMP may start again."""

from __future__ import annotations

from collections.abc import Iterable

from dorydate.network import Host
from dorydate.printed import flow_of
from dorydate.script import Event, Flow, Forget, GiveUp


class Unanswered:
    """The flows whose last message has no answer yet, each with the time at which that went out."""

    def __init__(self) -> None:
        self.flows: dict[Flow, float] = {}

    def see(self, line: str, now: float = 0.0) -> None:
        """Takes a printed line into account. A host that stops gets no answer any more."""
        word, *words = line.split(" ")
        if word == "out":
            self.flows[Flow.read(*words[:3])] = now
        elif word == "answer":
            self.flows.pop(Flow.read(*words[1:4]), None)
        elif word == "down":
            stopped = Host.read(words[0])
            self.flows = {flow: since for flow, since in self.flows.items() if flow.source != stopped}


def reached(imp: int, printed: Iterable[str]) -> set[int]:
    """The other IMPs that messages of hosts at an IMP went to."""
    return {flow.destination.imp for flow in map(flow_of, printed) if flow and flow.source.imp == imp} - {imp}


def before_a_start(imp: int, unanswered: Iterable[Flow], known: Iterable[int]) -> list[Event]:
    """What is given up and forgotten before an IMP may start: what waits for its hosts, and its numbers elsewhere."""
    asked: list[Event] = [GiveUp(flow) for flow in unanswered if flow.destination.imp == imp]
    return asked + [Forget(other, imp) for other in sorted(known)]
