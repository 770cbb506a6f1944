"""The mailboxes that the network promises its hosts: whether a log is a run of them, independently implemented.

It was written from docs/mailboxes.md, in another language and another form than the definitions, and it knows nothing of IMPs,
lines and numbers. `check asking` judges the logs of the independent model by it.
"""

from __future__ import annotations

from collections.abc import Iterable, Sequence
from typing import Literal

from dorydate.model.bits import Bits
from dorydate.model.crossings import Answered, Crossing, Passed, Turned
from dorydate.model.names import Flow, HostName

Holds = Literal["waits", "taken"]
NEEDS: dict[str, tuple[Holds, ...]] = {  # of each answer: what its flow's box has to hold
    "rfnm": ("taken",),
    "incomplete": ("waits", "taken"),
    "dead": ("waits",),
    "nottaken": ("waits",),
}


class Mailboxes:
    """Which hosts are up, and of each flow whose box is not empty what it holds, with the text."""

    def __init__(self, hosts: Iterable[HostName]) -> None:
        self.is_up = dict.fromkeys(hosts, True)
        self.boxes: dict[Flow, tuple[Holds, Bits]] = {}

    def crosses(self, crossing: Crossing) -> bool:
        """Whether a crossing finds what it needs; then hosts and boxes are as it leaves them."""
        if isinstance(crossing, Passed):
            return self.goes_out(crossing) if crossing.kind == "out" else self.is_taken(crossing)
        return self.is_answered(crossing) if isinstance(crossing, Answered) else self.turns(crossing)

    def goes_out(self, crossing: Passed) -> bool:
        fits = self.is_up.get(crossing.flow.source, False) and crossing.flow not in self.boxes
        self.boxes[crossing.flow] = "waits", crossing.text
        return fits

    def is_taken(self, crossing: Passed) -> bool:
        fits = self.is_up.get(crossing.flow.destination, False) and self.boxes.get(crossing.flow) == ("waits", crossing.text)
        self.boxes[crossing.flow] = "taken", crossing.text
        return fits

    def is_answered(self, crossing: Answered) -> bool:
        holds = self.boxes.pop(crossing.flow, None)
        return self.is_up.get(crossing.flow.source, False) and holds is not None and holds[0] in NEEDS[crossing.answer]

    def turns(self, crossing: Turned) -> bool:
        fits = self.is_up.get(crossing.host) is (crossing.kind == "down")
        self.is_up[crossing.host] = crossing.kind == "up"
        self.boxes = {flow: it for flow, it in self.boxes.items() if self.keeps(flow, crossing)}
        return fits

    def keeps(self, flow: Flow, crossing: Turned) -> bool:
        """Whether a flow's box stays as it is: what a host handed over is forgotten as it comes up."""
        return crossing.kind == "down" or flow.source != crossing.host


def hosts_of(log: Iterable[Crossing]) -> set[HostName]:
    """The hosts that a log names."""
    return {host for it in log for host in ([it.host] if isinstance(it, Turned) else [it.flow.source, it.flow.destination])}


def first_break(hosts: Iterable[HostName], log: Sequence[Crossing], kind: type[Mailboxes] = Mailboxes) -> int | None:
    """The place of the first crossing that finds no box as it needs it; None where the log is a run."""
    mailboxes = kind(hosts)
    return next((place for place, crossing in enumerate(log) if not mailboxes.crosses(crossing)), None)


def never_taken(log: Iterable[Crossing]) -> bool:
    """Whether of no message whose source was notified of "not taken" a taking is in the log, before or after: none between its going out and
    the next one's on its flow."""
    taken: set[Flow] = set()  # flows whose last message was taken
    told: set[Flow] = set()  # and those of whose last message "not taken" was reported
    for crossing in log:
        if isinstance(crossing, Passed) and crossing.kind == "out":
            taken.discard(crossing.flow)
            told.discard(crossing.flow)
        elif isinstance(crossing, Passed):
            taken.add(crossing.flow)
        elif isinstance(crossing, Answered) and crossing.answer == "nottaken":
            told.add(crossing.flow)
        if taken & told:
            return False
    return True
