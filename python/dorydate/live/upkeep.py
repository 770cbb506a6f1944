"""What an operator does about messages without an answer: the IMP asks, and after a while they are given up."""

from __future__ import annotations

import time
from collections.abc import Iterator

from dorydate.live.session import Session, Wish
from dorydate.script import Ask, Flow, GiveUp

ASKED_AFTER = 2.0  # seconds without an answer
GIVEN_UP_AFTER = 10.0
AGAIN = 1.0  # seconds between two tries


class Upkeep:
    """The operator of a live network."""

    def __init__(self, session: Session, after: float = GIVEN_UP_AFTER) -> None:
        self.session, self.after = session, after
        self.tried: dict[Flow, float] = {}  # when something was last tried for a flow

    def wishes(self) -> Iterator[Wish]:
        now = time.monotonic()
        flows = self.session.known.unanswered.flows
        self.tried = {flow: when for flow, when in self.tried.items() if flow in flows}
        for flow, since in flows.items():
            if now - since < ASKED_AFTER or now - self.tried.get(flow, 0) < AGAIN:
                continue
            self.tried[flow] = now
            if now - since >= self.after:
                yield Wish(GiveUp(flow))
            elif self.session.network.carrier == "subnet":
                yield Wish(Ask(flow))
