"""Plain mailboxes: an independent implementation of their rules.

They were written from docs/mailboxes.md, in another language and another form than the definitions. `check model` compares
the program with them.
"""

from __future__ import annotations

from collections.abc import Iterable
from typing import Any

from dorydate.model.bits import Bits
from dorydate.model.crossings import Answer, Answered, Carrier, Given, Message, Passed, Reply, Turned
from dorydate.model.names import Flow, HostName, Refused

TAKES = 16  # so often a host takes in a round of `calm` at most
EVENTS = ("out", "take", "giveup", "hostdown", "hostup", "calm")


class Boxes(Carrier):
    """A network that loses nothing and delays nothing."""

    def __init__(self, imps: Iterable[tuple[int, int]]) -> None:
        super().__init__()
        self.is_up = {HostName(host, number): True for number, count in sorted(imps) for host in range(count)}
        self.messages: list[tuple[Flow, Bits]] = []  # the oldest first
        self.answers: list[Reply] = []  # the oldest first

    def step(self, kind: str, *parts: Any) -> None:
        if kind not in EVENTS:
            raise Refused("NoSuch")
        super().step(kind, *parts)

    def hosts(self) -> list[HostName]:
        return [*self.is_up]

    def host(self, host: HostName) -> None:
        """Refuses a host that is not there."""
        if host not in self.is_up:
            raise Refused("NoSuch")

    def up(self, host: HostName) -> None:
        """Refuses a host that is not there and up."""
        self.host(host)
        if not self.is_up[host]:
            raise Refused("IsDown")

    def out(self, flow: Flow, text: Bits) -> None:
        self.up(flow.source)
        if any(it == flow for it, _ in self.messages) or any(it.flow == flow for it in self.answers):
            raise Refused("Blocked")
        self.cross(Passed("out", flow, text))
        if self.is_up.get(flow.destination):
            self.messages.append((flow, text))
        else:
            self.answers.append(Reply("dead", flow))

    def take(self, host: HostName) -> Given | None:
        self.up(host)
        for answer in self.answers:
            if answer.flow.source == host:
                self.answers.remove(answer)
                self.cross(Answered("answer", *answer))
                return answer
        for flow, text in self.messages:
            if flow.destination == host:
                self.messages.remove((flow, text))
                self.cross(Passed("in", flow, text))
                self.tell("rfnm", flow)
                return Message("message", flow, text)
        return None

    def quiet_round(self) -> None:
        """Nothing is ever on its way."""

    def is_quiet(self) -> bool:
        return True

    def state(self) -> object:
        return [*self.messages], [*self.answers], dict(self.is_up)

    def calm(self, rounds: int) -> None:
        """Every host that is up takes what waits, at most 16 things a round."""
        for _ in range(rounds):
            before = len(self.log)
            for host in [host for host, is_up in self.is_up.items() if is_up]:
                for _ in range(TAKES):
                    self.take(host)
            if len(self.log) == before:
                break  # nothing is left for a later round

    def giveup(self, flow: Flow) -> None:
        self.host(flow.source)
        waits = [it for it in self.messages if it[0] == flow]
        if not waits and Reply("rfnm", flow) not in self.answers:
            raise Refused("NotOutstanding")
        self.messages = [it for it in self.messages if it not in waits]
        self.answers = [it for it in self.answers if it != Reply("rfnm", flow)]
        self.tell("incomplete", flow)

    def hostdown(self, host: HostName) -> None:
        self.up(host)
        self.cross(Turned("down", host))
        self.is_up[host] = False
        lost = [flow for flow, _ in self.messages if flow.destination == host]
        self.messages = [it for it in self.messages if it[0].destination != host]
        self.answers = [it for it in self.answers if it.flow.source != host]
        for flow in lost:
            self.tell("dead", flow)

    def hostup(self, host: HostName) -> None:
        self.host(host)
        if self.is_up[host]:
            raise Refused("IsUp")
        if any(flow.source == host for flow, _ in self.messages):
            raise Refused("Unsettled")
        self.cross(Turned("up", host))
        self.is_up[host] = True

    def tell(self, kind: Answer, flow: Flow) -> None:
        """Puts an answer after the others, where its host is up."""
        if self.is_up[flow.source]:
            self.answers.append(Reply(kind, flow))
