"""A network that does all that the mailboxes allow: any order between links and pairs, losses, stops and starts."""

from __future__ import annotations

from dorydate.contract.acts import Answered, Comes, Crosses, Goes, Stops
from dorydate.model.bits import Bits
from dorydate.model.crossings import Answered as Reply
from dorydate.model.crossings import Crossing, Passed, Turned
from dorydate.model.log import ANSWERS
from dorydate.model.mailboxes import NEEDS, Holds
from dorydate.model.names import Flow, HostName, NoRun, read_host


class Network:
    """The boxes, and what has crossed, the oldest first."""

    def __init__(self, hosts: list[HostName]) -> None:
        self.is_up = dict.fromkeys(hosts, True)
        self.boxes: dict[Flow, tuple[Holds, Bits]] = {}
        self.log: list[Crossing] = []

    def need(self, holds: bool) -> None:
        if not holds:
            raise NoRun

    def cross(self, host: HostName, act: Crosses) -> Crosses:
        """Something crosses at a host, if the boxes allow it; what is taken has the text of its box."""
        if isinstance(act, Goes):
            self.out(Flow(host, read_host(act.peer), act.link), act.text)
        elif isinstance(act, Comes):
            return self.take(Flow(read_host(act.peer), host, act.link), act)
        elif isinstance(act, Answered):
            self.answer(Flow(host, read_host(act.peer), act.link), act.kind)
        else:
            self.turn(host, isinstance(act, Stops))
        return act

    def out(self, flow: Flow, text: Bits) -> None:
        self.need(self.is_up[flow.source] and flow not in self.boxes and flow.destination in self.is_up)
        self.boxes[flow] = "waits", text
        self.log.append(Passed("out", flow, text))

    def take(self, flow: Flow, act: Comes) -> Comes:
        holds, text = self.boxes.get(flow, ("taken", ""))
        self.need(self.is_up[flow.destination] and holds == "waits")
        self.boxes[flow] = "taken", text
        self.log.append(Passed("in", flow, text))
        return Comes(act.peer, act.link, text, act.ignored)

    def answer(self, flow: Flow, kind: str) -> None:
        self.need(self.is_up[flow.source] and flow in self.boxes and self.boxes[flow][0] in NEEDS[kind])
        del self.boxes[flow]
        self.log.append(Reply("answer", ANSWERS[kind], flow))

    def turn(self, host: HostName, stops: bool) -> None:
        self.need(self.is_up[host] is stops)
        self.is_up[host] = not stops
        if not stops:
            self.boxes = {flow: it for flow, it in self.boxes.items() if flow.source != host}
        self.log.append(Turned("down" if stops else "up", host))
