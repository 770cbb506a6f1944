"""What a replay has shown so far, and the usual cause of a refusal where no model says more."""

from __future__ import annotations

from collections.abc import Sequence
from dataclasses import dataclass

from dorydate.sentences import IN_A_HOST, IN_A_SUBNET, NOT_OPEN, REFUSED
from dorydate.sentences.events import OF_SUBNETS
from dorydate.sentences.table import filled

FlowWords = tuple[str, ...]  # a flow as it is printed: source, destination and link


@dataclass
class Sent:
    """The last message that went out on a flow: in which line it went out, whether it waits for its host, and where it was taken and answered."""

    out: int
    waits: bool
    taken: int | None = None
    answered: int | None = None


class Past:
    """What the replay has shown so far: the last message of each flow, and where each host stopped or started."""

    def __init__(self, hosts: Sequence[str] | None, is_plain: bool = True) -> None:
        self.hosts = hosts  # all hosts of the network, None where they are not known
        self.is_plain = is_plain  # whether there are only mailboxes
        self.sent: dict[FlowWords, Sent] = {}
        self.turned: dict[str, int] = {}
        self.down: set[str] = set()

    def see(self, number: int, event: Sequence[str], printed: str | None) -> None:
        """Takes note of an event and of a line that it printed, None if it printed nothing."""
        kind, *words = (printed or " ".join(["silent", *event])).split(" ")
        match kind, words:
            case "out", [*flow, _]:
                is_there = self.hosts is None or flow[1] in self.hosts
                self.sent[tuple(flow)] = Sent(number, is_there and flow[1] not in self.down)
            case ("in", [*flow, _]) | ("answer", [_, *flow]) | ("silent", ["giveup", *flow]):
                if sent := self.sent.get(tuple(flow)):
                    sent.waits = False
                    sent.taken = number if kind == "in" else sent.taken
                    sent.answered = number if kind == "answer" else None
            case ("down" | "up"), [host]:
                self.turn(number, host, kind == "down")

    def turn(self, number: int, host: str, is_down: bool) -> None:
        """Takes note of a host that stops or starts."""
        self.turned[host] = number
        if is_down:
            self.down.add(host)
            for flow, sent in self.sent.items():
                sent.waits = sent.waits and flow[1] != host
        else:
            self.down.discard(host)
            self.sent = {flow: sent for flow, sent in self.sent.items() if flow[0] != host}

    def refusal(self, name: str, event: Sequence[str]) -> str:
        """The usual cause of a refusal of this event."""
        if name in IN_A_HOST:
            return NOT_OPEN["type"] if (name, event[0]) == ("NotOpen", "type") else IN_A_HOST[name]
        if not self.is_plain:
            return IN_A_SUBNET.get(name, REFUSED["other"])
        if event[0] in OF_SUBNETS:
            return REFUSED["plain"]
        host = event[1]
        since = f"since line {self.turned[host]}" if host in self.turned else "from the start"
        match name:
            case "NoSuch":
                return self.no_such(host)
            case "IsDown" if event[0] == "hostdown":
                return f"Host {host} is down already, {since}."
            case "IsDown":
                return f"Host {host} is down, {since}, and can neither send nor take. `hostup {host}` starts it."
            case "IsUp":
                return f"Host {host} is up already, {since}."
            case "Unsettled":
                return self.unsettled(host)
            case "NotOutstanding":
                return self.not_outstanding(*event[1:4])
            case "Blocked":
                return self.blocked(*event[1:4])
        return REFUSED["other"]

    def no_such(self, host: str) -> str:
        """A host that is not there, and which are there at its IMP."""
        start = filled(REFUSED["no host"], host=host).removesuffix(".")
        if self.hosts is None:
            return f"{start}."
        imp = host.split("/")[1]
        beside = [it for it in self.hosts if it.split("/")[1] == imp]
        has = f"only {', '.join(beside)}" if beside else "none"
        return f"{start}: IMP {imp} has {has}."

    def unsettled(self, host: str) -> str:
        """The messages that keep a host from starting."""
        lines = [str(sent.out) for flow, sent in self.sent.items() if flow[0] == host and sent.waits]
        where = f" (line {lines[0]})" if len(lines) == 1 else f" (lines {', '.join(lines)})" if lines else ""
        return f"Host {host} stopped while a message that it sent{where} waited, and it still waits. {REFUSED['settle']}"

    def not_outstanding(self, source: str, destination: str, link: str) -> str:
        """Why there is no message to give up."""
        rule = "There is nothing to give up:"
        sent = self.sent.get((source, destination, link))
        if sent is None:
            since = f" since it started in line {self.turned[source]}" if source in self.turned else ""
            return f"{rule} host {source} sent nothing to {destination} on link {link}{since}."
        if sent.answered:
            return f"{rule} the message of line {sent.out} was answered in line {sent.answered}."
        return f"{rule} the message of line {sent.out} was given up or found its host dead before, or host {source} stopped meanwhile."

    def blocked(self, source: str, destination: str, link: str) -> str:
        """The message or the answer that a flow waits for."""
        rule = filled(REFUSED["one at a time"], link=link, source=source, destination=destination)
        sent = self.sent.get((source, destination, link))
        if sent is None:
            return rule
        if sent.waits:
            return f"{rule} That of line {sent.out} waits for host {destination}: `take {destination}` delivers it, and then `take {source}` brings its answer."
        was = f"was taken in line {sent.taken}" if sent.taken else "will not be taken"
        return f"{rule} That of line {sent.out} {was}, but host {source} has not taken the answer: `take {source}`."
