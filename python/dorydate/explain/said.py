"""What a contact, a request or a close of a host waits for: which command has to go out, to arrive or to be taken next.

Of the two hosts it looks at what is queued and at what is out on link 0, each way. The workbench has the same facts
(web/workbench/said.js), and both read the rules of the thing "said" in sentences/table.mjs.
"""

from __future__ import annotations

from collections.abc import Iterable

from dorydate.explain.view import host_in_words
from dorydate.model.boxes import Boxes
from dorydate.model.commands import CLS, RRP, RST, RTS, STR, read_numbers
from dorydate.model.connections import CLOSED, GONE, HEARD, READY, WANT, End, Pair
from dorydate.model.crossings import Passed, Turned
from dorydate.model.firsts import Firsts
from dorydate.model.names import Flow, HostName, spell_host
from dorydate.model.strangers import Stranger
from dorydate.model.subnet import Subnet
from dorydate.model.world import World

Facts = dict[str, bool]
Holes = dict[str, object]


class Way:
    """What goes from one host to another on link 0: what waits there, and the commands that are out."""

    def __init__(self, world: World, source: HostName, destination: HostName) -> None:
        self.flow = Flow(source, destination, 0)
        self.program = world.hosts.get(source)
        self.pair = self.program.pairs.get(destination) if self.program is not None else None
        self.commands = [*commands_out(world, self.flow)]
        self.is_here = has_come(world, self.flow)
        self.is_answered = has_answer(world, self.flow)

    def is_known(self) -> bool:
        """Whether the host runs a program."""
        return self.program is not None and not isinstance(self.program, Stranger)

    def end(self, own: int, foreign: int) -> End | None:
        return self.pair.end(own, foreign) if self.pair else None

    def is_out(self, command: tuple[int, ...]) -> bool:
        """Whether a command is in the message that is out: its code, and its two sockets where it has some."""
        code, *sockets = command
        return any(it[0] == code and (not sockets or read_numbers(it, 4, 4) == sockets) for it in self.commands)

    def is_busy(self) -> bool:
        """Whether an answer has to come first: all of them where a reset or its reply is to go."""
        pair = self.pair or Pair()
        return bool(pair.busy) if pair.phase == WANT or pair.owed else 0 in pair.busy

    def facts(self, name: str, command: tuple[int, ...], is_queued: bool) -> Facts:
        """Where a command of this host is."""
        is_out = self.is_out(command)
        found = {"queued": is_queued, "busy": self.is_busy(), "out": is_out, "here": is_out and self.is_here}
        return {f"{name} {fact}": it for fact, it in found.items()}


def commands_out(world: World, flow: Flow) -> Iterable[bytes]:
    """The commands of the last message of a flow, if it is out and was not taken."""
    for crossing in reversed(world.carrier.log):
        if isinstance(crossing, Turned):
            if (crossing.kind, crossing.host) == ("up", flow.source):
                return []
        elif crossing.flow == flow:
            return Firsts().commands(crossing.text) if isinstance(crossing, Passed) and crossing.kind == "out" else []
    return []


def has_come(world: World, flow: Flow) -> bool:
    """Whether a message of a flow waits for its destination to take it."""
    carrier = world.carrier
    if isinstance(carrier, Boxes):
        return any(it == flow for it, _ in carrier.messages)
    assert isinstance(carrier, Subnet)
    imp = carrier.imps.get(flow.destination.imp)
    return imp is not None and any(it.flow == flow for it in imp.hosts[flow.destination.number].messages)


def has_answer(world: World, flow: Flow) -> bool:
    """Whether an answer about a message of a flow waits for its source to take it."""
    carrier = world.carrier
    if isinstance(carrier, Boxes):
        return any(it.flow == flow for it in carrier.answers)
    assert isinstance(carrier, Subnet)
    imp = carrier.imps.get(flow.source.imp)
    return imp is not None and any(it.flow == flow for it in imp.hosts[flow.source.number].answers)


class Saying:
    """What a host and a peer have to say to each other."""

    def __init__(self, world: World, host: HostName, peer: HostName) -> None:
        self.there, self.back = Way(world, host, peer), Way(world, peer, host)
        is_down = world.hosts.get(peer) is None
        self.facts: Facts = {"peer down": is_down, "stranger": not is_down and not self.back.is_known()}
        names = {"host": host_in_words(host), "peer": host_in_words(peer)}
        self.holes: Holes = {**names, "own": spell_host(host), "other": spell_host(peer)}

    def told(self, thing: str, said: Facts, reply: Facts, **facts: bool) -> Facts:
        """All facts about a thing."""
        further = {name.replace("_", " "): it for name, it in facts.items()}
        return {**NONE, thing: True, **self.facts, **said, **reply, **further}

    def contact(self, pair: Pair) -> tuple[Facts, Holes]:
        """What a contact waits for: the RST and its answer, then the RRP."""
        is_owed = self.back.pair is not None and self.back.pair.owed
        said = self.there.facts("own", (RST,), pair.phase == WANT)
        reply = self.back.facts("peer", (RRP,), is_owed and pair.phase == HEARD)
        is_out = pair.phase == GONE
        answered = {"answer_here": is_out and self.there.is_answered, "answer_out": is_out}
        return self.told("contact", said, reply, **answered), {**self.holes, "said": "RST", "reply": "RRP"}

    def request(self, end: End, thing: str = "request") -> tuple[Facts, Holes]:
        """What a request waits for: that it comes to the peer, and then the peer's own, or the CLS that refuses it."""
        own, partner = (RTS, STR) if end.receives() else (STR, RTS)
        theirs = self.back.end(end.foreign, end.own)
        is_refused = theirs is not None and not theirs.mine
        said = self.there.facts("own", (own, end.own, end.foreign), end.own_stamp is None)
        is_queued = theirs is not None and (not theirs.close_sent if is_refused else theirs.own_stamp is None)
        reply = self.back.facts("peer", (CLS if is_refused else partner, end.foreign, end.own), is_queued)
        names = {RTS: "RTS", STR: "STR"}
        answer = "CLS" if is_refused else names[partner]
        holes = {**self.holes, "said": names[own], "reply": answer, "socket": end.foreign}
        return self.told(thing, said, reply, **self.contacts(), refused=is_refused), holes

    def close(self, end: End) -> tuple[Facts, Holes]:
        """What a close waits for: the answers to what was sent, its own CLS, and the peer's."""
        theirs = self.back.end(end.foreign, end.own)
        said = self.there.facts("own", (CLS, end.own, end.foreign), end.close_queued and not end.close_sent)
        is_queued = theirs is not None and theirs.close_queued and not theirs.close_sent
        reply = self.back.facts("peer", (CLS, end.foreign, end.own), is_queued)
        is_due = theirs is not None and theirs.close_taken and not theirs.close_queued
        dues = {"own_due": not end.close_queued, "peer_due": is_due}
        holes = {**self.holes, "said": "CLS", "reply": "CLS", "socket": end.foreign}
        return self.told("close", said, reply, **self.contacts(), **dues), holes

    def contacts(self) -> dict[str, bool]:
        """Whether the peer has forgotten the contact, or has begun another reset."""
        phase = self.back.pair.phase if self.back.pair is not None else CLOSED
        is_known = self.back.is_known()
        return {"forgotten": is_known and phase == CLOSED, "resets": is_known and phase not in (CLOSED, READY)}


THINGS = "contact", "request", "close", "initial"
NONE: Facts = dict.fromkeys(
    (*THINGS, "own due", "peer due", "answer here", "answer out", "forgotten", "resets", "refused"), False
)
