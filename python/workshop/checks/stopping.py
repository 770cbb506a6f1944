"""Scripts of a dialogue in which something stops after one of its events and comes up again, and the dialogue continues.

A script is made by letting it happen in the independent model: a calm is cut into single events, and what forbids something to come
up again is read off each refusal and cleared (`in_the_way`). `check stops` runs these scripts by the program.
"""

from __future__ import annotations

import pickle
from collections import Counter
from collections.abc import Iterable, Iterator, Sequence
from typing import Any

from dorydate.explain.in_the_way import InTheWay, Refusal
from dorydate.model.host import Host
from dorydate.model.names import Flow, HostName, spell_flow, spell_host
from dorydate.model.runs import opened
from dorydate.model.script import read_event
from dorydate.model.services import Echo, Running, Server, Terminal
from dorydate.model.subnet import Subnet
from dorydate.model.topology import Topology
from dorydate.model.world import OFFERS, TAKES, World

Thing = tuple[Any, ...]  # what stops: `imp` with its number, `host` with its name, or `end` with those of an IMP and of a line

MOST_TRIES = 200  # of an event that is refused, with something cleared after each refusal
ARRIVES = 3  # rounds in which what can still arrive does
ROUNDS = {"contact": 10, "user": 20, "type": 12}  # rounds in which what is asked for is done


class Stuck(Exception):
    """An event that is refused where it should not be."""


# ---- the dialogue


def subnet_of(world: World) -> Subnet:
    """The carrier of a dialogue, which is a subnet."""
    if not isinstance(world.carrier, Subnet):
        raise Stuck("a dialogue is over a subnet")
    return world.carrier


def program_of(world: World, host: HostName) -> Host:
    """The program of a host that is up."""
    program = world.hosts[host]
    if program is None:
        raise Stuck(f"host {spell_host(host)} is down")
    return program


def waits(world: World, host: HostName) -> bool:
    """Whether something waits for a host."""
    it = subnet_of(world).up(host.imp).hosts[host.number]
    return bool(it.answers or it.messages)


def round_of(world: World, hosts: Iterable[HostName]) -> Iterator[str]:
    """The events of a round of a calm, one after another as each happens, of takings and offers those that find something.

    These hosts have their turns: in a calm all of them."""
    subnet = subnet_of(world)
    for number in subnet.imps:
        yield f"route {number}"
        yield f"resend {number}"
    for line, ways in enumerate(subnet.live):
        for way, frames in ways.items():
            for _ in range(len(frames)):
                yield f"deliver {line} {way} 0"
                yield f"drop {line} {way} 0"
    for host in hosts:
        for _ in range(TAKES):
            if waits(world, host):
                yield f"take {spell_host(host)}"
        for _ in range(OFFERS):
            if program_of(world, host).next_out() is not None:
                yield f"offer {spell_host(host)}"


class Dialogue:
    """The single events of a script in which all is up and nothing is refused, and the world after each."""

    def __init__(self, network: Topology, script: Sequence[str]) -> None:
        self.network, self.script = network, script
        self.lines: list[str] = []
        self.worlds: list[bytes] = []
        world = opened(network)
        if not isinstance(world, World):
            raise Stuck("a dialogue is between the programs of hosts")
        self.world = world
        for line in script:
            kind, *parts = read_event(line, raw=False)
            if kind != "calm":
                self.happen(line)
            for _ in range(parts[0] if kind == "calm" else 0):
                for event in round_of(self.world, self.world.hosts):
                    self.happen(event)

    def happen(self, line: str) -> None:
        self.world.step(*read_event(line, raw=False))
        self.lines.append(line)
        self.worlds.append(pickle.dumps(self.world))

    def asks(self, kind: str) -> str:
        """The line of the script that asks for something of this kind."""
        return next(it for it in self.script if it.startswith(kind))

    def things(self) -> list[list[Thing]]:
        """What may stop: each IMP, each host and each end of a line, and then all of them in turn."""
        every: list[Thing] = [("imp", number) for number, _ in self.network.imps]
        every += [("host", host) for host in self.world.hosts]
        every += [("end", number, line) for line, ends in enumerate(self.network.lines) for number in ends]
        return [*([it] for it in every), every]


# ---- a stop


class Stop:
    """A dialogue up to one of its events. Then things stop and come up again, and it continues with a new contact."""

    def __init__(self, dialogue: Dialogue, count: int, things: Sequence[Thing]) -> None:
        self.dialogue, self.count, self.things = dialogue, count, things
        self.world: World = pickle.loads(dialogue.worlds[count - 1])
        self.lines = dialogue.lines[:count]
        self.stopped: list[HostName] = []  # hosts, in the order in which they stop
        self.refused = Counter[str]()  # by what was tried and why it was refused
        self.cleared = Counter[str]()  # by what cleared something after a refusal
        self.pauses = 0
        for kind, *parts in things:
            getattr(self, f"stop_{kind}")(*parts)
        self.contacted = len(self.world.printed)
        self.contact()
        self.served = len(self.world.printed)
        self.ask("user")
        self.ask("type")

    # events

    def tried(self, line: str) -> str | None:
        """Why an event is refused, after it was tried; None where it happens."""
        self.lines.append(line)
        before = len(self.world.printed)
        self.world.happen(*read_event(line, raw=False))
        last = self.world.printed[-1] if len(self.world.printed) > before else ""
        return last.removeprefix("refused ") if last.startswith("refused ") else None

    def do(self, line: str) -> None:
        """Lets an event happen that may not be refused."""
        if refusal := self.tried(line):
            raise Stuck(f"{line}: refused {refusal}")

    def until(self, line: str) -> None:
        """Lets an event happen, after what its refusals ask for."""
        for _ in range(MOST_TRIES):
            refusal = self.tried(line)
            if refusal is None:
                return
            kind, *parts = read_event(line, raw=False)
            self.refused[f"{kind} {refusal}"] += 1
            self.clear(refusal, kind, parts)
        raise Stuck(f"{line}: refused after {MOST_TRIES} tries")

    def clear(self, refusal: str, kind: str, parts: Sequence[Any]) -> None:
        """Clears something of what is in the way of what was refused."""
        subnet = subnet_of(self.world)
        if refusal == "Unsettled":
            flow, number = next(it for it in self.outstanding() if it[0].source == parts[0])
            is_alive = subnet.is_alive(flow, number)
            event = InTheWay(subnet).next_clearing(Refusal("giveup", [flow], None)) if is_alive else f"giveup {spell_flow(flow)}"
        elif refusal == "StillAlive":
            event = InTheWay(subnet).next_clearing(Refusal(kind, parts, None))
        else:
            raise Stuck(f"{kind} {parts}: refused {refusal}")
        if event is None:
            raise Stuck(f"{kind} {parts}: refused {refusal}, and nothing is in its way")
        self.do(event)
        self.cleared[event.split(" ")[0]] += 1

    def outstanding(self) -> list[tuple[Flow, int]]:
        """The messages without an answer, by flow and number."""
        return [it for imp in subnet_of(self.world).imps.values() if imp is not None for it in imp.outstanding.items()]

    # what stops

    def stop_imp(self, number: int) -> None:
        """An IMP stops and comes up with its hosts. Its lines begin anew, since it has forgotten what crossed them."""
        hosts = [it for it in self.world.hosts if it.imp == number]
        self.stopped += hosts
        self.do(f"impdown {number}")
        self.until(f"impup {number}")
        for line in subnet_of(self.world).lines_of(number):
            self.stop_end(number, line)
        for host in hosts:
            self.until(f"hostup {spell_host(host)}")

    def stop_host(self, host: HostName) -> None:
        self.stopped.append(host)
        self.do(f"hostdown {spell_host(host)}")
        self.until(f"hostup {spell_host(host)}")

    def stop_end(self, number: int, line: int) -> None:
        """An end of a line stops. The other one has to begin anew with it, and what is on the line is lost."""
        subnet = subnet_of(self.world)
        ends = number, sum(subnet.ends[line]) - number
        for end in ends:
            if subnet.up(end).ports[subnet.port_of(end, line)].is_up:
                self.do(f"enddown {end} {line}")
        for way, frames in subnet.live[line].items():
            for _ in range(len(frames)):
                self.do(f"drop {line} {way} 0")
        for end in ends:
            self.do(f"endup {end} {line}")

    # and how it continues

    def ask(self, kind: str) -> None:
        self.do(self.dialogue.asks(kind))
        self.do(f"calm {ROUNDS[kind]}")

    def contact(self) -> None:
        """The dialogue begins once more with its contact, on the same sockets, with a server where none waits for its user."""
        line = self.dialogue.asks("contact")
        _, host, peer = read_event(line, raw=False)
        self.do(line)
        self.give_up()
        self.do(f"calm {ROUNDS['contact']}")
        if program_of(self.world, host).phase(peer) != "ready":
            self.pause(host)
            self.do(f"calm {ROUNDS['contact']}")
        if not any(isinstance(it, Server) and it.outcome is None for it in self.services(Server)):
            self.begin_server(self.dialogue.asks("server"))
        # a line comes from each echo service to each terminal, also to those that were there before
        self.echoes, self.terminals = len(self.services(Echo)) + 1, len(self.services(Terminal)) + 1

    def give_up(self) -> None:
        """What can still arrive does, and a message of which nothing is alive then is given up."""
        self.do(f"calm {ARRIVES}")
        for flow, number in self.outstanding():
            if not subnet_of(self.world).is_alive(flow, number):
                self.do(f"giveup {spell_flow(flow)}")
                self.cleared["giveup"] += 1

    def pause(self, host: HostName) -> None:
        """A round in which a host has no turn. While both have theirs, each RRP may come before the RFNM that it needs, again and again."""
        self.pauses += 1
        for event in round_of(self.world, [it for it in self.world.hosts if it != host]):
            self.do(event)

    def services(self, kind: type[Server] | type[Echo] | type[Terminal]) -> list[Running]:
        return [it for running in self.world.programs.values() for it in running if isinstance(it, kind)]

    def begin_server(self, line: str) -> None:
        """A server, on sockets on which one before it may still listen."""
        _, host, *_ = read_event(line, raw=False)
        for socket in [*program_of(self.world, host).listening]:
            self.do(f"close {spell_host(host)} {socket}")
        self.do(line)
