"""Random scripts for hosts with their programs.

Each event is chosen by looking at what the model has come to, and then happens in the model: so that connections open, carry
data, close and are reset, and scripts don't stay at the door. Runs differ: some lose much, some reset much, some ask for
wrong things.
"""

from __future__ import annotations

import random
from collections import Counter
from collections.abc import Callable, Iterable
from typing import Any, TypeVar

from dorydate.model.bits import Bits, spell_bits
from dorydate.model.boxes import Boxes
from dorydate.model.connections import End
from dorydate.model.crossings import Carrier
from dorydate.model.host import Host
from dorydate.model.names import Flow, HostName, spell_flow, spell_host
from dorydate.model.packets import Carried
from dorydate.model.runs import opened_carrier
from dorydate.model.script import Event
from dorydate.model.services import Server
from dorydate.model.subnet import Subnet
from dorydate.model.topology import Topology
from dorydate.model.world import World

T = TypeVar("T")

RECEIVERS = [16, 18, 20, 4294967292]
SENDERS = [33, 35, 1, 4294967295]
SIZES = [8, 8, 8, 1, 7, 32, 255]
SERVICES = [(7, 100), (9, 200)]


# ---- events as lines


def spell_part(part: Any) -> str:
    """A part of an event: a host, a flow, or a number or word."""
    match part:
        case (_, _):
            return spell_host(part)
        case (_, _, _):
            return spell_flow(part)
    return str(part)


def spell_event(kind: str, *parts: Any) -> str:
    """The script line of an event."""
    if kind in ("send", "out"):
        return " ".join([kind, spell_part(parts[0]), *map(str, parts[1:-1]), spell_bits(parts[-1])])
    return " ".join([kind, *map(spell_part, parts)])


# ---- networks


def some_world(chance: random.Random) -> Topology:
    """A network for hosts with programs."""
    numbers = sorted(chance.sample(range(1, 64), chance.choice([1, 2, 2, 2, 3])))
    imps = [(number, chance.choice([1, 1, 1, 2])) for number in numbers]
    lines: list[tuple[int, ...]] = [*zip(numbers, numbers[1:])]
    if len(numbers) == 3 and chance.random() < 0.4:
        lines.append((numbers[0], numbers[2]))
    return Topology(chance.choice(["plain", "plain", "subnet"]), False, imps, lines)


# ---- scripts


class Script:
    """The lines of a script that is being made, the world that they lead to, and what they came to."""

    def __init__(self, chance: random.Random, network: Topology, length: int, with_services: bool = True, world: World | None = None) -> None:
        self.chance, self.network = chance, network
        self.world = world or World(opened_carrier(network))
        self.carrier = self.world.carrier
        self.subnet = self.carrier if isinstance(self.carrier, Subnet) else None
        self.names = self.carrier.hosts()
        self.lines: list[str] = []
        self.events: list[Event] = []
        self.losses = chance.choice([0, 0, 0.01, 0.04])  # how often something is lost or stops
        self.asks = chance.choice([0, 0, 0.02, 0.08]) if self.subnet else 0
        self.contacts = chance.choice([0.003, 0.01, 0.1])
        self.wrong = chance.choice([0.02, 0.15])
        self.users = chance.choice([0.1, 0.3, 0.5])
        self.services = chance.choice([0, 0.1]) if with_services else 0
        if self.subnet:
            self.do("calm", 3)
        if len(self.names) > 1 and chance.random() < 0.5:
            begins = self.serve if self.services and chance.random() < 0.7 else self.begin
            one, other = chance.sample(self.names, 2)
            begins(one, other)
        while len(self.lines) < length and self.names:
            self.something()
        self.do("calm", chance.choice([0, 1, 20]))

    def do(self, *event: Any) -> None:
        """Lets an event happen, and writes its line."""
        self.events.append(event)
        self.lines.append(spell_event(*event))
        self.world.happen(*event)

    def begin(self, receiver: HostName, sender: HostName) -> None:
        """A contact, and as a rule a connection on which something may be sent."""
        own, foreign, calms = RECEIVERS[0], SENDERS[0], 5 if self.subnet else 2
        self.do("contact", receiver, sender)
        self.do("calm", calms)
        if self.chance.random() < 0.8:
            self.do("listen", sender, foreign, self.one(*SIZES))
            self.do("openrecv", receiver, sender, own, foreign)
            self.do("calm", calms)
            self.do("grant", receiver, own, 3, self.one(100, 4000))

    def serve(self, user: HostName, server: HostName) -> None:
        """An initial connection, as far as it comes in this many rounds."""
        calms = 12 if self.subnet else 5
        self.do("server", server, *SERVICES[0])
        self.do("contact", user, server)
        self.do("calm", calms)
        self.do("user", user, server, SERVICES[0][0], 40)
        self.do("calm", self.one(2, calms, calms))
        self.do("type", user, "LOGIN")

    # ---- what there is to choose from

    def one(self, *choices: T) -> T:
        """One of these."""
        return self.chance.choice(choices)

    def up(self) -> dict[HostName, Host]:
        """The programs of the hosts that are up."""
        return {name: program for name, program in self.world.hosts.items() if program is not None}

    def ends(self, host: Host) -> list[End]:
        """The ends that a host opened or listened for."""
        return [end for pair in host.pairs.values() for end in pair.ends if end.mine]

    def peer(self) -> HostName:
        """A host, which now and then is not there."""
        return self.one(*self.names * 8, HostName(3, 63), HostName(0, 1))

    def waits(self, name: HostName) -> bool:
        """Whether something waits for a host."""
        if isinstance(self.carrier, Boxes):
            answers, messages = self.carrier.answers, self.carrier.messages
            return any(it.flow.source == name for it in answers) or any(flow.destination == name for flow, _ in messages)
        imp = self.subnet.imps[name.imp] if self.subnet else None
        return imp is not None and bool(imp.hosts[name.number].answers or imp.hosts[name.number].messages)

    def frames(self) -> list[tuple[int, str]]:
        """The lines and ways on which frames are live."""
        return [(line, way) for line, ways in enumerate(self.subnet.live if self.subnet else []) for way, live in ways.items() if live]

    def something(self) -> None:
        """One event, or some that belong together."""
        chance = self.chance.random()
        if chance < self.losses:
            return self.trouble()
        if self.chance.random() < self.asks and (flows := self.outstanding()):
            return self.question(self.chance.choice(flows))
        down = [name for name, program in self.world.hosts.items() if program is None]
        if down and chance < 0.15:
            return self.recover(self.chance.choice(down))
        ways: list[Event] = [("offer", name) for name, program in self.up().items() if program.next_out()]
        ways += [("take", name) for name in self.up() if self.waits(name)]
        if self.subnet and (not ways or self.chance.random() < 0.5):
            ways = self.inside() or ways
        if not ways or self.chance.random() < self.users:
            return self.user()
        event = self.chance.choice(ways)
        self.do(*event)
        if event[0] == "deliver" and self.chance.random() < 0.9:
            self.do("drop", *event[1:])

    def inside(self) -> list[Event]:
        """What may happen in a subnet."""
        ways: list[Event] = [("deliver", line, way, 0 if self.chance.random() < 0.9 else 1) for line, way in self.frames()]
        if self.chance.random() < 0.05:
            ways = [*(("resend", imp) for imp, _ in self.network.imps), *[("calm", 1)] * 2]
        return ways

    def trouble(self) -> None:
        """Something stops, or is given up or lost."""
        flows = [Flow(name, peer, link) for name, host in self.up().items() for peer, pair in host.pairs.items() for link in sorted(pair.busy)]
        ways: list[Event] = [("hostdown", name) for name in self.up()]
        ways += [("giveup", flow) for flow in flows] * 3
        if self.subnet:
            imp, other = self.one(*self.network.imps)[0], self.one(*self.network.imps)[0]
            line = self.chance.randrange(len(self.network.lines) + 1)
            ways += [("impdown", imp), ("enddown", imp, line), ("forget", imp, other), ("claim", imp)]
            ways += [(word, at, way, 0) for word in ("drop", "garble") for at, way in self.frames()]
            ways += [("abandon", flow) for flow in flows]
            ways += [("ask", flow) for flow in flows]
        event = self.chance.choice(ways or [("calm", 1)])
        self.do(*event)
        if event[0] == "enddown" and self.chance.random() < 0.7:
            self.do("endup", *event[1:])

    def question(self, flow: Flow) -> None:
        """An IMP asks what became of a message; half of the time all of it that is on the lines is lost before."""
        for line, ways in enumerate(self.subnet.live if self.subnet and self.chance.random() < 0.5 else []):
            for way, frames in ways.items():
                for place in reversed(range(len(frames))):
                    content = frames[place].content
                    if isinstance(content, Carried) and content.packet.flow == flow:
                        self.do("drop", line, way, place)
        self.do("ask", flow)

    def recover(self, name: HostName) -> None:
        """What is on the way for a host that should come up again."""
        if self.subnet and self.subnet.imps[name.imp] is None:
            for imp, _ in self.network.imps:
                self.do("forget", imp, name.imp)
            self.do("calm", 1)
            self.do("impup", name.imp)
        waiting = [flow for flow in self.outstanding() if flow.source == name]
        for flow in waiting if self.chance.random() < 0.7 else []:
            self.do("ask" if self.subnet and self.chance.random() < 0.3 else "giveup", flow)
        self.do("hostup", name)

    def outstanding(self) -> list[Flow]:
        """The flows with a message that has no answer."""
        if isinstance(self.carrier, Boxes):
            return [flow for flow, _ in self.carrier.messages]
        return [flow for imp in (self.subnet.imps.values() if self.subnet else ()) if imp is not None for flow in imp.outstanding]

    # ---- what users ask for

    def user(self) -> None:
        """A user asks for something."""
        up = self.up()
        name = self.one(*up) if up and self.chance.random() > self.wrong / 4 else self.peer()
        host = up.get(name)
        if host is None:
            asked: list[Event] = [("take", name), ("offer", name), ("contact", name, self.peer()), ("close", name, 16)]
            return self.do(*self.one(*asked))
        if self.chance.random() < self.services:
            return self.service(name)
        self.do(*self.request(name, host))

    def service(self, name: HostName) -> None:
        """The initial connection, and lines that are typed."""
        known = [(place, it) for place in self.names for it in self.world.programs[place] if isinstance(it, Server) and not it.outcome]
        if name in self.world.terminals and self.chance.random() < 0.6:
            return self.do("type", name, self.one("", "HELLO", " ~", "A" * 200))
        if known and self.chance.random() < 0.6:
            place, machine = self.chance.choice(known)
            peer, listens = place, machine.listens
        else:
            peer, listens = self.peer(), self.one(7, 9)
        ready = name in self.up() and self.up()[name].phase(peer) == "ready"
        if known and not ready and self.chance.random() < 0.8:
            return self.do("contact", name, peer)
        if known and self.chance.random() < 0.8:
            return self.do("user", name, peer, listens, self.one(16, 40, 60, 4294967292) if self.chance.random() > self.wrong else self.one(17, 4294967294))
        listens, base = self.one(*SERVICES)
        if self.chance.random() < self.wrong:
            listens, base = self.one((8, 100), (7, 101), (101, 100))
        self.do("server", name, listens, base)

    def request(self, name: HostName, host: Host) -> Event:
        """A request of a host's user: mostly one that means something."""
        ready = [peer for peer, pair in host.pairs.items() if pair.phase == "ready"]
        if self.chance.random() < (self.contacts if ready else 0.5):
            return "contact", name, self.peer()
        ends = self.ends(host)
        is_open = any(end.is_open() for end in ends)
        kinds = ["listen", "open", "send", "grant", "askback", "interrupt", "close", "echo"]
        weights = [3, 10, 24, 24, 6, 4, 4, 2] if is_open else [8, 16, 1, 1, 1, 1, 2, 1]
        kind = self.chance.choices(kinds, weights)[0]
        sends = self.chance.random() < 0.5
        match kind:
            case "listen":
                size = 0 if self.chance.random() < self.wrong else self.one(*SIZES)
                return kind, name, self.one(*(SENDERS if sends else RECEIVERS)), size
            case "open":
                return self.opening(name, sends)
            case "send":
                own = self.socket(ends, True)
                size = next((end.size for end in ends if end.own == own and end.size), 8)
                return kind, name, own, self.bits(size)
            case "grant":
                few = self.chance.random() < 0.9
                counts = (self.one(1, 2, 2, 3), self.one(8, 64, 100, 500, 8000)) if few else (self.one(0, 65534), self.one(0, 4294967294))
                return kind, name, self.socket(ends, False), *counts
            case "askback":
                fractions = 0, 1, 64, 127, 128, 129, 255
                return kind, name, self.socket(ends, False), self.one(*fractions), self.one(*fractions)
            case "echo":
                return kind, name, self.one(*ready * 4, self.peer()), self.chance.randrange(256)
        return kind, name, self.socket(ends, sends)

    def bits(self, size: int) -> Bits:
        """Bits to be sent in bytes of a size, or now and then one bit more."""
        count = self.one(0, 1, 2, 5, 13, 100, 1003, self.chance.randrange(40))
        return "".join(self.chance.choices("01", k=min(size * count, 9000 // size * size) + (self.chance.random() < self.wrong)))

    def socket(self, ends: Iterable[End], sends: bool) -> int:
        """Mostly a socket that this host uses."""
        used = [end.own for end in ends if end.own % 2 == sends]
        if used and self.chance.random() > self.wrong:
            return self.chance.choice(used)
        return self.one(*(SENDERS if sends != (self.chance.random() < self.wrong) else RECEIVERS))

    def opening(self, name: HostName, sends: bool) -> Event:
        """A request that opens an end: as a rule one that another host waits for, or hears of."""
        own, foreign = (SENDERS, RECEIVERS) if sends else (RECEIVERS, SENDERS)
        if self.chance.random() < self.wrong:
            chosen = self.peer(), self.one(*own, *foreign), self.one(*own, *foreign)
        else:
            chosen = self.chance.choice(self.waited_for(name, sends) or [(self.peer(), self.one(*own), foreign[0])])
        if not sends:
            return "openrecv", name, *chosen
        return "opensend", name, *chosen, 0 if self.chance.random() < self.wrong else self.one(*SIZES)

    def waited_for(self, name: HostName, sends: bool) -> list[tuple[HostName, int, int]]:
        """What an end here could be opened with: ends at other hosts that have no partner, and sockets that listen."""
        found: list[tuple[HostName, int, int]] = []
        for peer, host in self.up().items():
            ends = host.pairs[name].ends if name in host.pairs else []
            found += [(peer, end.foreign, end.own) for end in ends if end.receives() == sends and not end.asked]
            sockets = SENDERS[:2] if sends else RECEIVERS[:2]
            found += [(peer, self.one(*sockets), socket) for socket in host.listening if socket % 2 != sends]
        return found


def reached(printed: Iterable[str]) -> Counter[str]:
    """What the lines of an output say of how deep a run went."""
    words = (line.split(" ") for line in printed)
    return Counter(" ".join(it[:2]) if it[0] in ("refused", "answer", "done", "failed") else it[0] for it in words)


def some_script(seed: int | str, with_services: bool = True, most: int = 300, world: Callable[[Carrier], World] = World) -> tuple[Topology, Script]:
    """A network and a script, with the world that it leads to."""
    chance = random.Random(seed)
    network = some_world(chance)
    length = chance.choice([40, 150, most]) // (2 if network[0] == "subnet" else 1)
    return network, Script(chance, network, length, with_services, world(opened_carrier(network)))
