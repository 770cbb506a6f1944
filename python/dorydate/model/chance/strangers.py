"""Random scripts for networks with strangers.

A stranger follows the rules for a while, by a program of its own of which the world knows nothing, or changes some of
what that says, or says whatever comes: requests for sockets and links of its own connections and of others', resets at
any time, data past its grant, texts that are no messages.
"""

from __future__ import annotations

import random
from collections.abc import Callable, Collection
from typing import Any, TypeVar

from dorydate.model.bits import Bits, bits_of
from dorydate.model.chance.worlds import RECEIVERS, SENDERS, SIZES, Script
from dorydate.model.commands import ALL, CLS, ECO, ERP, GVB, INR, INS, RET, RRP, RST, RTS, STR
from dorydate.model.commands import alone, control_message, header, of_counts, of_sockets
from dorydate.model.connections import End
from dorydate.model.crossings import Answered, Message, Passed, Reply, Turned
from dorydate.model.host import Host
from dorydate.model.names import Flow, HostName, Refused
from dorydate.model.runs import opened_carrier
from dorydate.model.strangers import MixedWorld
from dorydate.model.topology import Topology
from dorydate.model.world import CALLS

T = TypeVar("T")
MOST_BITS = 8063  # of a message


def mixed_network(chance: random.Random) -> Topology:
    """A network of at least three hosts."""
    numbers = sorted(chance.sample(range(1, 64), chance.choice([1, 2, 3, 3])))
    least = {1: [3], 2: [2, 1], 3: [1, 1, 1]}[len(numbers)]
    imps = [(number, max(chance.choice([1, 1, 2, 2]), count)) for number, count in zip(numbers, least)]
    lines: list[tuple[int, ...]] = [*zip(numbers, numbers[1:])]
    return Topology(chance.choice(["plain", "plain", "subnet"]), False, imps, lines)


class MixedScript(Script):
    """A script with strangers."""

    def __init__(self, chance: random.Random, network: Topology, length: int, world: MixedWorld) -> None:
        self.strangers = sorted(world.strangers)
        self.shadows = {host: Host(host) for host in self.strangers}  # what a stranger would say if it ran the program
        self.obedience = chance.choice([0.0, 0.5, 0.9])
        self.boldness = chance.choice([0.15, 0.3, 0.5, 0.7])
        self.has_begun = False
        super().__init__(chance, network, length, True, world)

    def up(self) -> dict[HostName, Host]:
        return {name: program for name, program in super().up().items() if name not in self.strangers}

    def do(self, *event: Any) -> None:
        place = len(self.carrier.log)
        super().do(*event)
        for at, crossing in enumerate(self.carrier.log[place:], place):
            if isinstance(crossing, Turned) and crossing.host in self.shadows:
                self.shadows[crossing.host] = Host(crossing.host)
            elif isinstance(crossing, Passed) and crossing.kind == "in" and crossing.flow.destination in self.shadows:
                self.shadows[crossing.flow.destination].accept(Message("message", crossing.flow, crossing.text), at)
            elif isinstance(crossing, Answered) and crossing.flow.source in self.shadows:
                self.shadows[crossing.flow.source].accept(Reply(crossing.answer, crossing.flow), at)

    def something(self) -> None:
        if not self.has_begun:
            self.has_begun = True
            if self.up() and self.chance.random() < 0.6:
                return self.befriend(self.chance.choice([*self.up()]), self.chance.choice(self.strangers))
        if self.chance.random() < self.boldness:
            return self.strange()
        return super().something()

    # ---- a stranger that follows the rules so far

    def ask(self, stranger: HostName, kind: str, *parts: Any) -> None:
        """A stranger's user asks its own program for something."""
        try:
            getattr(self.shadows[stranger], CALLS.get(kind, kind))(*parts)
        except Refused:
            pass

    def says(self, stranger: HostName, change: Callable[[Bits], Bits] = lambda text: text) -> bool:
        """A stranger sends what its own program says next, perhaps changed: whether there is something."""
        message = self.shadows[stranger].next_out()
        if message is None:
            return False
        place = len(self.carrier.log)
        self.do("out", message[0], change(message[1])[:MOST_BITS])
        if len(self.carrier.log) > place:
            self.shadows[stranger].offered(place)
        return True

    def talk(self, name: HostName, stranger: HostName, times: int) -> None:
        """A host with a program and a stranger say and take what they have, so often at most."""
        for _ in range(times):
            before = len(self.carrier.log)
            self.says(stranger)
            for taker in (name, name, stranger, stranger):
                if self.subnet:
                    self.do("calm", 1)
                if self.waits(taker):
                    self.do("take", taker)
                if taker == name and name in self.up() and self.up()[name].next_out():
                    self.do("offer", name)
            if len(self.carrier.log) == before:
                return

    def befriend(self, name: HostName, stranger: HostName) -> None:
        """A host with a program and a stranger connect, one way or both, and something is sent."""
        if self.chance.random() < 0.5:
            self.do("contact", name, stranger)
        else:
            self.ask(stranger, "contact", name)
        self.talk(name, stranger, 8)
        if self.chance.random() < 0.7:
            self.do(*self.one(("listen", name, 18, 8), ("openrecv", name, stranger, 18, 35)))
            self.talk(name, stranger, 3)
            self.ask(stranger, "opensend", name, 35, 18, 8)
            self.talk(name, stranger, 4)
            self.do("grant", name, 18, self.one(1, 2, 5), self.one(8, 64, 1000))
            self.talk(name, stranger, 2)
            self.ask(stranger, "send", 35, self.bits(8))
            self.talk(name, stranger, 3)
        if self.chance.random() < 0.7:
            self.do("listen", name, 35, 8)
            self.ask(stranger, "openrecv", name, 20, 35)
            self.talk(name, stranger, 4)
            self.ask(stranger, "grant", 20, self.one(1, 3), self.one(8, 100, 5000))
            self.do("send", name, 35, self.bits(8))
            self.talk(name, stranger, 4)

    # ---- a stranger that does as it likes

    def strange(self) -> None:
        """A stranger does something."""
        up = [host for host in self.strangers if self.world.hosts[host] is not None]
        if not up:
            return super().something()
        stranger = self.chance.choice(up)
        if self.waits(stranger) and self.chance.random() < 0.5:
            return self.do("take", stranger)
        if self.chance.random() < self.obedience:
            if not self.says(stranger, lambda text: self.mutated(text) if self.chance.random() < 0.15 else text):
                kind, _, *parts = self.request(stranger, self.shadows[stranger])
                self.ask(stranger, kind, *parts)
            return None
        target = self.one(*[*self.up()] * 6, self.peer())
        link, text = self.anything(stranger, target)
        return self.do("out", Flow(stranger, target, link), text[:MOST_BITS])

    def mutated(self, text: Bits) -> Bits:
        """A text that is changed in a bit, shortened or lengthened."""
        at = self.chance.randrange(len(text) + 1)
        return self.one(text[:at] + "1" + text[at + 1 :], text[:at] + "0" + text[at + 1 :], text[:at], text + "01" * 9)

    def ends_at(self, target: HostName, peers: list[HostName]) -> list[End]:
        """The ends of a host with these peers."""
        pairs = self.up()[target].pairs if target in self.up() else {}
        return [end for peer in peers if peer in pairs for end in pairs[peer].ends]

    def anything(self, stranger: HostName, target: HostName) -> tuple[int, Bits]:
        """A message to a host: its link and its text."""
        kind = self.chance.random()
        if kind < 0.08:
            return 0, control_message([alone(self.one(RST, RRP))])
        if kind < 0.65:
            octets = b"".join(self.command(stranger, target) for _ in range(self.one(1, 1, 1, 2, 3, 8, 12)))
            cut = octets[: self.one(120, 120, 120, len(octets) - 1)]
            return 0, header(8, len(cut)) + bits_of(cut)
        if kind < 0.92:
            return self.data(stranger, target)
        length = self.one(0, 8, 39, 40, 48, 200, MOST_BITS)
        return self.one(0, 2, self.chance.randrange(256)), "".join(self.chance.choices("01", k=length))

    def data(self, stranger: HostName, target: HostName) -> tuple[int, Bits]:
        """Data on a link of its own or of another's, of the right size or another, within its grant or past it."""
        ends = [end for end in self.ends_at(target, self.one([stranger], self.names)) if end.receives() and end.link]
        end = self.chance.choice(ends) if ends else None
        link, size = self.one(1, 2, 3, 31, 255), self.one(*SIZES)
        if end and self.chance.random() < 0.85:
            link, size = end.known_link(), end.size or 8
        size = self.one(size, size, size, size, 7, 9)
        most = end.bits // size if end else 5
        count = min(self.one(0, 1, most, most + 1), 8023 // size)
        return link, header(size, count) + "".join(self.chance.choices("01", k=size * count))

    def sockets(self, stranger: HostName, target: HostName, sends: bool) -> tuple[int, int]:
        """Two sockets of a request or a CLS, the stranger's own one first: of its connections or others', or any."""
        ends = [end for end in self.ends_at(target, self.one([stranger], self.names)) if end.own % 2 != sends]
        listens = self.up()[target].listening if target in self.up() else {}
        listening = [socket for socket in listens if socket % 2 != sends]
        if ends and self.chance.random() < 0.6:
            end = self.chance.choice(ends)
            return end.foreign, end.own
        own = self.one(*(SENDERS if sends else RECEIVERS))
        return own, self.one(*listening * 4, *(RECEIVERS if sends else SENDERS))

    def command(self, stranger: HostName, target: HostName) -> bytes:
        """A command to a host."""
        links = [end.link for end in self.ends_at(target, self.names) if end.link is not None]
        link = self.one(*links * 3, 2, 3, self.chance.randrange(256))
        sends = self.chance.random() < 0.5
        weights = {RTS: 24, CLS: 8, ALL: 10, GVB: 4, RET: 6, INS: 3, ECO: 3, RST: 5, RRP: 4, 14: 1}
        code = self.chance.choices([*weights], [*weights.values()])[0]
        if code == RTS:
            last = self.one(*SIZES, 0) if sends else self.one(link, 2, 3, 31)
            return of_sockets(STR if sends else RTS, *self.sockets(stranger, target, sends), last)
        if code == CLS:
            return of_sockets(CLS, *self.sockets(stranger, target, sends))
        if code in (ALL, RET):
            return of_counts(code, link, self.one(0, 1, 2, 65535), self.one(0, 1, 8, 100, 4294967295))
        if code == GVB:
            return bytes([GVB, link, self.one(0, 1, 64, 128, 255), self.one(0, 64, 128, 255)])
        if code in (INS, ECO):
            return bytes([self.one(*((INS, INR) if code == INS else (ECO, ERP))), link])
        return bytes([code])


def mixed_script(
    seed: int | str, host_program: type[Host] = Host, most: int = 400
) -> tuple[Topology, MixedScript, MixedWorld]:
    """A network, a script of about this many events at most, and the world with a stranger or two that it leads to."""
    chance = random.Random(f"strangers {seed}")
    network = mixed_network(chance)
    carrier = opened_carrier(network)
    strangers = chance.sample(carrier.hosts(), chance.choice([1, 1, 2]) if len(carrier.hosts()) > 3 else 1)
    world = MixedWorld(carrier, strangers, chance.random() < 0.5, host_program)
    length = chance.choice([60, 150, 300, 400]) // (2 if network.carrier == "subnet" else 1)
    return network, MixedScript(chance, network, min(length, most), world), world


def naming(network: Topology, strangers: Collection[HostName]) -> Topology:
    """A network whose topology names these strangers."""
    imps = sorted({it.imp for it in strangers})
    return network._replace(foreign=[(imp, sorted(it.number for it in strangers if it.imp == imp)) for imp in imps])


def perhaps_refused(chance: random.Random, network: Topology) -> str:
    """A line that only a stranger does, or only a host with a program, of any host."""
    source, to = (f"{chance.randrange(hosts)}/{imp}" for imp, hosts in chance.choices(network.imps, k=2))
    lines = [f"out {source} {to} 5 8 41", f"listen {source} 16 8", f"server {source} 7 100", f"offer {source}"]
    return chance.choice(lines)
