"""Worlds some of whose hosts are strangers: they send, take, stop and start as a script says, and run no program.

Such a world remembers its moments. `masked` lets the same moments happen again without the strangers, in a world
all of whose hosts run the program: in place of each crossing of a stranger the stranger stops or starts, and a socket
that a stranger's message made stop listening is closed. It was written from docs/headline.md, in another language and
another form than the definitions.
"""

from __future__ import annotations

from collections.abc import Callable, Iterable, Iterator
from typing import Any, NamedTuple, TypeVar, Union

from dorydate.model.bits import Bits
from dorydate.model.book import Life
from dorydate.model.crossings import Answered, Carrier, Crossing, Given, Message, Passed, Reply, Turned
from dorydate.model.endings import EndingWorld, Going
from dorydate.model.host import Host, Outgoing
from dorydate.model.names import Flow, HostName, Refused
from dorydate.model.script import Event

T = TypeVar("T")

ABOUT_PEER = {"contact", "opensend", "openrecv", "echo"}  # requests that name their peer; others name a socket


class Asked(NamedTuple):
    """A user's request that was served, and whether it was about a stranger."""

    host: HostName
    kind: str
    parts: tuple[Any, ...]
    is_strange: bool


Moment = Union[Crossing, Asked]


def ends_of(crossing: Crossing) -> list[HostName]:
    """The hosts of a crossing: both ends of its flow, the source first, or the host that stops or starts."""
    return [crossing.host] if isinstance(crossing, Turned) else [crossing.flow.source, crossing.flow.destination]


class Stranger(Host):
    """In place of a program: nothing goes out by it, and what comes in is nobody's."""

    def accept(self, inbound: Given, stamp: int) -> list[str]:
        return []

    def next(self) -> tuple[HostName, Outgoing] | None:
        return None


class MixedWorld(EndingWorld):
    """A world with strangers, which judges only lives between hosts with programs, and remembers its moments."""

    further = frozenset({"out"})

    def __init__(
        self, carrier: Carrier, strangers: Iterable[HostName], takes: bool = True, host_program: type[Host] = Host
    ) -> None:
        super().__init__(carrier, host_program)
        self.strangers = frozenset(strangers)
        self.takes = takes  # whether strangers take what waits for them in a calm
        self.moments: list[Moment] = []
        # who takes a stranger's message, and what listened there
        self.listened: tuple[HostName, list[int]] | None = None
        for host in self.strangers:
            self.hosts[host] = Stranger(host)

    def lives_among(self) -> list[Life]:
        """The lives between hosts with programs."""
        return [life for life in self.book.lives if not {life.host, life.peer} & self.strangers]

    def going(self, host: HostName | None = None) -> Iterator[Going]:
        yield from (it for it in super().going(host) if it.life.peer not in self.strangers)

    # ---- events

    def step(self, kind: str, *parts: Any) -> None:
        if kind == "out" and parts[0].source in self.hosts and parts[0].source not in self.strangers:
            raise Refused("HasProgram")
        if kind in ("offer", "server", "user", "type") and parts[0] in self.strangers:
            raise Refused("NoProgram")
        before = len(self.carrier.log)
        super().step(kind, *parts)
        for crossing in self.carrier.log[before:]:  # a stranger that comes up runs no program
            if isinstance(crossing, Turned) and crossing.kind == "up" and crossing.host in self.strangers:
                self.hosts[crossing.host] = Stranger(crossing.host)

    def carry(self, call: Callable[[], T]) -> T:
        before = len(self.carrier.log)
        given = super().carry(call)
        self.moments += self.carrier.log[before:]
        if isinstance(given, Message) and given.flow.source in self.strangers:
            taker = given.flow.destination
            program = None if taker in self.strangers else self.hosts[taker]
            self.listened = (taker, [*program.listening]) if program else None
        return given

    def tell(self, host: HostName, notices: list[str]) -> None:
        if self.listened is not None:
            taker, before = self.listened
            program, self.listened = self.hosts[taker], None
            lost = [socket for socket in before if program is None or socket not in program.listening]
            self.moments += [Asked(taker, "close", (socket,), False) for socket in lost]
        super().tell(host, notices)

    def request(self, host: HostName, kind: str, *parts: Any) -> list[str]:
        if host in self.strangers:
            raise Refused("NoProgram")
        program = self.program(host)
        peer: HostName | None = parts[0] if kind in ABOUT_PEER else None
        if kind not in ABOUT_PEER and kind != "listen" and parts[0] not in program.listening:
            owner = program.mine(parts[0])
            peer = owner[0] if owner else None
        notices = super().request(host, kind, *parts)
        self.moments.append(Asked(host, kind, parts, peer in self.strangers))
        return notices

    def turn(self, host: HostName) -> Iterator[Event]:
        if self.takes or host not in self.strangers:
            yield from super().turn(host)


# ---- without the strangers


class Told(Carrier):
    """A carrier by which crosses what the script says."""

    def __init__(self, hosts: list[HostName]) -> None:
        super().__init__()
        self.names = hosts
        self.next: Crossing = Turned("down", hosts[0])

    def hosts(self) -> list[HostName]:
        return self.names

    def out(self, flow: Flow, text: Bits) -> None:
        self.cross(Passed("out", flow, text))

    def take(self, host: HostName) -> Given | None:
        self.cross(self.next)
        if isinstance(self.next, Answered):
            return Reply(self.next.answer, self.next.flow)
        return Message("message", self.next.flow, self.next.text) if isinstance(self.next, Passed) else None

    def giveup(self, flow: Flow) -> None:
        raise Refused("NoSuch")

    def hostdown(self, host: HostName) -> None:
        self.cross(Turned("down", host))

    def hostup(self, host: HostName) -> None:
        self.cross(Turned("up", host))

    def calm(self, rounds: int) -> None:
        raise Refused("NoSuch")

    def quiet_round(self) -> None:
        """Nothing is ever on its way."""

    def is_quiet(self) -> bool:
        return True

    def state(self) -> object:
        return len(self.log)


class Unsaid(Exception):
    """What a host was said to do isn't what its program does without the strangers."""


def masked(mixed: MixedWorld) -> EndingWorld:
    """The world of all hosts with programs to which the moments of a mixed world lead without their strangers."""
    carrier = Told(mixed.carrier.hosts())
    world = EndingWorld(carrier, mixed.host_program)
    for moment in mixed.moments:
        if isinstance(moment, Asked):
            if not moment.is_strange:
                ask(world, moment)
        elif found := [host for host in ends_of(moment) if host in mixed.strangers]:
            world.happen("hostup" if world.hosts[found[0]] is None else "hostdown", found[0])
        else:
            cross(world, carrier, moment)
    return world


def ask(world: EndingWorld, asked: Asked) -> None:
    """A user asks for what it asked for among strangers, which isn't refused here either."""
    try:
        world.tell(asked.host, world.request(asked.host, asked.kind, *asked.parts))
    except Refused as refused:
        raise Unsaid(f"{asked} is refused: {refused}") from refused
    world.judge_rest()


def cross(world: EndingWorld, carrier: Told, crossing: Crossing) -> None:
    """The same crosses as among strangers."""
    carrier.next = crossing
    place = len(carrier.log)
    if isinstance(crossing, Turned):
        world.step("host" + crossing.kind, crossing.host)
    elif isinstance(crossing, Passed) and crossing.kind == "out":
        world.offer(crossing.flow.source)
    else:
        world.take(crossing.flow.destination if isinstance(crossing, Passed) else crossing.flow.source)
    if carrier.log[place:] != [crossing]:
        raise Unsaid(f"{crossing} is what crosses, and the program says {carrier.log[place:]}")
    world.judge_rest()


def kept_of(world: EndingWorld, host: HostName, strangers: frozenset[HostName]) -> object:
    """All that a host's program keeps, but what it has with strangers. A pair in the initial state counts as none."""
    program = world.hosts[host]
    if program is None:
        return None
    fresh = world.host_program(host)
    pairs = {peer: spelled(pair) for peer, pair in program.pairs.items() if peer not in strangers}
    kept = {peer: pair for peer, pair in pairs.items() if pair != spelled(fresh.pair(peer))}
    return kept, {**program.listening}


def spelled(pair: Any) -> dict[str, Any]:
    """What is kept of a peer, as plain values."""
    return {**vars(pair), "ends": [{**vars(end)} for end in pair.ends], "busy": {*pair.busy}}


def differs(mixed: MixedWorld, world: EndingWorld) -> str | None:
    """What differs between a mixed world and the same without its strangers: None where nothing does."""
    log, other = mixed.carrier.log, world.carrier.log
    others = [at for at, crossing in enumerate(log) if not {*ends_of(crossing)} & mixed.strangers]
    if len(log) != len(other) or any(log[at] != other[at] for at in others):
        return "crossings"
    if mixed.lives_among() != world.book.lives:
        return "lives"
    hosts = [host for host in mixed.hosts if host not in mixed.strangers]
    if any(kept_of(mixed, it, mixed.strangers) != kept_of(world, it, mixed.strangers) for it in hosts):
        return "programs"
    return None
