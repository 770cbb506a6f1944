"""What the book of a world in the model breaks of all that is promised of it."""

from __future__ import annotations

from collections.abc import Callable, Collection, Iterator
from typing import Any, Protocol, TypeVar

from dorydate.model import arrived, between, was_sent
from dorydate.model.audit import Lives, Log, audit, match
from dorydate.model.book import Life
from dorydate.model.clean import unclean
from dorydate.model.crossings import Carrier
from dorydate.model.endings import EndingWorld
from dorydate.model.firsts import determined
from dorydate.model.host import Host
from dorydate.model.left import late, strange
from dorydate.model.names import HostName
from dorydate.model.topology import Topology
from dorydate.model.world import World


class AsRun(Protocol):
    """A random run: what it breaks, its network and its script."""

    @property
    def part(self) -> str | None: ...
    @property
    def network(self) -> Topology: ...
    @property
    def lines(self) -> list[str]: ...


class Broken(Exception):
    """That a random run breaks something, with its network and its script."""


R = TypeVar("R", bound=AsRun)


def runs_that_keep(kind: str, runs: int, run: Callable[[int], R]) -> Iterator[R]:
    """Random runs, of which each keeps all; one that doesn't is raised."""
    for seed in range(runs):
        ran = run(seed)
        if ran.part:
            raise Broken("\n".join([f"{kind} {seed} breaks {ran.part}: {ran.network}", *ran.lines]))
        yield ran


def pairs_that_differ(log: Log, lives: Lives) -> Iterator[tuple[Life, Life]]:
    """Lives that continue, with each other's hosts and sockets, that are not one connection."""
    going = [life for life in lives if not life.has_ended]
    for life in filter(Life.receives, going):
        for other in going:
            swapped = (other.host, other.socket, other.peer, other.foreign) == (life.peer, life.foreign, life.host, life.socket)
            if swapped and not match(log, life, other):
                yield life, other


class Watched(World):
    """A world that remembers which messages changed their host's program, or made it report something."""

    def __init__(self, carrier: Carrier) -> None:
        super().__init__(carrier)
        self.effects: set[int] = set()

    def take(self, host: HostName) -> bool:
        before, told, place = kept_by(self.hosts.get(host)), len(self.book.notices), len(self.carrier.log)
        given = super().take(host)
        if given and (kept_by(self.hosts[host]), len(self.book.notices)) != (before, told):
            self.effects.add(place)
        return given


def kept_by(program: Host | None) -> Any:
    """All that a host's program keeps. A pair in the initial state counts as none."""
    if program is None:
        return None
    pairs = {peer: (it.phase, it.early, it.owed, {*it.busy}, [{**vars(end)} for end in it.ends], [*it.queue]) for peer, it in program.pairs.items()}
    return {peer: it for peer, it in pairs.items() if it != ("closed", False, False, set(), [], [])}, {**program.listening}


def broken_book(log: Log, lives: Lives, strangers: Collection[HostName] = ()) -> str | None:
    """What a book breaks by what crossed, None where it keeps all."""
    if part := audit(log, lives):
        return part
    if was_sent.broken(log, lives):
        return "messages of a connection"
    if between.broken(log, lives, strangers) is not None:
        return "the lives of a message"
    if next(pairs_that_differ(log, lives), None):
        return "lives that continue and are no connection"
    return None


def broken(world: World) -> str | None:
    """What a world's book breaks, None where it keeps all."""
    log, lives = world.carrier.log, world.book.lives
    if isinstance(world, Watched) and unclean(log, world.book.contacts, world.effects) is not None:
        return "a clean reset"
    if part := broken_book(log, lives):
        return part
    if any(notice.startswith("error") for _, notice, _ in world.book.notices):
        return "an error"
    if not determined(log, lives):
        return "what a log says of the bits of its lives"
    if part := arrived.broken(log, lives):
        return part
    if strange(log, world.book):
        return "what a life is left"
    if late(log, world.book):
        return "what a life counts"
    return world.judged() if isinstance(world, EndingWorld) else None
