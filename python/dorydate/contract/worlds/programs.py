"""Programs of the independent model as hosts with own logs: in its own worlds, and among keepers and strangers."""

from __future__ import annotations

import random
from collections import Counter
from collections.abc import Callable, Sequence
from typing import Any, TypeVar

from dorydate.contract.acts import (
    Act, Answered, Arrived, Asks, Closes, Comes, Contacts, Ended, Goes, Grants, Hands, Opened, Peer, Returned, Starts,
)  # fmt: skip
from dorydate.contract.ends import End
from dorydate.contract.fold import Broken, Own
from dorydate.contract.lines import crossed
from dorydate.contract.worlds.chance import some_bits
from dorydate.contract.worlds.play import HOSTS, STEPS, Play
from dorydate.model.bits import read_bits
from dorydate.model.book import Life
from dorydate.model.chance.worlds import some_script
from dorydate.model.crossings import Carrier, Crossing, Message, Reply, Turned
from dorydate.model.host import Host
from dorydate.model.names import HostName, Refused, read_host, spell_host
from dorydate.model.world import World

T = TypeVar("T")
Told = tuple[object, ...]
Sockets = dict[int, tuple[Peer, int, int]]  # of an own socket: the newest end that its user knows


def notices(told: Sequence[str], sockets: Sockets) -> list[Act]:
    """The acts of notices of the model."""
    found: list[Act] = []
    for notice in told:
        kind, *words = notice.split(" ")
        if kind == "opened":
            sockets[int(words[0])] = words[1], int(words[0]), int(words[2])
            found.append(Opened(*sockets[int(words[0])]))
        elif kind == "arrived":
            found.append(Arrived(*sockets[int(words[0])], int(words[1]), read_bits(words[1], words[2])))
        elif kind == "returned":
            found.append(Returned(*sockets[int(words[0])], int(words[1]), int(words[2])))
        elif kind == "ended":
            found.append(Ended(words[1], int(words[0]), int(words[2])))
    return found


def request(program: Host, kind: str, parts: Sequence[Any]) -> Act | None:
    """The act that a user's request is, by the program before it; None where the contract asks nothing about it."""
    if kind == "contact":
        return Contacts(spell_host(parts[0]))
    if kind in ("opensend", "openrecv"):
        return Asks(spell_host(parts[0]), parts[1], parts[2])
    mine = program.mine(parts[0]) if kind in ("send", "grant", "close") else None
    if mine is None:
        return None
    at = spell_host(mine[0]), mine[2].own, mine[2].foreign
    if kind == "send":
        return Hands(*at, parts[1])
    return Grants(*at, parts[1], parts[2]) if kind == "grant" else Closes(*at)


class Logging(World):
    """A world of the model that folds each host's own log."""

    def __init__(self, carrier: Carrier, host_program: type[Host] = Host) -> None:
        self.own: dict[HostName, Own] = {}
        self.sockets: dict[HostName, Sockets] = {}
        self.wrong: list[str] = []
        super().__init__(carrier, host_program)

    def note(self, host: HostName, act: Act) -> None:
        own = self.own.setdefault(host, Own(spell_host(host)))
        try:
            own.step(len(self.carrier.log) - 1, act)
        except Broken as why:
            self.wrong.append(f"{spell_host(host)}: {why}")

    def carry(self, call: Callable[[], T]) -> T:
        before = len(self.carrier.log)
        given = super().carry(call)
        for at, crossing in enumerate(self.carrier.log[before:], before):
            host, act = crossed(crossing)
            own = self.own.setdefault(read_host(host), Own(host))
            try:
                own.step(at, act)
            except Broken as why:
                self.wrong.append(f"{host}: {why}")
        return given

    def request(self, host: HostName, kind: str, *parts: Any) -> list[str]:
        act = request(self.program(host), kind, parts)
        told = super().request(host, kind, *parts)
        if act is not None:
            self.note(host, act)
        return told

    def tell(self, host: HostName, told: list[str]) -> None:
        for act in notices(told, self.sockets.setdefault(host, {})):
            self.note(host, act)
        super().tell(host, told)


def of_program(seed: int) -> tuple[Logging, list[str]]:
    """A random world of the model, and what is wrong with its own logs: broken rules, or lives that its book hasn't."""
    _, script = some_script(seed, world=Logging)
    world = script.world
    assert isinstance(world, Logging)
    if world.wrong:
        return world, world.wrong
    book = sorted(map(of_book, world.book.lives), key=repr)
    ends = [of_end(host, it) for host, own in world.own.items() for it in own.lives]
    mine = sorted(ends, key=repr)
    return world, [] if book == mine else ["its lives are not those of the book"]


def of_book(life: Life) -> Told:
    """What a book says of a life."""
    stamps = life.own, life.partner
    return life.host, life.socket, life.peer, life.foreign, *stamps, life.messages, life.bits, life.handed


def of_end(host: HostName, end: End) -> Told:
    """What an own log says of one."""
    stamps = end.asked or 0, end.partner or 0
    return host, end.own, read_host(end.peer), end.foreign, *stamps, len(end.counted), end.bits, "".join(end.all_handed)


class Among(Play):
    """Keepers and strangers, and hosts that run the program."""

    def __init__(self, seed: int) -> None:
        rng = random.Random(seed)
        names = HOSTS[: rng.choice((2, 2, 3, 3, 4))]
        strange = names[-1:] if len(names) > 2 and rng.random() < 0.4 else []
        super().__init__(rng, {it: () for it in names if it not in strange}, strange)
        running = [it for it in names if it not in strange and (it == names[0] or rng.random() < 0.3)]
        self.programs = {it: Host(it) for it in running}
        self.sockets: dict[HostName, Sockets] = {it: {} for it in running}
        for it in running:
            del self.keepers[it]

    def tells(self, host: HostName, told: Sequence[str]) -> None:
        for act in notices(told, self.sockets[host]):
            self.world.do(host, act)

    def do(self, host: HostName, act: Act) -> bool:
        if host not in self.programs:
            return super().do(host, act)
        try:
            self.world.do(host, act)
        except Refused:
            return False
        place = len(self.world.net.log) - 1
        if isinstance(act, Starts):
            self.programs[host] = Host(host)
        elif isinstance(act, (Comes, Answered)):
            self.tells(host, self.programs[host].accept(given(self.world.net.log[-1]), place))
        elif isinstance(act, Goes):
            self.tells(host, self.programs[host].offered(place))
        return True

    def comes(self, host: HostName, source: HostName, destination: HostName, link: int) -> Comes:
        if host in self.programs:
            return Comes(spell_host(source), link, "")
        return super().comes(host, source, destination, link)

    def of_host(self, host: HostName) -> Act | None:
        if host not in self.programs:
            return super().of_host(host)
        if self.rng.random() < 0.5:
            self.asks(host)
            return None
        message = self.programs[host].next_out()
        return Goes(spell_host(message[0].destination), message[0].link, message[1]) if message else None

    def asks(self, host: HostName) -> None:
        """A user of a program asks for something."""
        program = self.programs[host]
        kind, *parts = self.some_request(host, program)
        act = request(program, kind, parts)
        try:
            told = getattr(program, {"opensend": "open_send", "openrecv": "open_receive"}.get(kind, kind))(*parts)
        except Refused:
            return
        if act is not None:
            self.world.do(host, act)
        self.tells(host, told)

    def some_request(self, host: HostName, program: Host) -> tuple[Any, ...]:
        rng, habits = self.rng, self.habits[host]
        peer = rng.choice([it for it in self.names if it != host])
        mine = [end for pair in program.pairs.values() for end in pair.ends if end.mine]
        if program.phase(peer) == "closed" and rng.random() < 0.5 or rng.random() < habits.contacts:
            return "contact", peer
        if mine and rng.random() < 0.75:
            return self.at_end(habits.users_close, rng.choice(mine).own, [it.size for it in mine])
        if rng.random() < 0.6:
            return "listen", rng.choice(habits.receivers + habits.senders), rng.choice((8, 36))
        own, foreign = rng.choice(habits.receivers), rng.choice(habits.senders)
        if rng.random() < 0.5:
            return "openrecv", peer, own, foreign
        return "opensend", peer, foreign, own, rng.choice((8, 36))

    def at_end(self, closes: float, own: int, sizes: Sequence[int]) -> tuple[Any, ...]:
        rng = self.rng
        if rng.random() < closes:
            return "close", own
        if own % 2 == 0:
            if rng.random() < 0.1:
                return "ask_back", own, 64, 64
            return "grant", own, rng.choice((1, 2)), rng.choice((8, 36, 100))
        return "send", own, some_bits(rng, (rng.choice(sizes) or 8) * rng.choice((1, 2)))


def given(crossing: Crossing) -> Message | Reply:
    """What a host was given by a crossing."""
    assert not isinstance(crossing, Turned)
    if isinstance(crossing, tuple) and crossing.kind == "answer":
        return Reply(crossing.answer, crossing.flow)
    return Message("message", crossing.flow, crossing.text)


def among(seed: int) -> Among:
    """A random world of programs, keepers and strangers."""
    play = Among(seed)
    play.run(STEPS)
    return play


def tried(play: Among) -> Counter[str]:
    """How many hosts of each kind it had."""
    programs, keepers = len(play.programs), len(play.keepers)
    return Counter({"programs": programs, "keepers": keepers, "strangers": len(play.names) - programs - keepers})
