"""Hosts that run their programs over a carrier, and the book of their connections: an independent implementation of the rules.

It uses the independent models of a carrier (`boxes`, `subnet`), of one host's program (`host`) and of what runs on a host
(`services`), and was written from the rules that docs/world.md and docs/program.md retell, in another language and another form
than the definitions. `check model` compares the program with it. Each event prints what crosses, what users are notified of, what
their programs report, or why the event is refused.
"""

from __future__ import annotations

from collections.abc import Callable, Iterator
from typing import Any, TypeVar

from dorydate.model.bits import bits_of
from dorydate.model.book import Book
from dorydate.model.crossings import Carrier, Printing, Turned
from dorydate.model.host import Host
from dorydate.model.names import HostName, Refused, spell_host
from dorydate.model.resting import is_looked_at
from dorydate.model.script import Event
from dorydate.model.services import Machine, Report, Request, Running, Server, Terminal, User, program_after
from dorydate.sentences.events import OF_CARRIERS

TAKES, OFFERS = 16, 32  # so often a host takes and offers in a round of `calm` at most
PRINTED = {"opened": 3, "sent": 2, "arrived": 2, "error": 2}  # this many words of a notice are printed, of others all
OF_WORLD = {"offer", "take", "calm", "server", "user", "type"}
CALLS = {"opensend": "open_send", "openrecv": "open_receive", "askback": "ask_back"}  # requests that are called otherwise than their events

T = TypeVar("T")


class World(Printing):
    """A carrier, the program of each host that is up, what runs on them, and the book."""

    further: frozenset[str] = frozenset()  # events of the carrier that no script of the program has

    def __init__(self, carrier: Carrier, host_program: type[Host] = Host) -> None:
        self.carrier, self.host_program = carrier, host_program
        self.hosts: dict[HostName, Host | None] = {host: self.host_program(host) for host in carrier.hosts()}  # None where the host is down
        self.programs: dict[HostName, list[Running]] = {host: [] for host in carrier.hosts()}
        self.terminals: dict[HostName, Terminal] = {}  # of a host: the terminal whose user machine was done last
        self.book = Book()
        self.at_notice = 0  # how many of its notices what runs on hosts has heard
        self.printed: list[str] = []

    def step(self, kind: str, *parts: Any) -> None:
        """Lets an event happen, which may be refused."""
        if kind in OF_CARRIERS or kind in self.further:
            self.carry(lambda: self.carrier.step(kind, *parts))
        elif kind in OF_WORLD:
            getattr(self, kind)(*parts)
        else:
            host, *rest = parts
            self.tell(host, self.request(host, kind, *rest))

    def end_of_book(self) -> list[str]:
        """The lines of all lives."""
        return [life.spell() for life in self.book.lives]

    # ---- the carrier's calls

    def carry(self, call: Callable[[], T]) -> T:
        """Lets the carrier make a call, and shows what crosses."""
        before = len(self.carrier.log)
        given = call()
        for crossing in self.carrier.log[before:]:
            if isinstance(crossing, Turned):
                if crossing.kind == "down":
                    self.stop(crossing.host)
                else:
                    self.hosts[crossing.host] = self.host_program(crossing.host)
        self.printed += self.carrier.printed[before:]
        return given

    def stop(self, host: HostName) -> None:
        """A host has stopped: nothing runs on it any more."""
        self.hosts[host] = None
        self.programs[host] = []
        self.terminals.pop(host, None)
        self.book.stop(host)

    def program(self, host: HostName) -> Host:
        """The program of a host, which has to be there and up."""
        if host not in self.hosts:
            raise Refused("NoSuch")
        program = self.hosts[host]
        if program is None:
            raise Refused("IsDown")
        return program

    def offer(self, host: HostName) -> bool:
        """A host sends its next message: whether there is one."""
        program = self.program(host)
        message = program.next_out()
        if message is None:
            return False
        place = len(self.carrier.log)
        flow, text = message
        self.carry(lambda: self.carrier.out(flow, text))
        self.tell(host, program.offered(place))
        return True

    def take(self, host: HostName) -> bool:
        """A host takes what waits for it: whether something does."""
        program = self.program(host)
        place = len(self.carrier.log)
        inbound = self.carry(lambda: self.carrier.take(host))
        if inbound is None:
            return False
        self.tell(host, program.accept(inbound, place))
        return True

    def calm(self, rounds: int) -> None:
        """Rounds, in each of which every host that is up takes what waits and then offers what it has. Refusals are not printed."""
        for _ in self.in_calm(rounds):
            pass

    def in_calm(self, rounds: int) -> Iterator[tuple[int, Event]]:
        """The events of a calm, each after it has happened, with the round that it is in: quiet rounds of the network, takings and offers."""
        for round_of in range(1, rounds + 1):
            before = len(self.carrier.log)
            state = self.carrier.state() if is_looked_at(round_of) else None
            self.carry(self.carrier.quiet_round)
            yield round_of, ("quiet",)
            for host in [host for host, program in self.hosts.items() if program is not None]:
                for event in self.turn(host):
                    yield round_of, event
            if len(self.carrier.log) == before and (self.carrier.is_quiet() or state is not None and state == self.carrier.state()):
                break  # nothing is left for a later round: nothing crossed, so no program has changed either

    def turn(self, host: HostName) -> Iterator[Event]:
        """A host's takings and offers in a round, each after it has happened: as long as something comes of it, so often at most."""
        for kind, event, times in ("take", self.take, TAKES), ("offer", self.offer, OFFERS):
            is_more = True
            while is_more and times:
                try:
                    is_more = event(host)
                except Refused:
                    is_more = False
                times -= 1
                yield kind, host

    # ---- what users ask for

    def request(self, host: HostName, kind: str, *parts: Any) -> list[str]:
        """A user's request, by the name of its event. The notices that come of it."""
        notices: list[str] = getattr(self.program(host), CALLS.get(kind, kind))(*parts)
        if kind == "contact":
            self.book.contacts.append((host, parts[0], len(self.carrier.log)))
        elif kind == "send":
            self.book.life(host, parts[0]).handed += parts[1]
        elif kind == "grant":
            self.book.life(host, parts[0]).grant(parts[1], parts[2])
        elif kind == "close":
            self.book.close(host, parts[0])
        return notices

    # ---- what runs on hosts

    def server(self, host: HostName, listens: int, base: int) -> None:
        """A server starts."""
        self.program(host)
        self.start(host, Server(listens, base))

    def user(self, host: HostName, peer: HostName, server: int, own: int) -> None:
        """A user starts."""
        self.program(host)
        self.start(host, User(peer, server, own))

    def type(self, host: HostName, text: str) -> None:
        """A line is typed at a host's terminal."""
        self.program(host)
        if host not in self.terminals:
            raise Refused("NotOpen")
        self.request(host, "send", self.terminals[host].sends, bits_of(text.encode() + b"\r\n"))

    def start(self, host: HostName, machine: Running) -> None:
        """Something begins to run on a host."""
        self.programs[host].append(machine)
        self.run(host, machine, machine.start())

    def tell(self, host: HostName, notices: list[str]) -> None:
        """Writes notices into the book; then prints each, and what the host's programs make of it."""
        for notice in notices:
            self.book.notices.append((host, notice, len(self.carrier.log)))
            self.book.hear(host, notice.split(" "))
        for notice in notices:
            self.at_notice += 1
            kind, *words = notice.split(" ")
            self.printed.append(" ".join([kind, spell_host(host), *words[: PRINTED.get(kind)]]))
            for program in list(self.programs[host]):
                self.run(host, program, program.notice(kind, *words))

    def run(self, host: HostName, program: Running, requests: list[Request]) -> None:
        """Runs what a program asks for, and prints what it reports."""
        for kind, *parts in requests:
            try:
                self.request(host, kind, *parts)
            except Refused as refused:
                if program.refused(str(refused)):
                    break
        for report in program.reports():
            self.report(host, program, report)

    def report(self, host: HostName, program: Running, report: Report) -> None:
        """Prints a report. A machine that is done is followed by its service."""
        self.book.reports.append((host, report, self.at_notice))
        self.printed.append(" ".join([report[0], spell_host(host), *report[1:]]))
        if report[0].startswith("done ") and isinstance(program, Machine):
            follower = program_after(program)
            self.programs[host][self.programs[host].index(program)] = follower
            if isinstance(follower, Terminal):
                self.terminals[host] = follower
            self.run(host, follower, follower.start())
