"""Initial connection, terminal and echo service against the independent model in Python (minutes): ./check services [RUNS]

Compares the machines of the initial connection, the terminal and the echo service with an independent model of their rules.

The proofs say that these machines do what their definitions say. Whether the definitions say what docs/initial-connection.md says
is for readers to judge; this script tries it as well. python/dorydate/model/services.py was written from those rules and RFC 165, in another
language and another form. Both are given random notices, most of them about the machine's own sockets, and what they ask
for and come to has to be the same.

First the model answers the stored rows (cases/calls) of such machines. The calls are made by tools/calls,
built without proofs (workshop.builds.drivers): ./check services [RUNS]
"""

from __future__ import annotations

import random
import tempfile
from collections import Counter
from collections.abc import Callable, Iterable
from typing import TypeVar

from dorydate.model.bits import Bits, bits_of, spell_bits
from dorydate.model.names import HostName, spell_host
from dorydate.model.services import MOST_SOCKET, Echo, Request, Running, Server, Service, Terminal, User
from workshop.builds.drivers import run_cases, write_case
from workshop.checks.readings import read_stored
from workshop.checks.service_rows import answers_of, first_answers, open_service
from workshop.rows import spelled
from workshop.words import Words

T = TypeVar("T")

RUNS = 400
NOTICES = 30
PEERS = [HostName(0, 1), HostName(0, 2), HostName(3, 63)]


class Chance:
    """A machine, and the random notices that it is given."""

    def __init__(self, seed: int) -> None:
        self.random = random.Random(seed)
        self.peer = self.one(*PEERS)
        kind = self.one("server", "user", "user", "echo", "terminal")
        self.rows: list[str] = []
        self.answers: list[str] = []  # all that was answered
        self.story: list[str] = []  # what a machine is notified of where all goes well
        self.pairs: list[tuple[int, int]] = []
        self.machine = self.made(kind)
        self.say(self.opening, first_answers(self.machine))
        for _ in range(NOTICES):
            self.tell()

    def one(self, *choices: T) -> T:
        """One of these."""
        return self.random.choice(choices)

    def made(self, kind: str) -> Running:
        """A machine of a kind."""
        if kind == "server":
            return self.make_server()
        if kind == "user":
            return self.make_user()
        return self.make_service(kind, Echo if kind == "echo" else Terminal)

    def make_server(self) -> Server:
        """A server."""
        listens, base = self.one((7, 100), (7, 100), (4294967295, 0), (1, 4294967294), (8, 100), (7, 101))
        self.opening = f"server {listens} {base}"
        user = self.one(16, 4294967292)
        # what may be opened, with a fitting socket of the user and with others
        self.pairs = [(listens, user), (base, user + 3), (base + 1, user + 2), (base, user + 3), (base + 1, user + 2), (listens, 40)]
        self.story = [f"opened {own} {spell_host(self.peer)} {foreign} 3 4" for own, foreign in self.pairs[:3]]
        return Server(listens, base)

    def make_user(self) -> User:
        """A user."""
        server, own = self.one((7, 16), (7, 16), (7, 4294967292), (7, 4294967294), (8, 16), (7, 17))
        self.opening = f"user {spell_host(self.peer)} {server} {own}"
        self.pairs = [(own, server), (own, server), (own + 2, 101), (own + 3, 100)]
        if own + 3 <= MOST_SOCKET:
            opened = [f"opened {at} {spell_host(self.peer)} {foreign} 3 4" for at, foreign in self.pairs[1:]]
            self.story = [opened[0], f"arrived {own} 32 00000064", *self.random.sample(opened[1:], 2)]
        return User(self.peer, server, own)

    def make_service(self, name: str, make: Callable[[int, int], Service]) -> Service:
        """An echo service or a terminal."""
        receives, sends = self.one((18, 19), (100, 101), (0, 4294967295))
        self.opening = f"{name} {receives} {sends}"
        self.pairs = [(receives, 33), (receives, 33), (sends, 16)]
        return make(receives, sends)

    def socket(self) -> tuple[int, int]:
        """An own socket and a foreign one, as a rule of the machine's."""
        own, foreign = self.one(*self.pairs)
        wrong = self.random.random()
        own = own % (MOST_SOCKET + 1) if wrong > 0.05 else self.one(5, 6)
        return own, (foreign if wrong < 0.95 else self.one(5, 6)) % (MOST_SOCKET + 1)

    def bits(self) -> Bits:
        """Bits that arrive."""
        if isinstance(self.machine, User):
            said = self.one(100, 100, 100, 101, 4294967294)
            whole = f"{said:032b}"
            part = self.one(32, 32, 32, 8, 16, 31, 0)
            return self.one(whole, whole[:part], whole[part:], whole + "1")
        octets = b"".join(self.random.choices([b"HELLO", b"\r\n", b"\r", b"\n", b"\x00\xff", b" ~", b""], k=self.random.randrange(4)))
        bits = bits_of(octets)
        return bits[: len(bits) - self.one(0, 0, 0, 1, 7)] if bits else self.one("", "1", "0101")

    def tell(self) -> None:
        """Tells a notice, or that a request was refused."""
        if self.random.random() < 0.03:
            self.machine.refused("InUse")
            return self.answered("refused", [])
        if self.story and self.random.random() < 0.6:
            return self.hear(self.story.pop(0))
        own, foreign = self.socket()
        peer = spell_host(self.peer if self.random.random() < 0.9 else self.one(*PEERS))
        kinds = ["opened", "arrived", "ended", "pairreset", "ready", "sent", "interrupt", "contactfailed"]
        kind = self.random.choices(kinds, [12, 12, 1.5, 0.5, 1, 1, 1, 1])[0]
        words = {
            "opened": f"{own} {peer} {foreign} 3 4",
            "ended": f"{own} {peer} {foreign}",
            "sent": f"{own} {spell_bits('01000001')}",
            "interrupt": f"{own}",
        }
        self.hear(f"{kind} {own} {spell_bits(self.bits())}" if kind == "arrived" else f"{kind} {words.get(kind, peer)}")

    def hear(self, said: str) -> None:
        """Tells a notice."""
        self.answered(said, self.machine.notice(*said.split(" ")))

    def answered(self, call: str, requests: Iterable[Request]) -> None:
        """Notes a row and what is answered: the requests, and what the machine has come to."""
        self.say(call, answers_of(self.machine, requests))

    def say(self, call: str, answers: list[str]) -> None:
        self.rows += spelled(call, answers)
        self.answers += answers


def main() -> int:
    """The exit status."""
    runs = Words(__doc__).count("runs", RUNS, "random machines").asked().runs
    seen: Counter[str] = Counter()
    is_stored = read_stored("services", open_service, "server", "user", "echo", "terminal")
    with tempfile.TemporaryDirectory() as folder:
        for run in range(runs):
            made = Chance(run)
            write_case(folder, f"{run:05}", made.rows)
            name = made.opening.split(" ")[0]
            words = (it if it.startswith(("failed", "refused")) else it.split(" ")[0] for it in made.answers)
            seen.update(f"{name}: {it}" for it in words)
        wrong = run_cases(folder)
    for said, count in sorted(seen.items()):
        print(f"check services: {count} {said}")
    print(f"check services: {wrong}" if wrong else f"check services: {runs} machines, all the same")
    return 1 if wrong or not is_stored else 0
