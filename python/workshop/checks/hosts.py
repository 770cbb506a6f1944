"""A host's program against the independent model in Python, on random calls (minutes): ./check hosts [RUNS]

Compares hosts' programs with an independent model of their rules, on random calls.

The proofs say that `Ncp` does what its definitions say. Whether the definitions say what docs/hosts.md says is for readers
to judge; this script tries it as well. python/dorydate/model/host.py was written from those rules, in another language and another
form, with messages and commands spelled from the formats. Both run every call, and what it answers, what it reports and what
goes out next have to be the same. The same calls are made each time. In half of the runs one to three hosts exchange what
they send, over boxes that may lose it; in the others one host gets what a peer of any kind may send. Besides, every command
is cut at every length, and each octet of it is changed.

First the model answers the stored rows (cases/calls) of hosts. The calls are made by tools/calls,
built without proofs (workshop.builds.drivers): ./check hosts [RUNS]
"""

from __future__ import annotations

import random
import tempfile
from collections import Counter
from typing import Any, TypeVar

from dorydate.model.bits import Bits, bits_of
from dorydate.model.commands import control_message, header, number
from dorydate.model.connections import GONE, READY
from dorydate.model.crossings import Answer, Message, Reply
from dorydate.model.names import Flow, HostName
from workshop.builds.drivers import run_cases, write_case
from workshop.checks.host_calls import Calls
from workshop.checks.host_rows import open_hosts
from workshop.checks.host_worked import worked_runs
from workshop.checks.readings import read_stored, told
from workshop.words import Words

T = TypeVar("T")

RUNS = 250
CALLS = 400

HOSTS = [HostName(0, 1), HostName(0, 2), HostName(1, 2), HostName(3, 63)]
RECEIVERS = [16, 18, 20, 4294967294]
SENDERS = [33, 35, 1, 4294967295]
SIZES = [8, 8, 8, 1, 7, 32, 255]
LINKS = [2, 2, 3, 4, 5, 31, 1, 32, 255]
OPENED = [(16, 33), (18, 35)]
FAILURES: list[Answer] = ["incomplete", "dead", "nottaken"]
ANSWERS: list[Answer] = ["rfnm", *FAILURES]


# ---- hosts that exchange what they send


class Chance(Calls):
    """Random calls on hosts, and boxes between them."""

    def __init__(self, seed: int) -> None:
        self.random = random.Random(seed)
        self.single = self.random.random() < 0.5
        names = self.random.sample(HOSTS, 1 if self.single else self.random.choice([1, 2, 2, 2, 3]))
        super().__init__(names)
        self.names = names
        self.peers = (self.random.sample(HOSTS, 2) if self.single else names * 8 + [self.random.choice(HOSTS)])
        self.messages: list[Message] = []
        self.answers: list[Reply] = []
        # runs differ: some lose much, some reset much, some ask for wrong things, some use up the links
        self.receivers = RECEIVERS + [*range(100, 180, 2)] * (self.random.random() < 0.1)
        self.losses = self.random.choice([0, 0, 0.01, 0.1])
        self.contacts = self.random.choice([0.003, 0.01, 0.1])
        self.wrong = self.random.choice([0.03, 0.2])
        self.users = self.random.choice([0.1, 0.3, 0.5])
        self.strangers = 0.4 if self.single else self.random.choice([0, 0, 0.03])

    def one(self, *choices: T) -> T:
        """One of these."""
        return self.random.choice(choices)

    def peer(self) -> HostName:
        """A peer."""
        return self.random.choice(self.peers)

    def text(self, size: int) -> Bits:
        """Bits to be sent in bytes of a size, or now and then one bit more."""
        count = self.one(0, 1, 2, 5, 13, 100, 1003, self.random.randrange(40))
        return "".join(self.random.choices("01", k=min(size * count, 9000) + (self.random.random() < self.wrong)))

    def socket(self, place: int, sends: bool) -> int:
        """Mostly a socket that this host uses."""
        ends = [end for pair in self.hosts[place].pairs.values() for end in pair.ends if end.mine]
        used = [end.own for end in ends if end.own % 2 == sends]
        if used and self.random.random() > self.wrong:
            return self.random.choice(used)
        return self.random.choice(SENDERS if sends != (self.random.random() < self.wrong) else RECEIVERS)

    def user_call(self, place: int) -> tuple[Any, ...]:
        """A call of the user, with its arguments."""
        host = self.hosts[place]
        ready = any(pair.phase == READY for pair in host.pairs.values())
        if self.random.random() < (self.contacts if ready else 0.4):
            return "contact", self.peer()
        sends = self.random.random() < 0.5
        opened = any(end.is_open() for pair in host.pairs.values() for end in pair.ends)
        match self.random.choices(
            ["listen", "open", "send", "grant", "ask_back", "interrupt", "close", "echo"],
            [3, 12, 24, 24, 6, 4, 4, 1] if opened else [8, 16, 1, 1, 1, 1, 2, 1],
        )[0]:
            case "listen":
                size = 0 if self.random.random() < self.wrong else self.random.choice(SIZES)
                return "listen", self.random.choice(SENDERS if sends else self.receivers), size
            case "open":
                return self.open_call(place, sends)
            case "send":
                own = self.socket(place, True)
                found = host.mine(own)
                return "send", own, self.text(found[2].size if found and found[2].size else 8)
            case "grant":
                few, much = self.random.random() < 0.9, self.one(8, 64, 100, 500, 8000)
                messages, bits = (self.one(1, 2, 2, 3), much) if few else (self.one(0, 65534), self.one(0, 4294967294))
                return "grant", self.socket(place, False), messages, bits
            case "ask_back":
                fractions = 0, 1, 64, 127, 128, 129, 255
                return "ask_back", self.socket(place, False), self.one(*fractions), self.one(*fractions)
            case "interrupt":
                return "interrupt", self.socket(place, sends)
            case "close":
                return "close", self.socket(place, sends)
        return "echo", self.peer(), self.random.randrange(256)

    def open_call(self, place: int, sends: bool) -> tuple[Any, ...]:
        """A call that opens an end: as a rule one that another host waits for, or hears of."""
        own, foreign = (SENDERS, self.receivers) if sends else (self.receivers, SENDERS)
        if self.random.random() < self.wrong:
            chosen = self.peer(), self.random.choice(own + foreign), self.random.choice(own + foreign)
        else:
            chosen = self.random.choice(self.waited_for(place, sends) or [(self.peer(), self.random.choice(own), foreign[0])])
        size = 0 if self.random.random() < self.wrong else self.random.choice(SIZES)
        return ("open_send", *chosen, size) if sends else ("open_receive", *chosen)

    def waited_for(self, place: int, sends: bool) -> list[tuple[HostName, int, int]]:
        """What an end here could be opened with: ends at other hosts that have no partner, and sockets that listen."""
        own = self.names[place]
        found: list[tuple[HostName, int, int]] = []
        for host in self.hosts:
            ends = host.pairs[own].ends if own in host.pairs else []
            found += [(host.own, end.foreign, end.own) for end in ends if end.receives() == sends and not end.asked]
            sockets = SENDERS[:2] if sends else self.receivers
            found += [(host.own, self.random.choice(sockets), it) for it in host.listening if it % 2 != sends]
        return found

    # what is between the hosts

    def offer(self) -> None:
        """A host's next message goes out."""
        place = self.random.choice([at for at, host in enumerate(self.hosts) if host.next_out()])
        if self.random.random() < 0.02:
            place = self.random.randrange(len(self.hosts))
        found = self.hosts[place].next_out()
        if found:
            self.messages.append(Message("message", *found))
        self.stamped(place, "offered")

    def take(self) -> None:
        """A message comes to its host, or gets lost."""
        message = self.messages.pop(self.random.randrange(len(self.messages)))
        lost = self.random.random() < self.losses
        if message.flow.destination in self.names and not (lost and self.random.random() < 0.7):
            self.stamped(self.names.index(message.flow.destination), "accept", message)
        elif not lost and not self.single:
            lost = True
        self.answers.append(Reply(self.random.choice(FAILURES) if lost else "rfnm", message.flow))

    def answer(self) -> None:
        """An answer comes to its host."""
        answer = self.answers.pop(self.random.randrange(len(self.answers)))
        self.stamped(self.names.index(answer.flow.source), "accept", answer)

    def stray(self, place: int) -> None:
        """What isn't for this host, or answers nothing, as a rule."""
        flow = Flow(self.random.choice(HOSTS), self.random.choice(HOSTS), self.one(0, 2, 5, 255))
        if self.random.random() < 0.3:
            self.stamped(place, "accept", Message("message", flow, control_message([bytes([12])])))
        else:
            self.stamped(place, "accept", Reply(self.random.choice(ANSWERS), flow))

    # what a stranger sends

    def command(self, place: int, peer: HostName) -> bytes:
        """A command that means something to this host, as a rule."""
        pair = self.hosts[place].pair(peer)
        ends = [end for end in pair.ends if self.random.random() > self.wrong]
        links = [end.link for end in ends if end.link] or LINKS
        link = bytes([self.random.choice(links if self.random.random() > self.wrong else LINKS)])
        listening = [*self.hosts[place].listening]
        own = self.random.choice([end.own for end in ends] + listening + SENDERS[:2] + self.receivers[:2])
        foreign = next((end.foreign for end in ends if end.own == own), 16 if own % 2 else 33)
        if self.random.random() < self.wrong / 2:
            foreign = self.random.choice(RECEIVERS + SENDERS)
        sockets = number(foreign, 4) + number(own, 4)
        code = self.random.choices(range(15), [1, 12, 12, 6, 10, 3, 3, 2, 2, 2, 1, 1, 0.4, 1.5, 0.4])[0]
        if code in (1, 2) and self.random.random() > self.wrong:
            code = 1 if own % 2 else 2
        counts = number(self.one(0, 1, 2, 3, 3, 65535), 2) + number(self.one(0, 8, 100, 999, 4000, 4294967295), 4)
        fields = {
            1: sockets + bytes([self.one(*LINKS)]),
            2: sockets + bytes([self.one(0, *SIZES) if self.random.random() < self.wrong else self.one(*SIZES)]),
            3: sockets,
            4: link + counts,
            5: link + bytes([self.one(0, 64, 128, 255), self.one(0, 1, 128, 200)]),
            6: link + counts,
            7: link,
            8: link,
            9: b"A",
            10: b"B",
            11: bytes([self.one(0, 3, 255)]) + bytes(10),
        }
        return bytes([code]) + fields.get(code, b"")

    def strange_message(self, place: int) -> None:
        """A message that a peer of any kind may send."""
        peer = self.peer()
        pair = self.hosts[place].pair(peer)
        if self.random.random() < 0.25:
            found = [end for end in pair.ends if end.receives() and end.link] if self.random.random() > self.wrong else []
            end = self.random.choice(found) if found else None
            size, count = (end.size or 8 if end else self.random.choice(SIZES)), self.one(0, 1, 2, 12)
            text = header(size, count) + "".join(self.random.choices("01", k=size * count + self.one(0, 0, 3)))
            link = end.known_link() if end else self.one(*LINKS)
        elif pair.phase == GONE and self.random.random() < 0.4 or pair.phase != READY and self.random.random() < 0.6:
            link, text = 0, control_message([bytes([self.one(12, 13)])])
        else:
            commands = [self.command(place, peer) for _ in range(self.one(1, 1, 1, 2, 3, 14))]
            link, text = 0, control_message(commands)
        if self.random.random() < self.wrong:
            text = self.spoiled(text)
        self.stamped(place, "accept", Message("message", Flow(peer, self.names[place], link), text[:8063]))

    def spoiled(self, text: Bits) -> Bits:
        """A text that was cut, or of which an octet was changed."""
        if self.random.random() < 0.4:
            return text[: self.random.randrange(len(text) + 1)]
        at = self.random.randrange(len(text) // 8)
        return text[: 8 * at] + bits_of(bytes([self.one(0x00, 0x7F, 0xFF, self.random.randrange(256))])) + text[8 * at + 8 :]

    def something(self) -> None:
        """One call."""
        place = self.random.randrange(len(self.hosts))
        chance = self.random.random()
        if chance < self.strangers:
            return self.strange_message(place)
        if chance < self.strangers + 0.01:
            return self.stray(place)
        ways = [self.answer] * bool(self.answers) + [self.take] * bool(self.messages)
        ways += [self.offer] * any(host.next_out() for host in self.hosts)
        if not ways or self.random.random() < self.users:
            return self.call(place, *self.user_call(place))
        return self.random.choice(ways)()

    def run(self) -> Chance:
        """All calls."""
        while self.made < CALLS:
            self.something()
        return self


# ---- the runs


def with_runs(folder: str, runs: int) -> Counter[str]:
    """Puts the calls of each run into a folder, and what is owed for them. Counts the calls by what they came to."""
    seen: Counter[str] = Counter()
    made: list[tuple[str, Calls]] = [(f"{run:05}", Chance(run).run()) for run in range(runs)]
    made += [(f"worked{at:02}", worked) for at, worked in enumerate(worked_runs())]
    for name, calls in made:
        write_case(folder, name, calls.rows)
        seen += calls.seen
        seen["calls"] += calls.made
    return seen


def main() -> int:
    """The exit status."""
    runs = Words(__doc__).count("runs", RUNS, "random runs of calls").asked().runs
    is_stored = read_stored("hosts", open_hosts, "hosts")
    with tempfile.TemporaryDirectory() as folder:
        seen = with_runs(folder, runs)
        said = run_cases(folder)
    return told("hosts", said, f"{seen.pop('calls')} calls agree", seen, is_stored)
