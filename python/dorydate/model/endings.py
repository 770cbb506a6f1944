"""What an ending means: a world that looks at each moment whether its lives keep what is promised where they close, take data and rest.

It was written from docs/headline.md, in another language and another form than the definitions. Of the programs it looks at the ends
of lives only: whether they are open or have taken a CLS, their links and their counters.
"""

from __future__ import annotations

from collections import Counter
from collections.abc import Iterator
from typing import Any, NamedTuple

from dorydate.model.audit import match
from dorydate.model.book import Life
from dorydate.model.connections import End, Pair
from dorydate.model.crossings import Answered, Carrier, Passed, Turned
from dorydate.model.firsts import messages_of
from dorydate.model.host import Host
from dorydate.model.names import Flow, HostName
from dorydate.model.world import World

HEADER = 40  # bits before the data of a message


class Going(NamedTuple):
    """A life that isn't over, with its place in the book, and the pair and the end that its host's program has of it."""

    at: int
    life: Life
    pair: Pair
    end: End


class EndingWorld(World):
    """A world that notes who closed its lives, and the first thing that was broken of what is promised."""

    def __init__(self, carrier: Carrier, host_program: type[Host] = Host) -> None:
        super().__init__(carrier, host_program)
        self.wrong: str | None = None
        self.tried: Counter[str] = Counter()
        self.closed: set[int] = set()  # lives that a user of their host closed, by their places in the book
        self.whole: set[int] = set()  # receiving lives whose partner's CLS was taken, and that no user of their host had closed
        self.came: dict[int, int] = {}  # of each receiving life whose partner's CLS was taken, the messages that had come in for it
        self.outstanding: dict[Flow, str] = {}  # of each flow with a message that has no answer: "out" while that waits to be taken
        self.seen = 0  # the crossings that this is made of
        self.matched: dict[tuple[int, int], bool] = {}
        self.heard: list[str] = []  # the notices to a user that were given last

    def happen(self, kind: str, *parts: Any) -> None:
        super().happen(kind, *parts)
        self.judge_rest()

    def request(self, host: HostName, kind: str, *parts: Any) -> list[str]:
        closed = [it.at for it in self.going(host) if it.life.socket == parts[0]] if kind == "close" else []
        notices = super().request(host, kind, *parts)
        self.closed.update(closed)
        return notices

    def tell(self, host: HostName, notices: list[str]) -> None:
        self.heard = [*notices]
        super().tell(host, notices)

    def judge(self, kind: str, is_kept: bool) -> None:
        """Counts what was tried, and keeps what was broken first."""
        self.tried[kind] += 1
        if not is_kept:
            self.wrong = self.wrong or kind

    # ---- lives

    def going(self, host: HostName | None = None) -> Iterator[Going]:
        """The lives of a host, or of all, that aren't over."""
        for at, life in enumerate(self.book.lives):
            program = None if life.has_ended or host not in (None, life.host) else self.hosts[life.host]
            found = program.mine(life.socket) if program else None
            if found:
                yield Going(at, life, found[1], found[2])

    def senders(self, at: int) -> list[int]:
        """The sending lives that a receiving one matches, by their places in the book."""
        life = self.book.lives[at]
        turned = (life.peer, life.foreign, life.host, life.socket)
        return [it for it, other in enumerate(self.book.lives) if (other.host, other.socket, other.peer, other.foreign) == turned and self.match(at, it)]

    def match(self, receiver: int, sender: int) -> bool:
        """Whether two lives match. If so they always do."""
        if (receiver, sender) not in self.matched:
            self.matched[receiver, sender] = match(self.carrier.log, self.book.lives[receiver], self.book.lives[sender])
        return self.matched[receiver, sender]

    # ---- what is taken

    def take(self, host: HostName) -> bool:
        before = [(it, it.end.is_open(), it.end.close_taken) for it in self.going(host)]
        unclosed = {it.at for it, _, _ in before} - self.closed
        place = len(self.carrier.log)
        given = super().take(host)
        crossing = self.carrier.log[place] if given else None
        for it, was_open, was_taken in before:
            if it.life.receives() and isinstance(crossing, Passed) and it.at in unclosed and (it.life.peer, it.end.link) == (crossing.flow.source, crossing.flow.link):
                bits = crossing.text[HEADER:]
                arrived = len(self.heard) == 1 and self.heard[0].startswith(f"arrived {it.life.socket} {len(bits)} ") and it.life.bits.endswith(bits)
                self.judge("data for an end that its user hasn't closed arrive", was_open and arrived)
            if it.life.receives() and it.end.close_taken and not was_taken:
                self.judge_close(it.at)
        return given

    def judge_close(self, at: int) -> None:
        """A receiving life takes its sender's CLS: each message of the sending life has come in. It has all of them where no user closed it."""
        life, senders = self.book.lives[at], [self.book.lives[it] for it in self.senders(at)]
        came = self.came[at] = self.came_in(life)
        self.judge("all that was sent has come in", came == self.sent(at))
        self.judge("a life has all where it has as many messages as came", (life.messages == came) == all(it.bits == life.bits and it.messages == life.messages for it in senders))
        if at not in self.closed:
            self.whole.add(at)
            self.judge("the sender's CLS follows all that was handed over", self.is_whole(at))

    def came_in(self, life: Life) -> int:
        """How many messages came in on a life's link after both its requests. `misread_endings` has readings that are wrong."""
        return len(messages_of(self.carrier.log, life))

    def came_before(self, at: int) -> int:
        """How many had come in for a receiving life when its partner's CLS was taken."""
        return self.came[at]

    def sent(self, at: int) -> int:
        """How many messages were sent for a receiving life."""
        return sum(self.book.lives[it].messages for it in self.senders(at))

    def is_whole(self, at: int) -> bool:
        """Whether a receiving life has all that its partner sent, and all that was handed over there."""
        life = self.book.lives[at]
        return all((it.bits, it.messages, it.handed) == (life.bits, life.messages, life.bits) for it in map(self.book.lives.__getitem__, self.senders(at)))

    def judged(self) -> str | None:
        """At the end of all: what was broken first. What was whole is."""
        for at in self.whole:
            self.judge("it stays so", self.is_whole(at))
        for at in self.came:
            self.judge("nothing is sent once its CLS was taken", self.came_before(at) == self.sent(at))
        return self.wrong

    # ---- rest

    def read_boxes(self) -> None:
        """Brings what is outstanding up to date."""
        for crossing in self.carrier.log[self.seen :]:
            if isinstance(crossing, Passed):
                self.outstanding[crossing.flow] = crossing.kind
            elif isinstance(crossing, Answered):
                self.outstanding.pop(crossing.flow, None)
            elif isinstance(crossing, Turned) and crossing.kind == "up":
                self.outstanding = {flow: it for flow, it in self.outstanding.items() if flow.source != crossing.host}
        self.seen = len(self.carrier.log)

    def judge_rest(self) -> None:
        """Lives that match agree while nothing waits between their hosts: where their ends are open, or nothing is outstanding nor to be sent."""
        self.read_boxes()
        going = [*self.going()]
        turned = {(it.life.peer, it.life.foreign, it.life.host, it.life.socket): it for it in going if not it.life.receives()}
        for taker in going:
            giver = turned.get((taker.life.host, taker.life.socket, taker.life.peer, taker.life.foreign))
            if taker.life.receives() and giver and self.match(taker.at, giver.at):
                self.judge_pair(taker, giver)

    def judge_pair(self, taker: Going, giver: Going) -> None:
        """Looks at two lives of one connection."""
        hosts = {taker.life.host, giver.life.host}
        between = {flow: kind for flow, kind in self.outstanding.items() if {flow.source, flow.destination} == hosts}
        waits = "out" in between.values()
        if taker.end.is_open() and between.get(Flow(giver.life.host, taker.life.host, taker.end.known_link())) != "out":
            self.judge("a receiver for which no data wait has all that was sent", self.have_same(taker, giver))
        if not waits and not taker.pair.queue and not giver.pair.queue and taker.end.is_open() and giver.end.is_open():
            self.judge("open ends agree", self.have_same(taker, giver) and self.have_counters(taker, giver))
        if not between and all(self.is_silent(it) for it in (taker, giver)):
            self.judge("ends agree where nothing is outstanding nor to be sent", self.have_same(taker, giver) and self.have_counters(taker, giver))
            self.judge("nobody has closed them there, but for a sender that drains", self.are_unclosed(taker.end, giver.end))
            if giver.end.close_asked:
                self.judge("a sender that drains there waits for allocation", giver.end.waiting != "" and giver.end.bytes_to_send() == 0)

    def is_silent(self, it: Going) -> bool:
        """Whether its program has nothing for the peer."""
        program = self.hosts[it.life.host]
        return program is None or program.next_of(it.pair) is None

    def are_unclosed(self, taker: End, giver: End) -> bool:
        """Whether nobody has closed two ends, but for the sender's user whose bits are still queued."""
        return taker.is_open() and giver.is_open() and not taker.close_asked and (not giver.close_asked or giver.waiting != "")

    def have_same(self, taker: Going, giver: Going) -> bool:
        """Whether all that was sent was taken."""
        return (taker.life.bits, taker.life.messages) == (giver.life.bits, giver.life.messages)

    def have_counters(self, taker: Going, giver: Going) -> bool:
        """Whether both counters are what was granted and neither used nor returned."""
        life, left = taker.life, [taker.end.messages, taker.end.bits]
        granted = [total - back - used for total, back, used in zip(life.granted, life.returned, (life.messages, len(life.bits)))]
        return left == granted == [giver.end.messages, giver.end.bits]
