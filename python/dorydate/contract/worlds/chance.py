"""What a keeper may do next, chosen at random: any act that its contract allows, and what users ask for."""

from __future__ import annotations

import random
from collections import deque
from dataclasses import dataclass

from dorydate.contract.acts import Act, Asks, Closes, Contacts, Goes, Grants, Hands, Opened, Peer, Returned
from dorydate.contract.ends import End, Pair, Sent, Waiting
from dorydate.contract.fold import Broken, Own
from dorydate.contract.texts import Command, text_of
from dorydate.model.bits import Bits
from dorydate.model.commands import ALL, CLS, ECO, GVB, NOP, RET, RRP, RST, RTS, STR, header

WORD = 36  # bits of a word, up to which some hosts pad
MOST_HANDED, MOST_GRANTED = 100, 6  # bits that wait, and messages that a user grants in all


@dataclass(frozen=True)
class Habits:
    """How often a host does what, and with which numbers."""

    receivers: tuple[int, ...]
    senders: tuple[int, ...]
    links: tuple[int, ...]
    closes: float
    contacts: float
    resets: float
    users_close: float
    ignores: float

    @staticmethod
    def some(rng: random.Random) -> Habits:
        return Habits(
            receivers=(16, 18)[: rng.choice((1, 2))],
            senders=(33, 35)[: rng.choice((1, 2))],
            links=rng.choice(((2,), (2, 3), (2, 3, 31))),
            closes=rng.choice((0.02, 0.06, 0.2)),
            contacts=rng.choice((0.0003, 0.002, 0.015)),
            resets=rng.choice((0.0003, 0.002, 0.015)),
            users_close=rng.choice((0.01, 0.04, 0.15)),
            ignores=rng.choice((0.0, 0.0, 0.1, 0.4)),
        )


def copied(own: Own, peer: Peer) -> Own:
    """A host with its pair with one peer, to try something on. What its lives have had is left out."""
    other = Own(own.host, own.lacks, own.known)
    other.place = own.place
    if peer not in own.pairs:
        return other
    pair = own.pairs[peer]
    ends = {id(it): copied_end(it) for it in [*pair.ends.values(), *pair.just]}
    new = Pair.__new__(Pair)
    new.__dict__.update(pair.__dict__)
    new.ends = {key: ends[id(it)] for key, it in pair.ends.items()}
    new.on_link = {key: [ends[id(it)] for it in found if id(it) in ends] for key, found in pair.on_link.items()}
    new.just = [ends[id(it)] for it in pair.just]
    new.past, new.unlinked = dict(pair.past), set(pair.unlinked)
    new.out = {link: Sent(it.place, it.what, ends.get(id(it.end), it.end)) for link, it in pair.out.items()}
    other.pairs[peer] = new
    other.pending = [it for it in ends.values() if it.waits]
    other.touched = [new] if new.just else []
    return other


def copied_end(end: End) -> End:
    new = End.__new__(End)
    new.__dict__.update(end.__dict__)
    new.handed = Waiting()
    new.handed.parts, new.handed.at, new.handed.count = deque(end.handed.parts), end.handed.at, end.handed.count
    new.waits = deque(end.waits)
    new.counted, new.parts, new.all_handed = [], [], []
    return new


class Keeper:
    """A host that keeps its contract, or lacks rules of it, and does anything else."""

    def __init__(self, own: Own, habits: Habits, rng: random.Random) -> None:
        self.own, self.habits, self.rng = own, habits, rng

    def may(self, act: Act, peer: Peer) -> bool:
        """Whether its contract allows an act next."""
        try:
            copied(self.own, peer).step(self.own.place, act)
        except Broken:
            return False
        return True

    def next(self, peer: Peer, is_free: bool) -> Act | None:
        """Something that it may do next toward a peer; `is_free` is whether a message on link 0 may go out."""
        act = self.some_act(peer, is_free)
        return act if act is not None and self.may(act, peer) else None

    def some_act(self, peer: Peer, is_free: bool) -> Act | None:
        """Something that it might do."""
        pair, rng, habits = self.own.pair(peer), self.rng, self.habits
        if rng.random() < habits.contacts:
            return Contacts(peer)
        if pair.phase == "through" and rng.random() < 0.03:
            own, foreign = self.sockets()
            return Asks(peer, own, foreign)
        ends = [*pair.ends.values()]
        told = [it for it in ends if it.opened is None and (it.is_open() or self.lacks("opens"))]
        if told and rng.random() < 0.8:
            end = rng.choice(told)
            return Opened(peer, *end.sockets)
        if is_free and (signal := self.signal(pair)) is not None:
            return Goes(peer, 0, text_of(Command(signal)))
        if ends and rng.random() < 0.6 and (act := self.at_end(peer, self.chosen(ends))) is not None:
            return act
        if self.lacks("sends") and rng.random() < 0.2:
            return Goes(peer, rng.choice(habits.links), header(8, 1) + "01011010")
        commands = self.commands(peer, pair, rng.choice((1, 1, 2, 3))) if is_free else []
        return Goes(peer, 0, text_of(*commands)) if commands else None

    def lacks(self, rule: str) -> bool:
        return rule in self.own.lacks

    def sockets(self) -> tuple[int, int]:
        """An own socket and one of a peer, to receive or to send."""
        own, foreign = self.rng.choice(self.habits.receivers), self.rng.choice(self.habits.senders)
        return (own, foreign) if self.rng.random() < 0.5 else (foreign, own)

    def signal(self, pair: Pair) -> int | None:
        """RST or RRP, if it is time for one."""
        if pair.out and not self.lacks("idle"):
            return None
        if pair.owed and self.rng.random() < 0.8:
            return RRP
        asks = pair.phase == "away" and self.rng.random() < 0.5 or self.rng.random() < self.habits.resets
        return RST if asks else None

    # ---- at an end

    def chosen(self, ends: list[End]) -> End:
        """An end at which there is something to do, as a rule."""
        able = [it for it in ends if it.opened is not None and (it.granted.messages < 1 if it.receives() else True)]
        return self.rng.choice(able if able and self.rng.random() < 0.6 else ends)

    def at_end(self, peer: Peer, end: End) -> Act | None:
        """What a user does at an end, or what goes out or is reported of it."""
        if self.rng.random() < self.habits.users_close:
            return Closes(peer, *end.sockets)
        return self.at_receiver(peer, end) if end.receives() else self.at_sender(peer, end)

    def at_receiver(self, peer: Peer, end: End) -> Act | None:
        if end.opened is not None and end.granted.messages < MOST_GRANTED:
            return Grants(peer, *end.sockets, self.rng.choice((1, 2)), self.rng.choice((8, 36, 72, 200)))
        if end.opened is not None and any(end.back):
            left = [max(0, back - told) for back, told in zip(end.back, end.returned)]
            return Returned(peer, *end.sockets, *left)
        return None

    def at_sender(self, peer: Peer, end: End) -> Act | None:
        rng, size = self.rng, end.size or 8
        if end.opened is None:
            return None
        if end.handed.count < MOST_HANDED and rng.random() < 0.4:
            return Hands(peer, *end.sockets, some_bits(rng, size * rng.choice((1, 2, 3))))
        messages, bits = (a - b for a, b in zip(end.allowed, end.used))
        waiting = end.handed.first(MOST_HANDED)
        if self.lacks("within") and rng.random() < 0.3:
            messages, bits = 1, MOST_HANDED
        if self.lacks("handed") and rng.random() < 0.3:
            waiting = "01" * 50
        if messages <= 0 or end.link is None:
            return None
        if self.lacks("size") and rng.random() < 0.5:
            size = WORD + 8 - size
        count = max(0, min(bits, len(waiting))) // size
        count = rng.randint(0, count) if rng.random() < 0.5 else count
        text = header(size, count) + waiting[: count * size]
        return Goes(peer, end.link, text + "0" * (-len(text) % WORD if rng.random() < 0.3 else 0))

    # ---- commands

    def commands(self, peer: Peer, pair: Pair, count: int) -> list[Command]:
        """Commands that may go one after the other in a message."""
        found: list[Command] = []
        tried = self.own
        for _ in range(4 * count):
            if len(found) == count:
                break
            one = self.some_command(pair)
            if one is None or found and not self.may_follow(found, one):
                continue
            after = self.said(tried, peer, one)
            if after is not None:
                found.append(one)
                tried = after
        return found

    def may_follow(self, found: list[Command], one: Command) -> bool:
        """Whether a command may go beside others."""
        return self.lacks("alone") or not any(it.code in (RST, RRP) for it in (*found, one))

    def said(self, own: Own, peer: Peer, one: Command) -> Own | None:
        """The host after a command of its own; None where its contract doesn't allow that."""
        after = copied(own, peer)
        try:
            if one.code in (RST, RRP):
                after.step(own.place, Goes(peer, 0, text_of(one)))
            else:
                after.is_through(after.pair(peer), str(one))
                after.says(peer, after.pair(peer), one)
        except Broken:
            return None
        return after

    def some_command(self, pair: Pair) -> Command | None:
        rng, ends = self.rng, [*pair.ends.values()]
        due = [it for it in ends if not it.gone and (it.closing or it.taken)]
        kind = 0.42 if due and rng.random() < 0.4 else rng.random()
        if kind < 0.42:
            return self.some_request(ends)
        if kind < 0.42 + self.habits.closes:
            sockets = rng.choice(due or ends).sockets if ends and rng.random() < 0.9 else self.sockets()
            return Command(CLS, sockets)
        if kind < 0.9:
            return self.of_grants(ends)
        if self.own.lacks and kind < 0.95:
            return Command(rng.choice((RST, RRP)))
        return Command(rng.choice((NOP, ECO)), ()) if kind > 0.95 else None

    def some_request(self, ends: list[End]) -> Command:
        waiting = [it for it in ends if it.asked is None and not it.gone]
        answers = bool(waiting) and self.rng.random() < 0.8
        own, foreign = self.rng.choice(waiting).sockets if answers else self.sockets()
        if own % 2:
            return Command(STR, (own, foreign, self.rng.choice((8, 8, 36))))
        return Command(RTS, (own, foreign, self.rng.choice(self.habits.links)))

    def of_grants(self, ends: list[End]) -> Command | None:
        rng = self.rng
        due = [it for it in ends if it.receives() and it.granted.messages > it.said.messages]
        if not ends:
            return None
        end = rng.choice(due or ends)
        link = end.link or 2
        if end.receives() and (due or self.lacks("grants")):
            all_of_it = [max(0, granted - said) for granted, said in zip(end.granted, end.said)]
            return Command(ALL, (link, *(all_of_it if rng.random() < 0.7 else (1, rng.choice((8, 36, 100))))))
        if not end.receives() and rng.random() < 0.15:
            return Command(RET, (link, rng.choice((0, 1)), rng.choice((0, 8, 36))))
        return Command(GVB, (link, 64, 64)) if rng.random() < 0.1 else None


def some_bits(rng: random.Random, count: int) -> Bits:
    return f"{rng.getrandbits(count):0{count}b}"


def strangers_act(rng: random.Random, habits: Habits, peer: Peer) -> Goes:
    """What a stranger says: whatever it likes."""
    kind = rng.random()
    if kind < 0.2:
        return Goes(peer, rng.choice((2, 3, 40)), header(rng.choice((8, 36)), 1) + "1" * 36)
    own, foreign, link = rng.choice(habits.receivers), rng.choice(habits.senders), rng.choice((2, 3, 40))
    some = [
        Command(RST), Command(RRP), Command(RTS, (own, foreign, link)), Command(STR, (foreign, own, 8)),
        Command(CLS, (own, foreign)), Command(CLS, (foreign, own)), Command(ALL, (link, 3, 300)),
        Command(RET, (link, 1, 8)), Command(GVB, (link, 64, 64)),
    ]  # fmt: skip
    return Goes(peer, 0, text_of(*(rng.choice(some) for _ in range(rng.choice((1, 1, 2, 4))))))
