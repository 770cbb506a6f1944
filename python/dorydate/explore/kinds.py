"""Random schedules: the kinds of events of a network, small pools of each, and weights that change from schedule to schedule."""

from __future__ import annotations

import random
from collections.abc import Collection, Iterable, Iterator, Mapping, Sequence
from itertools import accumulate

from dorydate import script as events
from dorydate.explore.pattern import Pattern
from dorydate.model.bits import octets
from dorydate.model.commands import (
    ALL, CLS, ECO, GVB, INR, INS, RET, RRP, RST, RTS, STR, alone, control_message, header, of_counts, of_sockets,
)  # fmt: skip
from dorydate.network import Host, Network
from dorydate.script import EVENTS, Calm, Event, Flow, Text
from dorydate.sentences.events import EVENTS as WORDS
from dorydate.sentences.events import OF_CARRIERS, words_of

Pools = Mapping[str, tuple[Event, ...]]
SWARM = (0, 1, 1, 4, 16)  # weights of a kind in a schedule that has its own
CALMS = (1, 1, 1, 2, 2, 3, 5)
# events of carriers that no schedule has: calms send distances, which are true, and pieces are thrown away by nobody
LEFT_OUT = ("route", "claim", "abandon")
LENGTH = 40  # events of a schedule, at most
# kinds of events that cause lines which a pattern forbids, where nothing else causes them
CAUSES = {
    "down": {"hostdown", "impdown"},
    "up": {"hostup", "impup"},
    "interrupt": {"interrupt"},
    "echoed": {"echo"},
    "returned": {"askback"},
    "done": {"server", "user"},
    "failed": {"server", "user"},
}
ONE_BYTE = Text.of(b"A")
SENDS, RECEIVES = 33, 16  # the sockets of each host
FIRST_LINK, ILLEGAL = 2, 14  # of connections; a code that no command has
# kinds of events that lead to lines which a pattern asks for; in one batch of THIRD they are favoured, and calms are seldom
LEADS = {
    "noted": {"out", "ask", "deliver"},
    "arrives": {"out", "deliver"},
    "slots": {"out", "deliver"},
    "answer": {"take"},
}
THIRD = 3
FAVOUR = 16  # the weight of a favoured kind beside that of another one
SIZES, LONG_SIZES = (1, 2, 3, 5, 8), (5, 8, 13)  # events between two calms


def pools(network: Network, texts: Sequence[Text] = (Text(),), links: Sequence[int] = (0,), places: int = 3) -> Pools:
    """The events of a network that schedules are made of, by kind. Pools are small, so that requests meet their partners."""
    hosts = network.hosts()
    pairs = [(a, b) for a in hosts for b in hosts if a != b]
    flows = [Flow(a, b, link) for a, b in pairs for link in links]
    found: dict[str, Iterable[Event]] = {"take": map(events.Take, hosts), **of_carrier(network, flows, places)}
    strangers = network.strangers()
    if network.raw:
        found["out"] = (events.Out(flow, text) for flow in flows for text in texts)
    else:
        found |= of_programs([it for it in hosts if it not in strangers], pairs)
    if strangers:
        found["out"] = of_strangers(strangers, hosts)
    return {kind: tuple(it) for kind, it in found.items()}


def of_carrier(network: Network, flows: Sequence[Flow], places: int) -> dict[str, Iterable[Event]]:
    """What happens inside a network: each event of its carrier, by what its line names."""
    imps, lines = [it.number for it in network.imps], range(len(network.lines))
    named: Mapping[str, Sequence[tuple[object, ...]]] = {
        "H": [(it,) for it in network.hosts()],
        "S D N": [(it,) for it in flows],
        "I": [(it,) for it in imps],
        "I J": [(a, b) for a in imps for b in imps if a != b],
        "I L": [(imp, line) for imp in imps for line in network.lines_of(imp)],
        "L +|- K": [(line, way, place) for line in lines for way in "+-" for place in range(places)],
    }
    kinds = [it for it in (OF_CARRIERS if network.carrier == "subnet" else words_of("carrier")) if it not in LEFT_OUT]
    return {it: [EVENTS[it](*parts) for parts in named[WORDS[it].shape]] for it in kinds}


def of_programs(programs: Sequence[Host], every: Sequence[tuple[Host, Host]]) -> dict[str, Iterable[Event]]:
    """What users of programs ask for: one socket of each kind at each host, bytes of eight bits and of one."""
    sends, receives = SENDS, RECEIVES
    hosts, pairs = programs, [it for it in every if it[0] in programs]
    own = [(host, socket) for host in hosts for socket in (sends, receives)]
    return {
        "contact": (events.Contact(*it) for it in pairs),
        "listen": (events.Listen(host, socket, 8) for host, socket in own),
        "opensend": (events.OpenSend(*it, sends, receives, 8) for it in pairs),
        "openrecv": (events.OpenReceive(*it, receives, sends) for it in pairs),
        "send": (events.Send(host, sends, ONE_BYTE) for host in hosts),
        "grant": (events.Grant(host, receives, messages, bits) for host in hosts for messages, bits in ((1, 8), (2, 100))),
        "askback": (events.AskBack(host, receives, 128, 128) for host in hosts),
        "interrupt": (events.Interrupt(*it) for it in own),
        "close": (events.Close(*it) for it in own),
        "offer": map(events.Offer, hosts),
    }


def of_strangers(strangers: Sequence[Host], hosts: Sequence[Host]) -> Iterator[Event]:
    """What strangers say to programs: each command, about the sockets that all use, and data of several forms."""
    both = (SENDS, RECEIVES), (RECEIVES, SENDS)
    link = FIRST_LINK
    commands = [alone(RST), alone(RRP), of_sockets(RTS, RECEIVES, SENDS, link), of_sockets(STR, SENDS, RECEIVES, 8)]
    commands += [of_sockets(CLS, *it) for it in both]
    commands += [of_counts(ALL, link, 2, 100), of_counts(RET, link, 1, 8), bytes([GVB, link, 128, 128])]
    commands += [bytes([INR, link]), bytes([INS, link]), bytes([ECO, 1]), bytes([ILLEGAL])]
    said = [(0, control_message([it])) for it in commands]
    said += [(link, header(8, 1) + "0" * 8), (link, header(8, 3) + "0" * 24), (link, "")]
    for source in strangers:
        for destination in (it for it in hosts if it not in strangers):
            for on, bits in said:
                yield events.Out(Flow(source, destination, on), Text(octets(bits), len(bits)))


def fit(found: Pools, pattern: Pattern) -> Pools:
    """The pools without the kinds whose lines a pattern forbids."""
    barred = {kind for word in pattern.barred() for kind in CAUSES.get(word, ())}
    return {kind: it for kind, it in found.items() if kind not in barred and it}


def chosen(found: Pools, kinds: Iterable[str]) -> Pools:
    """The pools of these kinds only."""
    return {kind: found[kind] for kind in kinds if kind in found}


def favoured(pattern: Pattern) -> frozenset[str]:
    """The kinds of events that a pattern about a trace is reached by: what comes in a frame has to overtake, and calms undo that."""
    return frozenset(kind for word in pattern.heads() for kind in LEADS.get(word, ())) if pattern.needs_trace() else frozenset()


class Maker:
    """Makes schedules: swarm and flat weights in turn. An event is named by its place in `events`."""

    def __init__(self, found: Pools, length: int = LENGTH, opening: int = 1, calms: Sequence[int] = CALMS, favoured: Collection[str] = ()) -> None:
        self.favoured = favoured
        self.length, self.opening, self.calms = length, opening, calms  # rounds before the first event make routes known
        self.kinds = tuple(kind for kind in found if found[kind])
        self.events: tuple[Event, ...] = tuple(event for kind in self.kinds for event in found[kind])
        counts = [len(found[kind]) for kind in self.kinds]
        self.ranges = [(end - count, count) for end, count in zip(accumulate(counts), counts)]

    def weights(self, chance: random.Random, is_swarm: bool, is_fitted: bool = False) -> list[int]:
        """The weights of the kinds, each with those before it."""
        given = [(FAVOUR if is_fitted and kind in self.favoured else 1) * (chance.choice(SWARM) if is_swarm else 1) for kind in self.kinds]
        return list(accumulate(given if any(given) else [1] * len(given)))

    def some(self, chance: random.Random, weights: Sequence[int], count: int) -> list[int]:
        """Some events by their weights."""
        draw = chance.random
        return [begin + int(draw() * many) for begin, many in chance.choices(self.ranges, cum_weights=weights, k=count)]

    def batch(self, chance: random.Random, copies: int, number: int = 0) -> tuple[list[list[list[int]]], list[int]]:
        """Schedules for networks side by side: for each the events of each part, and the calms after the parts, which they share."""
        calms, left, ends = [self.opening], self.length, [0]
        is_fitted = bool(self.favoured) and number % THIRD == THIRD - 1
        while left > 0:
            size = chance.choice(LONG_SIZES if is_fitted else SIZES)
            ends.append(ends[-1] + size)
            calms.append(chance.choice(self.calms))
            left -= size + 1
        parts: list[list[list[int]]] = []
        for copy in range(copies):
            drawn = self.some(chance, self.weights(chance, copy % 2 == 0, is_fitted), ends[-1])
            parts.append([[], *(drawn[begin:end] for begin, end in zip(ends, ends[1:]))])
        return parts, calms

    def script(self, parts: Sequence[Sequence[int]], calms: Sequence[int]) -> list[Event]:
        """The schedule of one network: its parts with the calms after them."""
        found: list[Event] = []
        for part, rounds in zip(parts, calms):
            found += [self.events[it] for it in part]
            if rounds:
                found.append(Calm(rounds))
        return found
