"""What waits, where it is, and for what: by the rules that the workbench reads too (sentences/table.mjs).

It reads the state of the independent model. After a calm from which nothing more comes it says what waits in the
network that has come to rest: it lets a copy of the model have some more rounds, to see that nothing comes of them.
"""

from __future__ import annotations

from collections.abc import Iterator, Mapping, Sequence
from dataclasses import dataclass

from dorydate.explain.said import Saying, Way
from dorydate.explain.view import host_in_words, imp_in_words
from dorydate.model.alive import Held, everything
from dorydate.model.boxes import Boxes
from dorydate.model.commands import ALL
from dorydate.model.connections import CLOSED, READY, End, Pair
from dorydate.model.crossings import Carrier
from dorydate.model.forks import forked
from dorydate.model.imp import Imp
from dorydate.model.imp_state import SLOTS, STORE
from dorydate.model.names import Flow, HostName, in_order, spell_flow, spell_host
from dorydate.model.packets import ASK, DATA, DEAD, NEVER, RFNM, Carried, Packet
from dorydate.model.runs import Place
from dorydate.model.services import Service, User
from dorydate.model.subnet import Subnet
from dorydate.model.world import World
from dorydate.sentences.table import TABLE, filled, sentences

RULES: list[list[str]] = TABLE["rules of waits"]  # of each thing that waits: facts, and what is said where they hold
WHAT, AT, FOR, PACKETS, ANSWERS = (sentences(it) for it in ("waits", "waits at", "waits for", "packets", "answers"))
FURTHEST: dict[str, float] = dict(TABLE["furthest"])  # how much each copy of a message matters
KINDS = {DATA: "data", RFNM: "rfnm", DEAD: "dead", ASK: "ask", NEVER: "never"}
PLACES = {"queue": "whole", "slot": "slot", "store": "store", "channel": "channel", "frame": "frame"}
LOOKED = 4  # rounds after which a network that printed nothing is said to be at rest
MOST = 4  # things that wait are listed at most
MOST_IMPS = 12  # of a network whose rest is looked at: each look costs rounds of the model

Holes = dict[str, object]


@dataclass(frozen=True)
class Wait:
    """What waits, where it is, what it waits for, whether it does so for ever, and script lines that help."""

    what: str
    where: str
    reason: str
    is_bad: bool
    cures: tuple[str, ...]

    def __str__(self) -> str:
        is_helped = self.is_bad or self.cures[:1] and self.cures[0].startswith("take")
        cure = f" ({', '.join(f'`{it}`' for it in self.cures)})" if is_helped and self.cures else ""
        link = ": " if self.reason == FOR["nothing alive"] else ", for "
        return f"{self.what}{', ' if self.where else ''}{self.where}{link}{self.reason}{cure}"


def by_rules(thing: str, facts: Mapping[str, bool], holes: Holes, called: str = "") -> Wait:
    """What waits: the first of the thing's rules whose facts all hold says it, and its name where that is left open."""
    rules = (further for name, needed, *further in RULES if name == thing and all(facts[it] for it in needed.split(", ") if it))
    what, where, reason, bad, cures = next(rules)
    lines = tuple(it for it in filled(cures, holes).split(";") if it)
    said, place, cause = (filled(it, holes) for it in (WHAT[what or called], AT[where], FOR[reason]))
    return Wait(said, place, cause, bad == "bad", lines)


def at_rest(place: Place, carrier: Carrier) -> list[str]:
    """What waits where nothing more comes of some rounds, in a sentence; none where nothing waits or something moves."""
    if isinstance(carrier, Subnet) and len(carrier.imps) > MOST_IMPS:
        return []
    found = [str(it) for it in waiting(place, carrier)]
    if not found or moves(place):
        return []
    more = len(found) - MOST
    return [f"The network rests, and this waits: {'; '.join(found[:MOST])}{f'; and {more} more' if more > 0 else ''}."]


def moves(place: Place) -> bool:
    """Whether something comes of some more rounds."""
    ahead = forked(place)
    before = len(ahead.printed)
    ahead.happen("calm", LOOKED)
    return len(ahead.printed) > before


def waiting(place: Place, carrier: Carrier) -> Iterator[Wait]:
    """All that waits."""
    if isinstance(carrier, Subnet):
        yield from InSubnet(carrier).waiting()
    elif isinstance(carrier, Boxes):
        for flow, _ in carrier.messages:
            yield by_rules("mail", {}, {**message(flow), "host": host_in_words(flow.destination)})
        for answer in carrier.answers:
            holes = {"host": host_in_words(answer.flow.source), "answer": ANSWERS[answer.kind]}
            yield by_rules("mail answer", {}, {**message(answer.flow), **holes})
    if isinstance(place, World):
        for host, program in place.hosts.items():
            if program is not None:
                yield from of_program(place, host, program.pairs)


def message(flow: Flow, number: int | None = None) -> Holes:
    """The holes that name a message."""
    which = "the message" if number is None else f"message {number}"
    return {"flow": spell_flow(flow), "message": f"{which} of flow {spell_flow(flow)}"}


# ---- messages


class InSubnet:
    """What waits in a subnet."""

    def __init__(self, subnet: Subnet) -> None:
        self.subnet = subnet
        self.alive = [*everything(subnet)]

    def waiting(self) -> Iterator[Wait]:
        for number, imp in self.subnet.imps.items():
            if imp is None:
                yield from self.unseen(number)
                continue
            for flow in in_order(imp.outstanding):
                yield self.outstanding(imp, flow)
            for it in (answer for host in imp.hosts for answer in host.answers):
                holes = {"imp": imp_in_words(number), "host": host_in_words(it.flow.source)}
                yield by_rules("answer", {}, {**message(it.flow), **holes})

    def unseen(self, number: int) -> Iterator[Wait]:
        """That an IMP is down whose neighbours don't know."""
        ends = [(sum(ends) - number, line) for line, ends in enumerate(self.subnet.ends) if number in ends]
        cures = ";".join(f"enddown {near} {line}" for near, line in ends if self.is_end_up(near, line))
        if cures:
            yield by_rules("unseen", {}, {"imp": imp_in_words(number), "ends": cures})

    def is_end_up(self, number: int, line: int) -> bool:
        node = self.subnet.imps[number]
        return node is not None and node.ports[self.subnet.port_of(number, line)].is_up

    def outstanding(self, imp: Imp, flow: Flow) -> Wait:
        """A message without an answer: where the copy of it is that is furthest, and what that waits for."""
        number = imp.outstanding[flow]
        holes = message(flow, number)
        copies = [it for it in self.alive if (it.flow, it.number) == (flow, number)]
        if not copies:
            return by_rules("gone", {"route": imp.route(flow.destination.imp) is not None}, holes)
        return self.held(max(copies, key=self.score), holes)

    def score(self, held: Held) -> float:
        """How far a copy is: an answer before the message before a question, of each kind the one nearest to its end."""
        at, to = self.subnet.imps[self.imp_of(held)], target(held)
        distance = 0 if at is None or at.number == to else at.vector()[to - 1]
        return FURTHEST[KINDS[held.kind]] + FURTHEST[PLACES[held.place[0]]] - distance

    def imp_of(self, held: Held) -> int:
        """The IMP that holds something, on a line the one that it comes from."""
        match held.place:
            case ["queue", host]:
                return int(host.imp)
            case ["frame", line, way, _]:
                return self.subnet.ends[line][0 if way == "+" else 1]
        return int(held.place[1])

    def held(self, held: Held, holes: Holes) -> Wait:
        """Where a copy is and what it waits for."""
        number, own = self.imp_of(held), held.flow.destination
        line, channel, packet = self.on_line(held)
        far = sum(self.subnet.ends[line]) - number if line is not None else number
        node = self.subnet.imps[far] if line is not None and self.is_end_up(far, line) else None
        host = self.subnet.imps[number]
        facts = {
            "end down": node is None,
            "no slot": node is not None and wants_slot(node, held, packet),
            "no room": node is not None and target(held) != far and not node.room(1),
        }
        pieces = len(host.slots[held.flow][1]) if held.place[0] == "slot" and host is not None else 0
        names = {"imp": number, "from": number, "far": far, "next": far, "to": target(held)}
        numbers = {"number": number, "line": line, "channel": channel, "pieces": pieces}
        words = {"own": spell_host(own), "host": host_in_words(own), "packet": PACKETS[KINDS[held.kind]]}
        imps = {name: imp_in_words(it) for name, it in names.items()}
        return by_rules(PLACES[held.place[0]], facts, {**holes, **numbers, **words, **imps, "slots": SLOTS, "places": STORE})

    def on_line(self, held: Held) -> tuple[int | None, int, Packet | None]:
        """The line of something in a channel or a frame, its channel there, and the packet; no line for all else."""
        match held.place:
            case ["channel", imp, port, channel]:
                return self.subnet.lines_of(imp)[port], channel, self.subnet.up(imp).ports[port].line.busy[channel]
            case ["frame", line, way, at]:
                content = self.subnet.live[line][way][at][1]
                assert isinstance(content, Carried)
                return line, content.channel, content.packet
        return None, 0, None


def target(held: Held) -> int:
    """The IMP to which something travels."""
    return held.flow.destination.imp if held.is_request() else held.flow.source.imp


def wants_slot(imp: Imp, held: Held, packet: Packet | None) -> bool:
    """Whether a packet needs a slot at the IMP to which it comes next, and there is none."""
    is_whole = packet is not None and packet.last and packet.place == 0
    is_piece = held.kind == DATA and held.flow.destination.imp == imp.number and not is_whole
    return is_piece and len(imp.slots) >= SLOTS and held.flow not in imp.slots


# ---- programs of hosts


def of_program(world: World, host: HostName, pairs: Mapping[HostName, Pair]) -> Iterator[Wait]:
    """What a host's program waits for."""
    users = [it for it in world.programs[host] if isinstance(it, User) and it.outcome is None]
    for peer, pair in pairs.items():
        saying = Saying(world, host, peer)
        if pair.phase not in (CLOSED, READY):
            yield by_rules("said", *saying.contact(pair), "contact")
        for end in pair.ends:
            if end.waiting:
                yield of_bits(world, (host, peer), pair, end)
            elif end.mine and not end.close_taken:
                yield from of_end(saying, end, [it.own for it in users])
    for it in users:
        yield of_user(world, host, it)


def of_end(saying: Saying, end: End, of_users: Sequence[int]) -> Iterator[Wait]:
    """What an end of a connection waits for that has no bits to send."""
    at: Holes = {"end": f"socket {end.own} of {saying.holes['host']}"}
    thing = "close" if end.close_asked or end.close_queued else "request"
    if thing == "request" and (end.partner_stamp is not None or end.own in of_users):  # an initial connection waits
        return
    facts, holes = saying.close(end) if thing == "close" else saying.request(end)
    yield by_rules("said", facts, {**holes, **at}, thing)


def of_user(world: World, host: HostName, user: User) -> Wait:
    """What an initial connection waits for: its first request, or what comes after that."""
    program = world.hosts[host]
    pair = program.pairs.get(user.peer) if program is not None else None
    first = pair.end(user.own, user.server) if pair is not None else None
    if first is not None and first.partner_stamp is None and not first.is_closing():
        return by_rules("said", *Saying(world, host, user.peer).request(first, "initial"), "initial")
    hosts: Holes = {"host": host_in_words(host), "peer": host_in_words(user.peer), "socket": user.server}
    facts = {"peer down": world.hosts.get(user.peer) is None, "numbered": user.base is not None}
    return by_rules("initial", facts, hosts)


def of_bits(world: World, hosts: tuple[HostName, HostName], pair: Pair, end: End) -> Wait:
    """What bits wait for that were handed over and have not gone out."""
    host, peer = hosts
    at = f"socket {end.own} of {host_in_words(host)}"
    holes: Holes = {"host": host_in_words(host), "peer": host_in_words(peer), "end": at, "socket": end.foreign}
    facts = {
        "enough": end.messages > 0 and end.bits >= end.size,
        "busy": end.link in pair.busy,
        "grant on its way": is_on_its_way(world, peer, host, end.link),
        "service": is_of_service(world, peer, end.foreign),
    }
    whose = "service" if is_of_service(world, host, end.own) else "program"
    numbers = {"bits": len(end.waiting), "messages": end.messages, "allowed": end.bits, "link": end.link}
    words = {"whose": whose, "own": spell_host(host), "other": spell_host(peer), "foreign": end.foreign}
    return by_rules("bits", facts, {**holes, **numbers, **words})


def is_on_its_way(world: World, peer: HostName, host: HostName, link: int | None) -> bool:
    """Whether a grant for a link has not come from a peer yet: it waits there, or is in the message that went out last."""
    way = Way(world, peer, host)
    queued = way.pair.queue if way.pair is not None else []
    return any(it[0] == ALL and it[1] == link for it in (*queued, *way.commands))


def is_of_service(world: World, host: HostName, socket: int) -> bool:
    """Whether a service on a host uses a socket."""
    return any(isinstance(it, Service) and socket in (it.receives, it.sends) for it in world.programs.get(host, []))
