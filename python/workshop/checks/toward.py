"""What a host with a program keeps with each of its peers, strangers too, in a world with strangers.

It was written from docs/headline.md, in another language and another form than the definitions. Nothing is asked of a
peer: it looks at what crossed, at what the users of hosts with programs heard, and at their lives.
"""

from __future__ import annotations

from collections.abc import Callable, Iterator
from typing import NamedTuple, TypeVar

from dorydate.model.audit import RIGHT, Log, is_granted, is_well_formed, own_request, partner_request
from dorydate.model.bits import spell_bits
from dorydate.model.book import Life
from dorydate.model.crossings import Message, Passed
from dorydate.model.firsts import RIGHT as FIRSTS
from dorydate.model.firsts import data, on_link, placed
from dorydate.model.host import Host
from dorydate.model.names import HostName, spell_host
from dorydate.model.strangers import MixedWorld, spelled

T = TypeVar("T")

OF_PEER = {"opened": 2, "ended": 2}  # which word of a notice names the peer; in others that name one it is the next
OF_SOCKET = {"sent", "arrived", "returned", "interrupt"}  # notices that name a socket only


class Clause(NamedTuple):
    """A clause, and whether a world keeps it."""

    name: str
    keeps: Callable[[MixedWorld], bool]


# ---- lives


def both_crossed(log: Log, life: Life) -> bool:
    """Whether both requests of a life crossed at its stamps, for its sockets, one with a link and one with a size."""
    return bool(FIRSTS.links(log, life))


def are_once(world: MixedWorld) -> bool:
    """Whether no request is two lives' own, and no two lives have the same request of their partner."""
    log, lives = world.carrier.log, world.book.lives
    own, partner = [own_request(it) for it in lives], [partner_request(log, it) for it in lives]
    return RIGHT.own_differ(own) and RIGHT.partners_differ(partner) and RIGHT.went_out(partner)


def is_carried(log: Log, life: Life) -> bool:
    """Whether a life's bits are those of as many messages as it counts, in order, on a link that its RTS names."""
    for link in FIRSTS.links(log, life):
        states = {(0, 0)}  # of the messages so far: how many may be the life's, and with how many bits
        for _, bits in FIRSTS.messages_on(log, life, on_link(life, link)):
            if bits is not None:
                states |= {(n + 1, at + len(bits)) for n, at in states if life.bits.startswith(bits, at)}
        if (life.messages, len(life.bits)) in states:
            return True
    return False


def is_allowed(log: Log, life: Life) -> bool:
    """Whether what a sending life sent is within what the ALLs on its link name, after its own request, and in the
    message with its partner's or after it."""
    grants = (FIRSTS.granted(log, life, link) for link in FIRSTS.links(log, life))
    return any(life.messages <= messages and len(life.bits) <= bits for messages, bits in grants)


def each(world: MixedWorld, keeps: Callable[[Log, Life], bool], receives: bool | None = None) -> bool:
    """Whether each life keeps this, or each that receives, or that sends."""
    lives = [it for it in world.book.lives if receives in (None, it.receives())]
    return all(keeps(world.carrier.log, it) for it in lives)


# ---- notices


def life_at(world: MixedWorld, host: HostName, socket: int, place: int) -> Life | None:
    """The last life of a socket that began before a place."""
    found = [it for it in world.book.lives if (it.host, it.socket) == (host, socket) and FIRSTS.begun(it) < place]
    return found[-1] if found else None


def peer_of(world: MixedWorld, host: HostName, words: list[str], place: int) -> str | None:
    """The peer that a notice is about."""
    if words[0] not in OF_SOCKET:
        return words[OF_PEER.get(words[0], 1)]
    life = life_at(world, host, int(words[1]), place)
    return spell_host(life.peer) if life else None


def heard_of(world: MixedWorld) -> Iterator[tuple[HostName, list[str], int, Passed]]:
    """The notices that came of messages, each with its host, its words, its place and the message."""
    asked = {(host, place) for host, _, place in world.book.contacts}  # a contact reports too, where nothing crossed
    for host, notice, place in world.book.notices:
        crossing = world.carrier.log[place - 1] if place else None
        is_contact = notice.startswith("pairreset") and (host, place) in asked
        if isinstance(crossing, Passed) and not is_contact:
            yield host, notice.split(" "), place, crossing


def are_about_sender(world: MixedWorld) -> bool:
    """Whether all that a taken message reports is about its sender."""
    taken = [it for it in heard_of(world) if it[3].kind == "in"]
    return all(peer_of(world, *it[:3]) == spell_host(it[3].flow.source) for it in taken)


def is_of(world: MixedWorld, host: HostName, socket: int, place: int, crossing: Passed) -> bool:
    """Whether a socket's life is with the peer of this message of its host, and has its link."""
    life = life_at(world, host, socket, place)
    flows = [on_link(life, link) for link in FIRSTS.links(world.carrier.log, life)] if life else []
    return crossing.flow in flows


def are_reported(world: MixedWorld) -> bool:
    """Whether each message of data that a program sends is reported, once, and each other report is of one taken."""
    log = world.carrier.log
    heard = [(*it, it[1][0] == "arrived") for it in heard_of(world) if it[1][0] in ("sent", "arrived")]
    for host, words, place, crossing, comes in heard:
        end = crossing.flow.destination if comes else crossing.flow.source
        bits = data(crossing.text, comes)
        if (crossing.kind == "in") != comes or host != end or bits is None or not crossing.flow.link:
            return False
        if " ".join(words[2:]) != spell_bits(bits) or not is_of(world, host, int(words[1]), place, crossing):
            return False
    places = [place for _, _, place, _, _ in heard]
    out = [at + 1 for at, it in enumerate(log) if isinstance(it, Passed) and it.kind == "out" and it.flow.link]
    theirs = [at for at in out if log[at - 1].flow.source not in world.strangers]  # type: ignore[union-attr]
    sent = [place for _, _, place, _, comes in heard if not comes]
    return len({*places}) == len(places) and sent == theirs


# ---- other pairs


class Watching(MixedWorld):
    """A mixed world that finds a taken message which changes what its host's program has with others."""

    spread: str | None = None
    taken: tuple[HostName, HostName, dict[HostName, object]] | None = None  # who takes, of whom, and what it had

    def carry(self, call: Callable[[], T]) -> T:
        given = super().carry(call)
        if isinstance(given, Message) and given.flow.destination not in self.strangers:
            self.taken = (given.flow.destination, given.flow.source, pairs_of(self.hosts[given.flow.destination]))
        return given

    def tell(self, host: HostName, notices: list[str]) -> None:
        if self.taken is not None:  # what runs on the host hears of it only now
            taker, sender, before = self.taken
            self.taken, after = None, pairs_of(self.hosts[taker])
            if any(before.get(peer) != after.get(peer) for peer in {*before, *after} - {sender}):
                self.spread = "pairs with others than the sender"
        super().tell(host, notices)


def pairs_of(program: Host | None) -> dict[HostName, object]:
    """What a program has with each peer, without what it doesn't have."""
    nobody = HostName(0, 0)
    fresh = spelled(Host(nobody).pair(nobody))
    pairs = {peer: spelled(it) for peer, it in program.pairs.items()} if program else {}
    return {peer: it for peer, it in pairs.items() if it != fresh}


# ---- all of it

CLAUSES = [
    Clause("stamps", lambda it: is_well_formed(it.carrier.log, it.book.lives)),
    Clause("both requests", lambda it: each(it, both_crossed)),
    Clause("each request once", are_once),
    Clause("carried", lambda it: each(it, is_carried)),
    Clause("first sent", lambda it: each(it, lambda log, life: placed(log, life) is not None, False)),
    Clause("taken", lambda it: each(it, lambda log, life: is_granted(life, life.messages, len(life.bits)), True)),
    Clause("handed over", lambda it: each(it, lambda log, life: RIGHT.was_handed_over(life), False)),
    Clause("allowed", lambda it: each(it, is_allowed, False)),
    Clause("reported", are_reported),
    Clause("about its sender", are_about_sender),
]

# what is promised among hosts with programs, and isn't toward a stranger
STRONGER = [
    Clause("first taken", lambda it: each(it, lambda log, life: placed(log, life) is not None, True)),
    Clause("a sender", lambda it: RIGHT.streams_are_kept(it.carrier.log, it.book.lives)),
]


def broken_toward(world: MixedWorld) -> str | None:
    """The first clause that a world breaks, None where it keeps all."""
    return next((f"{it.name}, of all lives" for it in CLAUSES if not it.keeps(world)), None)
