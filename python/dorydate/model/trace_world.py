"""Traces of networks whose hosts have programs, independently implemented: tools/model --trace < FILE prints the trace of an input.

It was written from docs/trace.md over the independent model of hosts: of programs a trace has the pairs, ends, commands that wait, and what
listens; and it has their services. `check trace` compares the program with it.
"""

from __future__ import annotations

from collections.abc import Iterable, Iterator

from dorydate.model.commands import ALL, CLS, ECO, ERP, ERR, GVB, INR, INS, NAMES, RET, RTS, STR, read_numbers
from dorydate.model.connections import CLOSED, GONE, End, Pair
from dorydate.model.host import Host
from dorydate.model.crossings import Passed
from dorydate.model.names import HostName, address, spell_host
from dorydate.model.runs import End as Ending
from dorydate.model.runs import opened
from dorydate.model.script import Event, read_line
from dorydate.model.services import Echo, Running, Server, Terminal, User
from dorydate.model.strangers import MixedWorld
from dorydate.model.topology import Topology
from dorydate.model.trace import all_parts, changed, of, opening, parts_of, fold_in, text
from dorydate.model.trace_values import Object, crossing_of, text_of
from dorydate.model.world import World

KINDS = "parts", "programs", "services"  # what a line has of the state

# of each command that has fields: their names, and the octets of each
FIELDS = {
    RTS: {"receive": 4, "send": 4, "link": 1}, STR: {"send": 4, "receive": 4, "size": 1}, CLS: {"own": 4, "foreign": 4},
    ALL: {"link": 1, "messages": 2, "bits": 4}, GVB: {"link": 1, "messages": 1, "bits": 1}, RET: {"link": 1, "messages": 2, "bits": 4},
    INR: {"link": 1}, INS: {"link": 1}, ECO: {"octet": 1}, ERP: {"octet": 1},
}  # fmt: skip


def command_of(command: bytes) -> Object:
    """A command that waits."""
    kind = {"kind": NAMES[command[0]].lower()}
    if command[0] == ERR:
        return {**kind, "code": command[1], "detail": command[2:].hex().upper()}
    fields = FIELDS.get(command[0], {})
    return {**kind, **dict(zip(fields, read_numbers(command, *fields.values())))}


def closing_of(end: End) -> str:
    """How far a host's own closing of an end has come. One that its partner has closed is to be closed here, too."""
    is_due = end.close_asked or end.close_taken
    return "sent" if end.close_sent else "queued" if end.close_queued else "due" if is_due else "no"


def end_of(end: End) -> Object:
    """An end of a connection."""
    return {
        "socket": end.own,
        "foreign": end.foreign,
        "kind": "receive" if end.receives() else "send",
        "mine": end.mine,
        "requests": {"own": end.own_stamp, "peer": end.partner_stamp},
        "closing": {"own": closing_of(end), "peer": end.close_taken},
        "link": end.link,
        "size": end.size or None,
        "allocation": {"messages": end.messages, "bits": end.bits},
        "waiting": text_of(end.waiting),
    }


def pair_of(peer: HostName, pair: Pair) -> Object:
    """What a host keeps about one peer."""
    return {
        "peer": spell_host(peer),
        "phase": "early" if pair.phase == GONE and pair.early else pair.phase,
        "owed": pair.owed,
        "busy": [*pair.busy],
        "ends": [end_of(it) for it in pair.ends],
        "commands": [command_of(it) for it in pair.queue],
    }


def is_known(pair: Pair) -> bool:
    """Whether anything is known of a peer."""
    return pair.phase != CLOSED or bool(pair.owed or pair.busy or pair.ends or pair.queue)


def program_of(host: Host | None) -> Object | None:
    """The program of a host, None where the host is down."""
    if host is None:
        return None
    pairs = [pair_of(peer, host.pairs[peer]) for peer in sorted(host.pairs, key=address) if is_known(host.pairs[peer])]
    return {"pairs": pairs, "listening": [{"socket": socket, "size": size} for socket, size in host.listening.items()]}


# ---- services


def met_on(server: Server, socket: int) -> Object | None:
    """The far end of a connection of a server, None where it has not opened."""
    if socket not in server.opened:
        return None
    peer, foreign = server.opened[socket]
    return {"host": spell_host(peer), "socket": foreign}


def server_of(server: Server) -> Object:
    """A server of an initial connection."""
    ends = {"user": server.listens, "receiving": server.base, "sending": server.base + 1}
    return {
        "kind": "server",
        "listen": server.listens,
        "sockets": {"receive": server.base, "send": server.base + 1},
        "met": {name: met_on(server, socket) for name, socket in ends.items()},
        "over": server.outcome is not None,
    }


def user_of(user: User) -> Object:
    """A user of an initial connection. The bits of a base are kept until they are all there; an odd one is none."""
    own = user.own
    return {
        "kind": "user",
        "asked": {"host": spell_host(user.peer), "listen": user.server, "own": own},
        "sockets": {"receive": own + 2, "send": own + 3},
        "opened": {"asking": user.is_open, "receiving": own + 2 in user.opened, "sending": own + 3 in user.opened},
        "base": None if user.base is None or user.base % 2 else user.base,
        "came": text_of(user.bits if user.base is None else ""),
        "over": user.outcome is not None,
    }


def service_of(it: Running) -> Object:
    """A service that runs on a host."""
    match it:
        case Server():
            return server_of(it)
        case User():
            return user_of(it)
        case Echo():
            return {"kind": "echo", "sockets": {"receive": it.receives, "send": it.sends}}
        case Terminal():
            return {"kind": "terminal", "sockets": {"receive": it.receives, "send": it.sends}, "rest": it.kept.hex().upper(), "came": text_of(it.part)}
    raise TypeError(it)


def began(it: Running) -> bool:
    """Whether something runs: a server or a user that could not begin asked for nothing."""
    match it:
        case Server():
            return bool(Server(it.listens, it.base).start())
        case User():
            return bool(User(it.peer, it.server, it.own).start())
    return True


def services_of(world: World, host: HostName) -> Object:
    """The services of a host, in the order in which they began, and where a typed line goes."""
    typing = world.terminals.get(host)
    return {"typing": typing.sends if typing else None, "running": [service_of(it) for it in world.programs[host] if began(it)]}


def strangers_of(world: World) -> frozenset[HostName]:
    """The hosts that run no program of these."""
    return world.strangers if isinstance(world, MixedWorld) else frozenset()


def state_of(world: World) -> Object:
    """The state of a world, as each line has it: all parts of the network, and the program and the services of each host that has a program."""
    hosts = [host for host in world.hosts if host not in strangers_of(world)]
    return {
        "parts": all_parts(world.carrier),
        "programs": {spell_host(host): program_of(world.hosts[host]) for host in hosts},
        "services": {spell_host(host): services_of(world, host) for host in hosts},
    }


# ---- lines


class TracedWorld:
    """The trace of a script: a record for each event, and in a calm for each event by which something is printed or changes."""

    def __init__(self, world: World) -> None:
        self.world, self.state = world, state_of(world)
        self.shown = self.crossed = 0  # how much of what is printed and of what crossed is in records

    def happen(self, line: int, number: int, event: Event, spelled: str) -> Iterator[Object]:
        """The records of an event of the script: its line, which event it is, and that line's text. Each happens when it is asked for."""
        if event[0] != "calm":
            self.world.happen(*event)
            yield self.record((line, number, 0), spelled, state_of(self.world))
            return
        for round_of, within in self.world.in_calm(event[1]):
            record = self.record((line, number, round_of), " ".join([within[0], *map(spell_host, within[1:])]), self.left(within))
            if self.has_line(record):
                yield record

    def has_line(self, record: Object) -> bool:
        """Whether an event of a calm has a line."""
        return bool(record["printed"] or any(record[kind] for kind in KINDS))

    def left(self, event: Event) -> Object:
        """What an event of a calm may have changed: a quiet round all parts of the network, and a host by which something crosses what
        `take` and `out` may change, its program and its services."""
        carrier, crossed = self.world.carrier, self.world.carrier.log[self.crossed :]
        if event[0] == "quiet":
            return {**dict.fromkeys(KINDS, {}), "parts": all_parts(carrier)}
        if not crossed:
            return dict.fromkeys(KINDS, {})
        name, first = spell_host(event[1]), crossed[0]
        inside = ("out", *first[1:]) if event[0] == "offer" and isinstance(first, Passed) else event
        return {
            "parts": parts_of(carrier, of(carrier).names(carrier, inside, crossed)),
            "programs": {name: program_of(self.world.hosts[event[1]])},
            "services": {name: services_of(self.world, event[1])},
        }

    def record(self, numbers: tuple[int, int, int], spelled: str, now: Object) -> Object:
        """The record of an event that has happened, with what of these texts is other than it was."""
        shown, crossed = self.world.printed[self.shown :], self.world.carrier.log[self.crossed :]
        self.shown, self.crossed = len(self.world.printed), len(self.world.carrier.log)
        found = {kind: changed(self.state[kind], now[kind]) for kind in KINDS}
        for kind in KINDS:
            fold_in(self.state[kind], found[kind])
        told = dict(zip(("line", "number", "round"), numbers))
        return {**told, "event": spelled, "crossed": [crossing_of(it) for it in crossed], "printed": shown, **found}


def traced_world(world: World, lines: Iterable[str]) -> Iterator[Object]:
    """The trace of a script, record by record, over a world that is at its opening: each happens when it is asked for."""
    trace = TracedWorld(world)
    has_strangers = bool(strangers_of(world))
    events = [(line, event, spelled) for line, spelled in enumerate(lines, 1) if (event := read_line(spelled, False, strangers=has_strangers))]
    for number, (line, event, spelled) in enumerate(events, 1):
        yield from trace.happen(line, number, event, spelled)


def opening_of(network: Topology, world: World) -> Object:
    """The first record of a trace: the network, the state at its opening, and who runs no program, where somebody doesn't."""
    foreign = [spell_host(host) for host in sorted(network.strangers(), key=lambda host: (host.imp, host.number))]
    return {**opening(network, world.carrier), **state_of(world), **({"foreign": foreign} if foreign else {})}


def ends_world(network: Topology, lines: Iterable[str]) -> Ending:
    """How the program ends when it is asked for the trace of a network with host programs and a script."""
    world = opened(network)
    assert isinstance(world, World)
    first = text(opening_of(network, world))
    return 0, "".join(f"{it}\n" for it in [first, *map(text, traced_world(world, lines))]), ""
