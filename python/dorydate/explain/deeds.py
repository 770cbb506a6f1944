"""What becomes of what users ask for, at their hosts: commands that wait, bits that a grant allows or not, a close that waits."""

from __future__ import annotations

from typing import Any

from dorydate.explain.view import Sentences, host_in_words
from dorydate.model.connections import End, Pair
from dorydate.model.names import HostName
from dorydate.model.world import World
from dorydate.sentences import DEEDS
from dorydate.sentences.table import count, filled, sentences
from dorydate.sentences.texts import commands_in_words

NEXT = sentences("after deeds")


def looked(place: World, kind: str, host: HostName, *parts: Any) -> Sentences | None:
    """What will be said of a deed, looked at before it happens; None where the event is no deed."""
    if kind not in DEEDS:
        return None
    before = {peer: len(pair.queue) for peer, pair in pairs_of(place, host).items()}
    terminal = place.terminals.get(host)
    socket = terminal.sends if kind == "type" and terminal else parts[0] if parts and isinstance(parts[0], int) else -1

    def said() -> list[str]:
        held = held_end(place, host, socket)
        name = host_in_words(host)
        if kind in ("send", "type"):
            return [bits_next(*held, name)] if held else []
        new = [command for peer, pair in pairs_of(place, host).items() for command in pair.queue[before.get(peer, 0) :]]
        if new:
            return [filled(NEXT["commands"], commands=", ".join(commands_in_words(b"".join(new))), host=name)]
        if kind == "contact":
            return [filled(NEXT["contact"], host=name)]
        return [NEXT["close waits" if held else "no longer listens"]] if kind == "close" else []

    return said


def pairs_of(place: World, host: HostName) -> dict[HostName, Pair]:
    """What a host that is up keeps about its peers, in the order of a trace."""
    program = place.hosts.get(host)
    return {peer: program.pairs[peer] for peer in sorted(program.pairs, key=lambda it: (it.imp, it.number))} if program else {}


def held_end(place: World, host: HostName, socket: int) -> tuple[End, Pair] | None:
    """An end of a host that is its own, by its socket."""
    return next(((end, pair) for pair in pairs_of(place, host).values() for end in pair.ends if end.own == socket and end.mine), None)


def bits_next(end: End, pair: Pair, host: str) -> str:
    """What becomes of bits that were handed over."""
    size = end.size or 1
    if end.messages == 0 or end.bits < size:
        return filled(NEXT["no grant"], messages=count(end.messages, "message"), bits=count(end.bits, "bit"))
    if end.link in pair.busy:
        return filled(NEXT["busy"], link=end.link)
    if end.bits < len(end.waiting):
        return filled(NEXT["in part"], bits=count(end.bits - end.bits % size, "bit"), host=host)
    return filled(NEXT["allowed"], host=host)
