"""Why a host refuses a deed as NotOpen: which of the two requests lacks, or whose CLS closes the connection.

It reads the state of the independent model, which a refused event left as it was. The workbench says the same
(web/workbench/refusals.js), and both read the rules "not open" in sentences/table.mjs.
"""

from __future__ import annotations

from collections.abc import Sequence
from typing import Any

from dorydate.explain.view import host_in_words
from dorydate.model.connections import End
from dorydate.model.names import HostName
from dorydate.model.world import World
from dorydate.sentences import IN_A_HOST, NOT_OPEN
from dorydate.sentences.table import filled


def why_not_open(world: World, kind: str, parts: Sequence[Any]) -> str:
    """Why the connection of a deed isn't open."""
    host: HostName = parts[0]
    if kind == "type" and host not in world.terminals:
        return NOT_OPEN["type"]
    program = world.hosts[host]
    found = program.mine(world.terminals[host].sends if kind == "type" else parts[1]) if program is not None else None
    if not found:
        return IN_A_HOST["NotOpen"]
    peer, _, end = found
    names = {"host": host_in_words(host), "peer": host_in_words(peer), "foreign": end.foreign}
    return filled(NOT_OPEN[cause(world, host, peer, end)], names)


def cause(world: World, host: HostName, peer: HostName, end: End) -> str:
    """The rule by which an end isn't open."""
    if end.close_taken:
        return "closed"
    if end.close_asked or end.close_queued:
        return "closing"
    other = world.hosts.get(peer)
    there = other.pairs[host].end(end.foreign, end.own) if other is not None and host in other.pairs else None
    if there is not None and not there.mine:
        return "refused"
    return "queued" if end.own_stamp is None else "asked"
