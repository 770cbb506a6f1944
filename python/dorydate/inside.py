"""What is inside a network after events, by its trace."""

from __future__ import annotations

from collections.abc import Sequence

from dorydate.network import Network
from dorydate.program import Program
from dorydate.script import Event, Script
from dorydate.state import State, folded


class CannotFollow(Exception):
    """Why the state inside a network isn't known."""


def state_of(program: Program, network: Network, events: Sequence[Event]) -> State:
    """The state after events, which were not refused."""
    return folded(network, trace_of(program, network, events))


def trace_of(program: Program, network: Network, events: Sequence[Event]) -> str:
    """The trace of events; in a network with host programs a quiet round of the network is one of them."""
    ran = program.run(Script.of(network, events).octets(), "--trace")
    if ran.status:
        raise CannotFollow(ran.said.strip())
    return ran.output
