"""The network that an input describes, for the explanation of it and for the independent model beside it.

A comment after an IMP's number has its name: `id = 1 # UCLA` (dorydate.sites).
"""

from __future__ import annotations

import re

from dorydate.given import Input
from dorydate.model.topology import Topology
from dorydate.network import Network

IS_RAW = re.compile(rb"^[ \t]*raw[ \t]*=[ \t]*true\b", re.MULTILINE)
SHOWN = 14  # characters of a site's name that are shown


def of_model(network: Network) -> Topology:
    """A network as the independent model has it."""
    imps = [(it.number, it.hosts) for it in network.imps]
    foreign = [(it.number, [*it.foreign]) for it in network.imps if it.foreign]
    return Topology(network.carrier, network.raw, imps, [(it.a, it.b) for it in network.lines], foreign or None)


def names_of(network: Network) -> dict[int, str]:
    """The names of sites that have one, by the numbers of their IMPs."""
    return {it.number: it.name[:SHOWN].rstrip() for it in network.imps if it.name}


# ---- of an input that may be refused


def network_by(given: Input) -> Network | None:
    """The network of an input's topology; None where it has none that can be read here."""
    try:
        return Network.read(given.topology().decode())
    except ValueError:
        return None


def has_strangers(given: Input) -> bool:
    """Whether the topology names strangers, which send what a raw network's script sends."""
    network = network_by(given)
    return network is not None and any(it.foreign for it in network.imps)


def is_raw(given: Input) -> bool:
    """Whether the topology says that the script itself sends and takes messages."""
    network = network_by(given)
    return network.raw if network else IS_RAW.search(given.topology()) is not None
