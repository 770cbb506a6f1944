"""Searches with a name: a network, the kinds of events, and a pattern."""

from __future__ import annotations

from dataclasses import dataclass

from dorydate.network import Network
from dorydate.sentences.table import TABLE


@dataclass(frozen=True)
class Named:
    """A search: what is looked for, in words; the network, the pattern, and the kinds of events, all where none are named."""

    what: str
    network: Network
    pattern: str
    kinds: tuple[str, ...] = ()


def network_of(spelled: str) -> Network:
    """The network of a search: chains of sites, after `raw` or `plain` perhaps."""
    *how, last = spelled.split(" ")
    chains = [it for it in (*how, last) if it not in ("raw", "plain")]
    return Network.joined(*chains, raw="raw" in how, carrier="plain" if "plain" in how else "subnet")


TWO_RAW, TWO_PLAIN, TWO = map(network_of, ("raw LEFT-RIGHT", "plain LEFT RIGHT", "LEFT-RIGHT"))

# the searches by their names, which the workbench has too
SEARCHES = {name: Named(what, network_of(network), pattern) for name, (what, network, pattern) in TABLE["searches"].items()}
