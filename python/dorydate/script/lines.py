"""Lines of scripts: which words raw networks have and which networks with host programs, and the event of a line."""

from __future__ import annotations

from dataclasses import fields

from dorydate.network import Network
from dorydate.script import of_network
from dorydate.script.event import EVENTS, Event
from dorydate.script.values import BadLine
from dorydate.sentences.events import OF_RAW, OF_SUBNETS, OF_WORLDS

RAW, WORLD = {*OF_RAW}, {*OF_WORLDS}
IN_THE_NETWORK = {*OF_SUBNETS}


def words_in(network: Network) -> set[str]:
    """The words that begin the events of a network: strangers send what a raw network's script sends."""
    return RAW if network.raw else {*WORLD, of_network.Out.word} if network.strangers() else WORLD


def not_here(word: str, network: Network) -> str:
    """Why a network has no events that begin with a word of others."""
    others = "networks with host programs" if network.raw else "raw networks and of strangers"
    return f"`{word}` is an event of {others}"


def read_event(line: str, network: Network | None = None) -> Event:
    """The event of a script line. `network` says of which network it has to be, None of any."""
    word, *words = line.split(" ", 2) if line.startswith("type ") else line.split(" ")
    kind = EVENTS.get(word)
    if kind is None:
        raise BadLine(f"`{word}` is no event")
    if network is not None and word not in words_in(network):
        raise BadLine(not_here(word, network))
    forms = [it.metadata["form"] for it in fields(kind)]
    if len(words) != sum(it.words for it in forms):
        raise BadLine(f"`{word}` takes {sum(it.words for it in forms)} words after it, and this line has {len(words)}")
    values = []
    for it in forms:
        values.append(it.read(*words[: it.words]))
        words = words[it.words :]
    return kind(*values)
