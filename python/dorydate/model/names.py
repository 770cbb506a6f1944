"""Names of hosts and of flows of messages, and why something is refused."""

from __future__ import annotations

from collections.abc import Iterable
from typing import NamedTuple

from dorydate.sentences.events import REFUSALS


class Refused(Exception):
    """An event or a call that is refused, by its reason's name, which is one of the table."""

    def __init__(self, name: str) -> None:
        if name not in REFUSALS:
            raise ValueError(f"no refusal is called {name}")
        super().__init__(name)


class NoRun(Refused):
    """What no run of the mailboxes has next. No program is asked for it, so the table has no name for it."""

    def __init__(self) -> None:
        Exception.__init__(self, "no run has that next")


class HostName(NamedTuple):
    """A host: its number at its IMP, and that IMP's number."""

    number: int
    imp: int


class Flow(NamedTuple):
    """The messages from one host to another on one link."""

    source: HostName
    destination: HostName
    link: int


def spell_host(host: tuple[int, int]) -> str:
    return f"{host[0]}/{host[1]}"


def spell_flow(flow: tuple[tuple[int, int], tuple[int, int], int]) -> str:
    (source, source_imp), (destination, destination_imp), link = flow
    return f"{source}/{source_imp} {destination}/{destination_imp} {link}"


def read_host(word: str) -> HostName:
    """The host that a word names."""
    number, imp = word.split("/")
    return HostName(int(number), int(imp))


def address(host: tuple[int, int]) -> int:
    """The octet that names a host."""
    return host[0] << 6 | host[1]


def key_of(flow: Flow) -> tuple[tuple[int, ...], tuple[int, ...], int]:
    """A flow's place in order of source, destination and link, and hosts of IMP and host."""
    return flow.source[::-1], flow.destination[::-1], flow.link


def in_order(flows: Iterable[Flow]) -> list[Flow]:
    return sorted(flows, key=key_of)
