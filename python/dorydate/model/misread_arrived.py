"""Wrong readings of what RFNM of data means: some script by hand has to distinguish each from the right one."""

from __future__ import annotations

from dorydate.model.arrived import Arrived, Log
from dorydate.model.book import Life
from dorydate.model.crossings import Passed
from dorydate.model.firsts import flow_of


class EvenClosing(Arrived):
    """A life that a user of its host has closed has them too."""

    def is_unclosed(self, life: Life) -> bool:
        return life.fate in ("open", "closing", "ended")


class OpenOrClosing(Arrived):
    """A life that a user of its host has closed counts all that came in."""

    def has_all(self, log: Log, life: Life) -> bool:
        return life.has_ended or life.messages == len(self.places(log, life))


class OfOlderToo(Arrived):
    """What crossed on the link before both requests is the life's too."""

    def places(self, log: Log, life: Life) -> list[int]:
        way, flow = "in" if life.receives() else "out", flow_of(log, life)
        return [at for at, it in enumerate(log) if isinstance(it, Passed) and (it.kind, it.flow) == (way, flow)]


class OfAllLinks(Arrived):
    """What crossed on another link of the two hosts is the life's too."""

    def places(self, log: Log, life: Life) -> list[int]:
        way = ("in", life.peer, life.host) if life.receives() else ("out", life.host, life.peer)
        begun = max(life.own, life.partner) + 1
        data = [(at, it) for at, it in enumerate(log[begun:], begun) if isinstance(it, Passed) and it.flow.link != 0]
        return [at for at, it in data if (it.kind, *it.flow[:2]) == way]


MISREADINGS = EvenClosing, OpenOrClosing, OfOlderToo, OfAllLinks
