"""Wrong readings of what came in for a receiving life before its partner's CLS: some script by hand has to distinguish each from the right one."""

from __future__ import annotations

from dorydate.model.book import Life
from dorydate.model.crossings import Passed
from dorydate.model.endings import EndingWorld
from dorydate.model.firsts import flow_of


class OnlyTaken(EndingWorld):
    """Only what the life took came in."""

    def came_in(self, life: Life) -> int:
        return life.messages


class OfOlder(EndingWorld):
    """What came in on the link before the life's requests came in for it too."""

    def came_in(self, life: Life) -> int:
        flow = flow_of(self.carrier.log, life)
        return sum(isinstance(it, Passed) and (it.kind, it.flow) == ("in", flow) for it in self.carrier.log)


class OfAnyLink(EndingWorld):
    """What came in from the partner's host on another link came in for the life too."""

    def came_in(self, life: Life) -> int:
        later = self.carrier.log[max(life.own, life.partner) + 1 :]
        return sum(isinstance(it, Passed) and it.kind == "in" and it.flow[:2] == (life.peer, life.host) and it.flow.link != 0 for it in later)


class WentOut(EndingWorld):
    """What goes out for the life and wasn't taken came in for it too."""

    def came_in(self, life: Life) -> int:
        flow = flow_of(self.carrier.log, life)
        later = self.carrier.log[max(life.own, life.partner) + 1 :]
        return sum(isinstance(it, Passed) and it.flow == flow for it in later)


class UpToNow(EndingWorld):
    """What comes in on the link after the partner's CLS comes in for the life too."""

    def came_before(self, at: int) -> int:
        return self.came_in(self.book.lives[at])


MISREADINGS = OnlyTaken, OfOlder, OfAnyLink, WentOut, UpToNow
