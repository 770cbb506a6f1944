"""The contract: one host's own log, folded act by act. All is a function of the log, and nothing is a program's state.

`Own.step` takes the next act, and raises `Broken` where it breaks a rule.
"""

from __future__ import annotations

from dorydate.contract.acts import (
    Act, Answered, Arrived, Asks, AtEnd, Closes, Comes, Contacts, Ended, Goes, Grants, Hands, Opened, Returned, Starts,
    Stops,
)  # fmt: skip
from dorydate.contract.coming import Coming
from dorydate.contract.ends import End, Pair
from dorydate.contract.going import Going
from dorydate.contract.state import Broken, Known, named

WHY_OVER = {
    "over": "both CLS have crossed",
    "forgets": "a reset dropped it",
    "failed": "a message that failed ended it",
    "stopped": "it ended when the host stopped",
}


class Own(Going, Coming):
    """One host, as its own log has it."""

    def step(self, place: int, act: Act) -> None:
        """The next act. `place` is that of a crossing; what else happens is at the place of the last one."""
        if isinstance(act, (Goes, Comes, Answered, Stops, Starts)):
            self.place = place
        if not isinstance(act, (Opened, Arrived, Returned, Ended)):
            self.settle()
        match act:
            case Goes():
                self.goes(act)
            case Comes():
                self.comes(act)
            case Answered():
                self.answered(act)
            case Stops():
                self.stops()
            case Starts():
                self.starts()
            case Contacts():
                self.contacts(self.pair(act.peer))
            case Asks():
                self.asks(act)
            case Hands():
                self.hands(act)
            case Grants():
                self.grants(act)
            case Closes():
                self.closes(act)
            case Opened():
                self.opened(act)
            case Arrived():
                self.arrived(act)
            case Returned():
                self.returned(act)
            case Ended():
                self.ended(act)

    # ---- what users do

    def contacts(self, pair: Pair) -> None:
        self.drop(pair)
        if pair.phase == "through":
            pair.away("through")

    def asks(self, act: Asks) -> None:
        """The request waits to go out, and a CLS that comes in the meantime is for it."""
        pair = self.pair(act.peer)
        if pair.phase == "through":
            pair.enter(act.peer, act.sockets)

    def closes(self, act: Closes) -> None:
        end = self.pair(act.peer).ends.get(act.sockets)
        if end is not None and not end.closing:
            end.closing, end.closed = True, self.place

    def hands(self, act: Hands) -> None:
        end = self.at(act, "handed")
        if end.opened is None or end.receives():
            self.breaks("handed", f"bits are handed over at {named(end)}, which isn't open to send")
        end.handed.add(act.bits)
        end.all_handed.append(act.bits)

    def grants(self, act: Grants) -> None:
        end = self.at(act, "grants")
        if end.asked is None or not end.receives() or end.gone:
            self.breaks("grants", f"a grant is for {named(end)}, which doesn't receive")
        end.granted = end.granted.plus(act.messages, act.bits)

    # ---- what they hear

    def at(self, act: AtEnd, rule: str) -> End:
        """The end that an act is about: one that is there, or that the last crossing ended."""
        pair = self.pair(act.peer)
        end = pair.ends.get(act.sockets) or next((it for it in pair.just if it.sockets == act.sockets), None)
        if end is not None:
            return end
        why = self.why_over(pair, act)
        is_named = why in WHY_OVER and why != "over" and why not in self.without
        self.breaks(why if is_named else rule, f"{at_sockets(act)} has no end: {WHY_OVER.get(why, 'none has begun')}")
        return pair.enter(act.peer, act.sockets)

    def why_over(self, pair: Pair, act: AtEnd) -> str:
        """The rule by which the last end of two sockets is over."""
        return pair.past[act.sockets][1] if act.sockets in pair.past else ""

    def opened(self, act: Opened) -> None:
        pair = self.pair(act.peer)
        there = pair.ends.get(act.sockets)
        found = [it for it in (there, *pair.just) if it is not None and it.sockets == act.sockets]
        end = next((it for it in found if it.was_open and it.opened is None), None)
        if end is None:
            how = "again" if any(it.opened is not None for it in found) else "and both requests have not crossed"
            self.breaks(self.why_not_open(pair, act, there), f"{at_sockets(act)} is reported open, {how}")
            end = pair.enter(act.peer, act.sockets)
        if not end.is_open() and self.place not in (end.over, end.crossed_last):
            self.breaks("opens", f"{named(end)} is reported open, and a CLS has crossed")
        self.begins(end)

    def why_not_open(self, pair: Pair, act: Opened, there: End | None) -> str:
        """The rule by which an end isn't open that a user is notified of."""
        if there is not None and there.partner is None and act.sockets in pair.past:
            past, why = pair.past[act.sockets]
            if past.partner is not None and why != "over" and why not in self.without:
                return why
        return "links" if act.sockets in pair.unlinked else "opens"

    def arrived(self, act: Arrived) -> None:
        end = self.at(act, "takes")
        if end.opened is None or not end.waits:
            self.breaks("takes", f"{named(end)} is notified of data, and none have come that it may count")
            return
        came = end.waits.popleft()
        end.waiting -= len(came.bits)
        if act.count not in (None, len(came.bits)):
            self.breaks("takes", f"{named(end)} is notified of {act.count} bits, and {len(came.bits)} came")
        if act.bits not in (None, came.bits):
            self.breaks("takes", f"{named(end)} is notified of other bits than came")
        end.count(came.place, came.bits)

    def returned(self, act: Returned) -> None:
        end = self.at(act, "returned")
        if end.opened is None or not end.receives():
            self.breaks("returned", f"{named(end)} is notified of a return, and doesn't receive")
        end.returned = end.returned.plus(act.messages, act.bits)
        if not end.back.covers(*end.returned):
            self.breaks("returned", f"{named(end)} is notified that {end.returned} came back, and RETs said {end.back}")
        if not end.granted.covers(*end.used.plus(*end.returned)):
            self.breaks("returned", f"{named(end)} is notified of a return of what was used")

    def ended(self, act: Ended) -> None:
        pair = self.pair(act.peer)
        is_new = any(it.sockets == act.sockets for it in pair.just)
        if self.why_over(pair, act) == "over" and (is_new or act.sockets not in pair.ends):
            return
        self.breaks("ended", f"{at_sockets(act)} is reported over, and both CLS have not crossed")
        if act.sockets in pair.ends:
            self.both_closed(pair, pair.ends[act.sockets])


def at_sockets(act: AtEnd) -> str:
    return f"the connection {act.own} {act.foreign} with {act.peer}"


__all__ = ["Broken", "Known", "Own"]
