"""What comes in to a host: answers, commands and data, and what they come to. None of it can break a rule."""

from __future__ import annotations

from dorydate.contract.acts import Answered, Comes, Ignored, Peer
from dorydate.contract.ends import Amount, Came, Pair
from dorydate.contract.going import SIGNALS
from dorydate.contract.state import State
from dorydate.contract.texts import Command, Data, commands_of, data_of
from dorydate.model.commands import ALL, CLS, LINKS, RET, RRP, RST, RTS, STR


class Coming(State):
    """One host, as messages and answers come in."""

    def answered(self, act: Answered) -> None:
        pair = self.pair(act.peer)
        sent = pair.out.pop(act.link, None)
        what = sent.what if sent else None
        if what == "rst" and pair.phase == "gone":
            if act.kind != "rfnm":
                pair.away("through")
            elif pair.early:
                pair.away("early")
            else:
                pair.phase = "heard"
            pair.early = False
        elif what in ("rrp", "plain") and act.kind != "rfnm" and not pair.owed and "failed" not in self.lacks:
            if pair.phase == "through":
                self.drop(pair, "reset", "failed")
            if pair.phase in ("through", "heard"):
                pair.away("failed")

    def comes(self, act: Comes) -> None:
        pair = self.pair(act.peer)
        if act.link:
            self.begin(act.peer, pair, False)
            data = data_of(act.text)
            if pair.phase == "through" and data is not None:
                self.data_comes(pair, act.link, data)
            return
        heard = commands_of(act.text)
        self.begin(act.peer, pair, any(it.code in SIGNALS for it in heard))
        for at, it in enumerate(heard):
            if act.ignored is not None and at in act.ignored and it.code in (RTS, STR):
                self.ignores(it)
            else:
                self.hears(act.peer, pair, act.ignored, it)

    def ignores(self, it: Command) -> None:
        """A request isn't entered."""

    def hears(self, peer: Peer, pair: Pair, ignored: Ignored, it: Command) -> None:
        """A command is taken."""
        if it.code == RST:
            self.is_reset(pair)
        elif it.code == RRP:
            if pair.phase == "heard" or pair.phase == "gone" and "early" in self.lacks:
                pair.phase = "through"
            elif pair.phase == "gone":
                pair.early = True
        elif pair.phase != "through":
            pass
        elif it.code in (RTS, STR):
            self.asked_by_partner(peer, pair, ignored, it)
        elif it.code == CLS:
            self.closed_by_partner(pair, *it.numbers)
        elif it.code == ALL:
            end = pair.on(it.numbers[0], False)
            if end is not None and not end.gone and not end.taken:
                end.allowed = end.allowed.plus(*it.numbers[1:])
        elif it.code == RET:
            end = pair.on(it.numbers[0], True)
            if end is not None:
                end.back = end.back.plus(*it.numbers[1:])

    def is_reset(self, pair: Pair) -> None:
        """An RST is taken."""
        kept = [it for it in pair.ends.values() if it.asked is None and it.partner is not None]
        self.drop(pair)
        pair.restore(kept if "forgets" in self.lacks else ())
        pair.owed = True
        if pair.phase == "away":
            pair.phase = "through"

    def asked_by_partner(self, peer: Peer, pair: Pair, ignored: Ignored, it: Command) -> None:
        foreign, own, last = it.numbers
        if own % 2 != (it.code == RTS) or foreign % 2 != (it.code == STR) or last == 0:
            return
        if it.code == RTS and ignored is None and self.has_no_use(pair, last):
            pair.unlinked.add((own, foreign))
            return
        end = pair.enter(peer, (own, foreign))
        if end.partner is not None or end.taken:
            return
        end.partner = self.place
        if it.code == RTS:
            pair.give_link(end, last)
        else:
            end.size = last
            end.keep_waiting(last)
        self.may_open(end)

    def has_no_use(self, pair: Pair, link: int) -> bool:
        """Whether an RTS is ignored for its link, where nobody says: no connection has it, or an end here that asked.
        Of an end that hasn't asked nobody knows whether it is about to refuse, and then it has no link."""
        other = pair.on(link, False)
        return link not in LINKS or other is not None and other.asked is not None

    def closed_by_partner(self, pair: Pair, foreign: int, own: int) -> None:
        end = pair.ends.get((own, foreign))
        if end is not None and not end.taken:
            end.taken, end.crossed_last = True, self.place
            if end.gone:
                self.both_closed(pair, end)

    def data_comes(self, pair: Pair, link: int, data: Data) -> None:
        end = pair.on(link, True)
        if end is None or end.asked is None or end.lost or end.size not in (None, data.size):
            return
        soon = Amount(len(end.waits) + 1, end.waiting + len(data.bits)).plus(*end.used).plus(*end.returned)
        if "takes" not in self.lacks and not end.granted.covers(*soon):
            return
        if self.known.deeds:
            end.waits.append(Came(self.place, data.size, data.bits))
            end.waiting += len(data.bits)
            self.pending.append(end)
        elif end.opened is not None:
            end.count(self.place, data.bits)

    def stops(self) -> None:
        """The host stops."""
        self.why = "stopped"
        for peer, pair in self.pairs.items():
            kept = [*pair.ends.values()]
            self.drop(pair, "stopped", "stopped")
            if "stopped" in self.lacks:
                pair.restore(kept)
            else:
                self.pairs[peer] = Pair(self.why)
                self.pairs[peer].past = pair.past

    def starts(self) -> None:
        """The host starts: what it sent before is nobody's any more."""
        for pair in self.pairs.values():
            pair.out = {}
