"""What a host's messages are held to as they go out, and what they come to."""

from __future__ import annotations

from dorydate.contract.acts import Goes, Peer
from dorydate.contract.ends import End, Pair, Sent
from dorydate.contract.state import State, named
from dorydate.contract.texts import Command, Data, commands_of, data_of
from dorydate.model.commands import ALL, CLS, LINKS, NAMES, RET, RRP, RST, RTS, STR

SIGNALS = {RST: "rst", RRP: "rrp"}
WHY_AWAY = {
    "through": "no reset of the two hosts is done",
    "early": "the RRP that came was before the RFNM of its RST",
    "failed": "after a message that failed no reset is done",
    "stopped": "since the host stopped no reset is done",
}


class Going(State):
    """One host, as its messages go out."""

    def goes(self, act: Goes) -> None:
        pair = self.pair(act.peer)
        if act.link:
            self.begin(act.peer, pair, False)
            self.data_goes(pair, act.link, data_of(act.text))
            return
        said = commands_of(act.text)
        signal = next((it for it in said if it.code in SIGNALS), None)
        self.begin(act.peer, pair, signal is not None)
        if signal is not None:
            self.signal_goes(pair, signal, len(said))
        else:
            self.is_through(pair, NAMES[said[0].code] if said else "a message on link 0")
        for it in said:
            if signal is not None and it.code not in SIGNALS:
                self.is_through(pair, NAMES[it.code])
            self.says(act.peer, pair, it)
        pair.out[0] = Sent(self.place, SIGNALS.get(said[0].code, "plain") if said else "plain")

    def signal_goes(self, pair: Pair, signal: Command, count: int) -> None:
        """RST or RRP is among a number of commands."""
        if count > 1:
            self.breaks("alone", f"{NAMES[signal.code]} goes beside {count - 1} other commands")
        if pair.out:
            link, sent = next(iter(pair.out.items()))
            what = f"what went out on link {link} in line {sent.place} has no answer"
            self.breaks("idle", f"{NAMES[signal.code]} goes, and {what}")

    def is_through(self, pair: Pair, what: str) -> None:
        """Something else than RST and RRP goes."""
        if pair.phase != "through":
            rule = "early" if pair.early else pair.why if pair.phase == "away" else "through"
            if rule in self.without:
                rule = "through"
            self.breaks(rule, f"{what} goes, and {WHY_AWAY[rule]}")
        if pair.owed:
            self.breaks("reply", f"{what} goes before the RRP that is owed")

    def says(self, peer: Peer, pair: Pair, it: Command) -> None:
        """A command goes out."""
        if it.code == RST:
            self.drop(pair)
            pair.phase, pair.early = "gone", False
        elif it.code == RRP:
            if not pair.owed:
                self.breaks("reply", "an RRP goes that nobody is owed")
            pair.owed = False
        elif it.code in (RTS, STR):
            self.request(peer, pair, it)
        elif it.code == CLS:
            self.close(pair, *it.numbers)
        elif it.code == ALL:
            self.grant_goes(pair, it, *it.numbers)
        elif it.code == RET:
            self.gives_back(pair, it, *it.numbers)

    # ---- requests and CLS

    def request(self, peer: Peer, pair: Pair, it: Command) -> None:
        own, foreign, last = it.numbers
        if own % 2 != (it.code == STR) or foreign % 2 != (it.code == RTS) or last == 0:
            self.breaks("once", f"{it} is no request")
        end = pair.enter(peer, (own, foreign))
        if end.gone:
            self.breaks("over", f"{it} goes, and the partner's CLS for the connection before has not come")
        elif end.asked is not None:
            self.breaks("once", f"{named(end)} has asked before, in line {end.asked}")
        if it.code == STR:
            end.size = last
        else:
            self.names_link(pair, end, it, last)
        end.asked = self.place
        self.may_open(end)

    def names_link(self, pair: Pair, end: End, it: Command, link: int) -> None:
        """An RTS names a link."""
        if link not in LINKS:
            self.breaks("links", f"{it} names link {link}")
        other = pair.on(link, True)
        if other is not None:
            self.breaks("link", f"{it} names link {link}, which {named(other)} has")
        pair.give_link(end, link)

    def close(self, pair: Pair, own: int, foreign: int) -> None:
        """A CLS goes out."""
        end = pair.ends.get((own, foreign))
        if end is None or not end.is_begun() or end.gone:
            self.breaks("closes", f"CLS {own} {foreign} is about nothing that was asked for and isn't closed")
        if end is None:
            return
        sent = pair.out.get(end.link) if end.link is not None and not end.receives() else None
        if sent is not None and sent.end is end:
            self.breaks("drained", f"CLS {own} {foreign} goes, and its data of line {sent.place} have no answer")
        if end.opened is not None and not end.taken and not end.closing:
            self.breaks("willed", f"CLS {own} {foreign} goes, and neither its user nor its partner has closed")
        end.gone, end.crossed_last = True, self.place
        if end.asked is None:  # a request that is refused gives no link
            pair.give_link(end, None)
        if end.taken or "over" in self.lacks:
            self.both_closed(pair, end)

    # ---- grants and data

    def grant_goes(self, pair: Pair, it: Command, link: int, messages: int, bits: int) -> None:
        """An ALL goes out."""
        end = self.named_by(pair, it, link, True, "grants")
        if end is None:
            return
        if end.partner is None:
            self.breaks("waits", f"{it} goes before the partner's request has come")
        end.said = end.said.plus(messages, bits)
        if not self.known.deeds:
            end.granted = end.said
        if not end.granted.covers(*end.said):
            self.breaks("grants", f"ALLs say {end.said}, and granted were {end.granted}")

    def named_by(self, pair: Pair, it: Command, link: int, receives: bool, rule: str) -> End | None:
        """The end that a command names by its link: a receiving one has asked, and a sending one is open."""
        end = pair.on(link, receives)
        begun = None if end is None or end.gone else end.asked if receives else end.opened
        if begun is None:
            self.breaks(rule, f"{it} is about no {'' if receives else 'open '}end that has that link")
        return end

    def gives_back(self, pair: Pair, it: Command, link: int, messages: int, bits: int) -> None:
        """A RET goes out."""
        end = self.named_by(pair, it, link, False, "returns")
        if end is None:
            return
        if not end.allowed.covers(*end.used.plus(messages, bits)):
            self.breaks("returns", f"{it} gives back more than was left")
        end.gave = end.gave.plus(messages, bits)
        if "returns" not in self.lacks:
            end.allowed = end.allowed.plus(-messages, -bits)

    def data_goes(self, pair: Pair, link: int, data: Data | None) -> None:
        end = pair.on(link, False)
        if link not in LINKS:
            self.breaks("links", f"data go out on link {link}")
        self.is_through(pair, "a message of data")
        pair.out[link] = Sent(self.place, "plain", end)
        if end is None or end.opened is None or end.gone or end.taken:
            self.breaks("sends", f"data go out on link {link}, which no open end has whose user knows it")
        if end is None or end.opened is None:
            return
        size = data.size if data is not None else 0
        if size != end.size:
            self.breaks("size", f"data on link {link} are in bytes of {size} bits, and the STR named {end.size}")
        if data is not None and size:
            self.sends(end, link, data)

    def sends(self, end: End, link: int, data: Data) -> None:
        """Data of an end go out."""
        sent = end.used.plus(1, len(data.bits))
        if not end.allowed.covers(*sent):
            before = end.allowed.plus(*end.gave) if "returns" not in self.lacks else end.allowed
            rule = "returns" if before.covers(*sent) else "within"
            self.breaks(rule, f"with these data {sent} have gone, and ALLs granted {end.allowed}")
        if end.handed.first(len(data.bits)) != data.bits:
            self.breaks("handed", f"data on link {link} are not the bits that were handed over next")
        end.handed.drop(min(len(data.bits), end.handed.count))
        end.count(self.place, data.bits)
