"""The model without one of its rules each: what the rules of docs/argument.md are there for.

`LACKING` has for each rule a network that keeps all rules but this one. What breaks then is seen by the audit of the book (`audit`), and of
a raw network by the table of its boxes (`mailboxes`).
"""

from __future__ import annotations

import re
from dataclasses import dataclass
from functools import partial
from typing import Protocol

from dorydate.model import script, was_sent
from dorydate.model.audit import audit, messages_are_kept
from dorydate.model.crossings import Carrier
from dorydate.model.host import Host
from dorydate.model.imp import Imp
from dorydate.model.imp_state import NUMBERS, Numbers
from dorydate.model.mailboxes import first_break
from dorydate.model.runs import Place
from dorydate.model.script import Event
from dorydate.model.subnet import Subnet
from dorydate.model.topology import Topology
from dorydate.model.without import hosts
from dorydate.model.without.network import AskedUnnoted, BeginsKept, Careless, Held, Impatient, Overtaken, Unnoted
from dorydate.model.world import World


class MakesSubnet(Protocol):
    """What makes a subnet."""

    def __call__(self, imps: list[tuple[int, int]], lines: list[tuple[int, ...]], numbers: Numbers = ...) -> Subnet: ...


@dataclass(frozen=True)
class Lacking:
    """A network that lacks a rule: its subnet, its world, or the programs of its hosts are others."""

    subnet: MakesSubnet = Subnet
    world: type[Held] = Held
    host: type[Host] = Host

    def opened(self, network: Topology, numbers: Numbers = NUMBERS) -> Place:
        """The network at its opening."""
        kind, raw, imps, lines, _ = network
        carrier: Carrier = Overtaken(imps) if kind == "plain" else self.subnet(imps, lines, numbers)
        return carrier if raw else self.world(carrier, self.host)


def of_imps(kind: type[Imp]) -> MakesSubnet:
    """Subnets with IMPs of another kind."""
    return partial(Subnet, make_imp=kind)


ALL_RULES = Lacking()
LACKING: dict[str, Lacking] = {
    "the number of a whole message is noted": Lacking(of_imps(Unnoted)),
    "no number is begun while the one a window behind is alive": Lacking(partial(Careless, event="out")),
    "an IMP comes up only when nothing of it is alive": Lacking(partial(Careless, event="impup")),
    "a message is given up only when nothing of it is alive": Lacking(partial(Careless, event="giveup")),
    "a number that is new is noted when it is asked about": Lacking(of_imps(AskedUnnoted)),
    "a question about a message that waits isn't answered": Lacking(of_imps(Impatient)),
    "no number is begun that the destination's IMP keeps": Lacking(BeginsKept),
    "an RRP counts only after the RFNM of the own RST": Lacking(host=hosts.RepliesAtOnce),
    "an RRP before that RFNM is remembered": Lacking(host=hosts.RepliesForgotten),
    "RST and RRP wait until nothing is outstanding": Lacking(host=hosts.ResetsAmidData),
    "nothing else goes while an RRP waits": Lacking(host=hosts.TalksWhileOwing),
    "a message that was lost ends the stay": Lacking(host=hosts.FailuresIgnored),
    "a reset drops the ends that are to be opened": Lacking(host=hosts.EndsStay),
    "a host that starts again has a new program": Lacking(world=hosts.Immortal),
    "an end is over only when both CLS have passed": Lacking(host=hosts.EndsAtOwnClose),
    "two receiving ends never share a link": Lacking(host=hosts.OneLink),
    "a request whose link a sending end has is refused": Lacking(host=hosts.LinksUnlooked),
    "a link is looked at by its receiver or its sender": Lacking(host=hosts.LinksShared),
    "a CLS is queued only when all data are answered": Lacking(host=hosts.ClosesEarly),
    "after a failure nothing is sent again in the same life": Lacking(host=hosts.SendsAgain),
    "data belong to the end that has their link": Lacking(host=hosts.AnyLink),
    "ALL adds to the counters": Lacking(host=hosts.GrantsReplace),
    "a sender subtracts what it returns": Lacking(host=hosts.ReturnsKept),
    "a receiver subtracts what was returned": Lacking(host=hosts.ReturnsUnseen),
    "a sender looks at both counters": Lacking(host=hosts.OneCounter),
}

# rules of which no book was seen to break where only one of them is lacking
HARMLESS = [
    "an RRP before that RFNM is remembered",
    "a request whose link a sending end has is refused",
    "ALL adds to the counters",
    "a receiver subtracts what was returned",
]


def opened_without(rule: str | None, network: Topology, numbers: Numbers = NUMBERS) -> Place:
    """A carrier or a world at its opening that lacks a rule; none where `rule` is None."""
    return (ALL_RULES if rule is None else LACKING[rule]).opened(network, numbers)


def read_line(line: str, raw: bool) -> Event | None:
    """The event of a script line, those of `Overtaken` included."""
    found = re.fullmatch("(hold|free) (.*)", line)
    return (found[1], script.read_event(f"giveup {found[2]}")[1]) if found else script.read_line(line, raw)


# ---- what breaks


def broken(place: Place) -> str | None:
    """What a raw network or the book of a world breaks, or what users of a world see that no user should; None where nothing is.

    Where messages are kept, what crossed may still be no run of the mailboxes: an answer is untrue, or a message goes out while the one
    before it waits."""
    if not isinstance(place, World):
        if not messages_are_kept(place.log):
            return "messages"
        return None if first_break(place.hosts(), place.log) is None else "run"
    if part := audit(place.carrier.log, place.book.lives):
        return part
    if was_sent.broken(place.carrier.log, place.book.lives):
        return "sent"
    if place.book.strays:
        return "bits of no life"
    if any(notice.startswith("error") for _, notice, _ in place.book.notices):
        return "an error"
    return None
