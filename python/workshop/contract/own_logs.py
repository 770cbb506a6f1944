"""Own logs as the definitions of the crate `host_contract` have them, and what these say of each.

The definitions read a log toward one peer, newest first, command by command, and have notices where they become true. A
log that the judge of `dorydate keeps` folds is brought into that form here; no rule is.
"""

from __future__ import annotations

from collections.abc import Iterable, Sequence
from dataclasses import dataclass, field

from dorydate.contract.acts import (
    Act, Answered, Arrived, Asks, AtEnd, Closes, Comes, Contacts, Ended, Goes, Grants, Hands, Ignored, Opened, Peer,
    Returned, Starts, Stops,
)  # fmt: skip
from dorydate.contract.ends import Pair
from dorydate.contract.fold import Own
from dorydate.contract.rules import RULES
from dorydate.contract.texts import Command, commands_of
from dorydate.definitions.compiling import Decider
from dorydate.definitions.library import Defined
from dorydate.definitions.logged import bits_value
from dorydate.definitions.values import NIL, TRUE, Data, Value, applied, data, items_of, listed, struct
from dorydate.model.commands import NOP, RTS

CONTRACT = "Rattle.host_contract.specs.Contract"
NAMES = {number: name for number, name in enumerate("Nop Rts Str Cls All Gvb Ret Inr Ins Eco Erp Err Rst Rrp".split())}
NOTICES = (Opened, Arrived, Returned, Ended)
DEEDS = {Asks: "Asks", Closes: "Closes", Opened: "Opened", Ended: "Ended"}
OF_AMOUNTS = {Grants: "Grants", Returned: "Returned"}
ELSE = data("Else")
NOTICE_FORMS = ("Opened", "Arrived", "Returned", "Ended")
Happened = Sequence[Act]
Breach = tuple[int, set[str]]  # the number of an act, and the rules that it breaks


def sockets_value(own: int, foreign: int) -> Value:
    return struct({"own": own, "foreign": foreign})


def command_value(it: Command) -> Data:
    """A command; one whose numbers nobody looks at is a NOP."""
    known = it.numbers or it.code in (12, 13)
    return data(NAMES[it.code] if known else "Nop", *it.numbers)


@dataclass
class Entry:
    """What an act is toward its peer; toward others something else happens."""

    number: int  # of the act
    peer: Peer | None  # None where it is about all
    values: list[tuple[int, Data]]  # acts of the definitions, each with the number of its act
    is_notice: bool = False
    group: list[Command] = field(default_factory=list)  # of a message, its commands


class Writing(Own):
    """Folds an own log without asking for anything, and writes it down."""

    def __init__(self, host: str) -> None:
        super().__init__(host)
        self.without = frozenset(RULES)
        self.entries: list[Entry] = []
        self.heard: list[Data] = []

    def write(self, number: int, act: Act) -> None:
        """The next act."""
        if isinstance(act, NOTICES):
            self.notice(number, act)
        self.heard = []
        self.step(number, act)
        if not isinstance(act, NOTICES):
            peer = None if isinstance(act, (Stops, Starts)) else act.peer
            values = [(number, it) for it in self.values(act)]
            self.entries.append(Entry(number, peer, values, False, self.group(act)))

    def group(self, act: Act) -> list[Command]:
        return commands_of(act.text) if isinstance(act, (Goes, Comes)) and act.link == 0 else []

    def values(self, act: Act) -> list[Data]:
        """What an act that is no notice is called in the definitions."""
        if isinstance(act, Goes):
            if act.link:
                return [data("Sends", act.link, bits_value(act.text))]
            said = commands_of(act.text) or [Command(NOP)]
            return [data("Goes"), *(data("Says", command_value(it)) for it in said)]
        if isinstance(act, Comes):
            return [data("Takes", act.link, bits_value(act.text))] if act.link else self.heard or [ELSE]
        if isinstance(act, Answered):
            kind = {"rfnm": "Rfnm", "dead": "Dead", "incomplete": "Incomplete", "nottaken": "NotTaken"}[act.kind]
            return [data("Answered", act.link, data(kind))]
        if isinstance(act, (Stops, Starts, Contacts)):
            return [data(type(act).__name__)]
        assert isinstance(act, AtEnd)
        return [self.at_end(act)]

    def at_end(self, act: AtEnd) -> Data:
        at = sockets_value(act.own, act.foreign)
        if isinstance(act, Hands):
            return data("Hands", at, bits_value(act.bits))
        if isinstance(act, (Grants, Returned)):
            return data(OF_AMOUNTS[type(act)], at, act.messages, act.bits)
        if isinstance(act, Arrived):
            return data("Arrived", at, bits_value(self.bits_of(act)))
        return data(DEEDS[type(act)], at)

    def bits_of(self, act: Arrived) -> str:
        """The bits of a message that a user is notified of; where only their number is said, those that came first."""
        if act.bits is not None:
            return act.bits
        pair = self.pair(act.peer)
        found = [it for it in (pair.ends.get(act.sockets), *pair.just) if it is not None and it.sockets == act.sockets]
        first = next((it.waits[0].bits for it in found if it.waits), "")
        return first if act.count in (None, len(first)) else "0" * (act.count or 0)

    # ---- commands

    def hears(self, peer: Peer, pair: Pair, ignored: Ignored, it: Command) -> None:
        is_open = it.code == RTS and ignored is None and pair.phase == "through"
        is_ignored = is_open and self.has_no_use(pair, it.numbers[2])
        self.heard.append(data("Ignores" if is_ignored else "Hears", command_value(it)))
        super().hears(peer, pair, ignored, it)

    def ignores(self, it: Command) -> None:
        self.heard.append(data("Ignores", command_value(it)))

    # ---- notices

    def notice(self, number: int, act: Opened | Arrived | Returned | Ended) -> None:
        """A notice is after the command by which it is true, if that is in the message before."""
        value = self.at_end(act)
        last = self.entries[-1] if self.entries else None
        if last is None or last.peer != act.peer or not last.group:
            self.entries.append(Entry(number, act.peer, [(number, value)], True))
            return
        last.values.insert(self.position(last.values, act), (number, value))

    def position(self, values: Sequence[tuple[int, Data]], act: Opened | Arrived | Returned | Ended) -> int:
        """Where a notice is among the commands of a message: after what it comes of, and if that isn't there, at
        the end, but that an end is open before its CLS. The first CLS ends a connection."""
        places = range(1, len(values) + 1)
        for at in places if isinstance(act, Ended) else reversed(places):
            if self.is_by(values[at - 1][1], act):
                return at
        over = Ended(act.peer, act.own, act.foreign)
        first = (at for at, (_, it) in enumerate(values) if isinstance(act, Opened) and self.is_by(it, over))
        return next(first, len(values))

    def is_by(self, value: Data, act: AtEnd) -> bool:
        """Whether a notice may come of a command, or comes after another notice."""
        at = sockets_value(act.own, act.foreign)
        if value.form not in ("Says", "Hears", "Ignores"):
            return value.form in NOTICE_FORMS and value.parts[0] == at
        it = value.parts[0]
        assert isinstance(it, Data)
        named = it.parts[:2] if value.form == "Says" else it.parts[1::-1]
        if isinstance(act, Opened):
            return it.form in ("Rts", "Str") and named == (act.own, act.foreign)
        if isinstance(act, Returned):
            end = self.pair(act.peer).ends.get(act.sockets)
            found = end or next((it for it in self.pair(act.peer).just if it.sockets == act.sockets), None)
            return it.form == "Ret" and found is not None and it.parts[0] in (found.link, self.link_of(act))
        return isinstance(act, Ended) and it.form == "Cls" and named == (act.own, act.foreign)

    def link_of(self, act: AtEnd) -> int | None:
        past = self.pair(act.peer).past.get(act.sockets)
        return past[0].link if past else None


def toward(entries: Iterable[Entry], peer: Peer) -> list[tuple[int, Data]]:
    """The log toward a peer, oldest first; each act with its number."""
    found = []
    for entry in entries:
        if entry.peer in (None, peer):
            found += entry.values
        elif not entry.is_notice:
            found.append((entry.number, ELSE))
    return found


class Contract:
    """The rules of the crate `host_contract`, computed."""

    def __init__(self, decider: Decider) -> None:
        self.decider = decider
        self.rules: dict[str, Data] = {}
        listed_rules = self.called("rules")
        assert isinstance(listed_rules, Data)
        for it in items_of(listed_rules):
            assert isinstance(it, Data)
            self.rules[it.form.lower()] = it

    def called(self, name: str, *arguments: Value) -> Value:
        meaning = self.decider.library.meaning(CONTRACT, name)
        assert isinstance(meaning, Defined)
        return applied(self.decider.defined(meaning).value({}), arguments)

    def broken(self, log: Data) -> set[str]:
        """The rules that a log breaks."""
        found = self.called("broken", log)
        assert isinstance(found, Data)
        return {it.form.lower() for it in items_of(found) if isinstance(it, Data)}

    def broken_by(self, act: Data, before: Data) -> set[str]:
        """The rules that an act breaks after a log."""
        pair = self.called("pair", before)
        return {name for name, it in self.rules.items() if self.called("allows", it, act, pair) is not TRUE}


def first_broken(contract: Contract, log: Sequence[tuple[int, Data]]) -> Breach | None:
    """The first act that breaks rules, and those that are broken by it."""
    before, found = NIL, dict[int, set[str]]()
    for number, act in log:
        if found and number > min(found) and act.form not in NOTICE_FORMS:
            break
        if broken := contract.broken_by(act, before):
            found.setdefault(number, set()).update(broken)
        before = data("∷", act, before)
    return min(found.items(), key=lambda it: it[0]) if found else None


def by_definitions(contract: Contract, host: str, acts: Happened) -> Breach | None:
    """What the definitions say of an own log: the first act that breaks rules, and which; None where it keeps all."""
    writing = Writing(host)
    for number, act in enumerate(acts):
        writing.write(number, act)
    peers = sorted({it.peer for it in writing.entries if it.peer is not None})
    found: list[Breach] = []
    for peer in peers:
        log = [*toward(writing.entries, peer), (len(acts), ELSE)]
        one = first_broken(contract, log)
        whole = contract.broken(listed(it for _, it in reversed(log)))
        assert bool(one) == bool(whole) and (one is None or one[1] <= whole)
        found += [one] if one else []
    first = min((it[0] for it in found), default=None)
    return None if first is None else (first, set().union(*(it[1] for it in found if it[0] == first)))


class Collecting(Own):
    """Notes each rule that an own log breaks, and continues."""

    found: list[str]

    def breaks(self, rule: str, why: str) -> None:
        self.found.append(rule)


def by_judge(host: str, acts: Happened) -> tuple[int, list[str]] | None:
    """What the judge says of one: the first act that breaks a rule, that rule, and what else it would find there."""
    own = Collecting(host)
    own.found = []
    for number, act in enumerate(acts):
        own.step(number, act)
        if own.found:
            return number, own.found
    own.settle()
    return (len(acts), own.found) if own.found else None


def difference(contract: Contract, host: str, acts: Happened) -> str:
    """What the definitions and the judge say of a log, if they differ: the first act that breaks a rule has to be the
    same, the rule that the judge names one that the definitions say is broken by it, and each of these one that the
    judge would find there."""
    said, judged = by_definitions(contract, host, acts), by_judge(host, acts)
    if said is None and judged is None:
        return ""
    if said and judged and said[0] == judged[0] and judged[1][0] in said[1] <= {*judged[1]}:
        return ""
    return f"{host}: by the definitions {in_words(said)}, by the judge {in_words(judged)}"


def in_words(breach: tuple[int, Iterable[str]] | None) -> str:
    return f"act {breach[0]} breaks {' '.join(breach[1])}" if breach else "it is kept"


def of_interface(acts: Happened) -> list[Act]:
    """The acts before the first message on a link that has one without an answer, which no IMP takes."""
    out: set[tuple[Peer, int]] = set()
    found: list[Act] = []
    for act in acts:
        if isinstance(act, (Goes, Answered)):
            key = act.peer, act.link
            if isinstance(act, Goes) and key in out:
                break
            (out.add if isinstance(act, Goes) else out.discard)(key)
        elif isinstance(act, (Stops, Starts)):
            out.clear()
        found.append(act)
    return found
