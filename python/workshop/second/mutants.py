"""Changes each definition of the promise, or of the contract, in one word, in some ways, and looks whether a worked row
notices."""

from __future__ import annotations

import dataclasses
import time
from collections import Counter
from collections.abc import Collection, Iterable, Iterator
from dataclasses import dataclass, replace
from typing import Any

from dorydate.definitions.compiling import Decider
from dorydate.definitions.files import Definition, Structure
from dorydate.definitions.library import WORDS, Defined, Library, Typed
from dorydate.definitions.promise import BOOK, Judge
from dorydate.definitions.reach import meanings_in, terms_of
from dorydate.definitions.terms import (  # fmt: skip
    Both, Case, Field, ForAll, Function, If, Implicit, Let, Name, Number, Operation, inside,
)
from workshop.second.agda import BUILT_IN
from workshop.second.rows import FAILS, HOLDS, UNREAD, All, Row, computed

MOST_SECONDS = 4  # of the processor for each change: the rows that lead to the fewest definitions come first
MOST_CALLS = 60_000  # of definitions in a row: a changed one may never end
WAYS = 20  # how many changes of each definition are tried at most


def pairs(text: str, also_back: str = "") -> dict[str, str]:
    """The words of a list of pairs: to each first one the second; and of another list each to the other."""
    back = [it.split() for it in also_back.split(",") if it]
    return dict([*(it.split() for it in text.split(",")), *back, *(it[::-1] for it in back)])


NAMES = pairs(
    "list_any list_all, min max, foreign own, zero suc, a b, receiver sender, going coming, mine yours, h peer,"
    "server user, is_receive_socket is_send_socket",
    "true false, nat_lt nat_le, take drop, own partner, receives sends, from to, Dropped Stopped, receive send",
)
FIELDS = pairs(
    "messages bits, granted returned, Rfnm Dead, Dead NotTaken, Open Closing, Reset Stopped",
    "source destination, host peer, socket foreign, own_stamp partner_stamp, Ended Closed, Out In, Down Up, Rst Rrp,"
    "Sent Arrived",
)
OPERATIONS = pairs("+ -, - +, ≡ ≢, * +", "&& ||, < ≤, / %")
CONTRACT = "Rattle.host_contract.specs."
LOGS_OF_CONTRACT = "Broken", "Example", "Kept"  # the files of its worked logs
Key = tuple[str, str]
NOTICED, OPEN, EQUAL = "refused by a row", "no longer of given values", "the same"
LATE, MISSED = "out of time", "not noticed"
SAID = NOTICED, OPEN, EQUAL, LATE, MISSED
SAME = {
    "Ends.course: clause 1: 0 → 1": "as before its requests nothing ends a life",
    "Arrived.HasArrived: after: < → ≤": "as no message comes in at the place where it goes out",
    "Notices.TellsOf: off_control: 0 → 1": "as no RTS names link 0 or 1",
    "Fates.ClosesWhole: took_handed: receiver → sender (3)": "as `took_sent` says that they have the same bits",
    "Sent.WasSent: nth: receiver → sender (2)": "as it is asked of a message that both count, on its link",
}  # changes after which a definition says the same, and why


@dataclass(frozen=True)
class Change:
    """A definition with another word in one place."""

    key: Key
    what: str
    item: Definition | Structure

    @property
    def called(self) -> str:
        return f"{self.key[0].split('.')[-1]}.{self.key[1]}: {self.what}"


def bound_in(term: object) -> set[str]:
    """The names that a pattern gives."""
    return {it.text for it in inside(term) if isinstance(it, Name)}


def names_in(term: object, field: str) -> set[str]:
    """The names that a term gives to what one of its fields has."""
    match term:
        case Both(parts):
            return {it.name for it in parts if it.name}
        case ForAll(binder, _) if field == "body":
            return {*binder.names}
        case Function(parameters, _) if field == "body":
            return bound_in(tuple(it.pattern for it in parameters))
        case Let(pattern=pattern) | Case(pattern=pattern) if field == "body":
            return bound_in(pattern)
    return set()


@dataclass(frozen=True)
class Changer:
    """Changes terms of a module by one word, to words that it has."""

    library: Library
    module: str

    def has(self, name: str, local: frozenset[str]) -> bool:
        """Whether a name means something here."""
        here, words = self.library.module(self.module), self.library.module(WORDS)
        known: list[Collection[str]] = [local, here.own, here.forms, here.names, words.own, BUILT_IN]
        return any(name in it for it in known)

    def changed(self, term: Any, local: frozenset[str]) -> Iterator[tuple[str, Any]]:
        """A term with one word changed, in each way, with what that is."""
        if isinstance(term, Implicit):
            return
        yield from self.word(term, local)
        if isinstance(term, tuple):
            for at, it in enumerate(term):
                yield from ((what, (*term[:at], other, *term[at + 1 :])) for what, other in self.changed(it, local))
        elif dataclasses.is_dataclass(term) and not isinstance(term, type):
            for one in dataclasses.fields(term):
                for what, other in self.changed(getattr(term, one.name), local | names_in(term, one.name)):
                    yield what, replace(term, **{one.name: other})

    def word(self, term: object, local: frozenset[str]) -> Iterator[tuple[str, object]]:
        """What the first word of a term may be instead."""
        match term:
            case Name(text) if other := NAMES.get(text):
                if (text in local) == (other in local) and self.has(other, local):
                    yield f"{text} → {other}", Name(other)
            case Number(value):
                yield f"{value} → {value + 1}", Number(value + 1)
            case Operation(word, left, right) if other := OPERATIONS.get(word):
                yield f"{word} → {other}", Operation(other, left, right)
            case Field(of, name) if other := FIELDS.get(name):
                yield f".{name} → .{other}", Field(of, other)
            case If(condition, then, otherwise):
                yield "then ↔ else", If(condition, otherwise, then)

    def items(self, item: Definition | Structure) -> Iterator[tuple[str, Definition | Structure]]:
        """A definition with another word in the value of a clause, or in what a field says."""
        if isinstance(item, Definition):
            for at, clause in enumerate(item.clauses):
                for what, value in self.changed(clause.value, frozenset(bound_in(clause.patterns))):
                    clauses = [*item.clauses[:at], replace(clause, value=value), *item.clauses[at + 1 :]]
                    yield f"clause {at + 1}: {what}", replace(item, clauses=clauses)
            return
        local = frozenset(name for it in item.binders for name in it.names)
        for at, member in enumerate(item.members):
            for what, type_ in self.changed(member.type, local | {it.name for it in item.members[:at]}):
                members = (*item.members[:at], replace(member, type=type_), *item.members[at + 1 :])
                yield f"{member.name}: {what}", replace(item, members=members)


def changes(library: Library, key: Key, item: Definition | Structure) -> Iterator[Change]:
    """The changes of a definition, each with what it is called; the second of one kind in one part is numbered, too."""
    seen = Counter[str]()
    for what, other in Changer(library, key[0]).items(item):
        seen[what] += 1
        yield Change(key, what if seen[what] == 1 else f"{what} ({seen[what]})", other)


def spread(all_: list[Change], most: int) -> list[Change]:
    """Some of these, from all parts of them."""
    return all_ if len(all_) <= most else [all_[at * len(all_) // most] for at in range(most)]


def page() -> dict[Key, Defined | Typed]:
    """The definitions of the promise."""
    return {key: it for key, it in Judge().reach(BOOK).definitions.items() if key[0] != WORDS}


class Rows:
    """The rows that hold, by the definitions to which they lead."""

    def __init__(self, all_: All, most_seconds: int = MOST_SECONDS) -> None:
        self.library, self.most_seconds = all_.library, most_seconds
        self.graph: dict[Key, set[Key]] = {}
        self.ordered: dict[Key, list[Row]] = {}
        self.rows = [(row, self.below(row)) for row, said in all_.rows if said == HOLDS]

    def below(self, row: Row) -> set[Key]:
        """The definitions to which a row leads."""
        found, todo = set[Key](), self.named(row.term, row.module)
        while todo:
            key = todo.pop()
            found.add(key)
            if key not in self.graph:
                self.graph[key] = self.named(terms_of(self.library.module(key[0]).own[key[1]]), key[0])
            todo |= self.graph[key] - found
        return found

    def named(self, term: object, module: str) -> set[Key]:
        found = meanings_in(self.library, term, module)
        return {(it.module, it.item.name) for it in found if isinstance(it, (Defined, Typed))}

    def of(self, key: Key) -> list[Row]:
        """Those that lead to a definition: those first that noticed a change of it, and then the shortest."""
        if key not in self.ordered:
            found = sorted((len(below), at) for at, (_, below) in enumerate(self.rows) if key in below)
            self.ordered[key] = [self.rows[at][0] for _, at in found]
        return self.ordered[key]

    def say(self, change: Change) -> str:
        """What the rows say of a change."""
        own = self.library.module(change.key[0]).own
        before = own[change.key[1]]
        own[change.key[1]] = change.item
        self.library.meanings.clear()
        try:
            return self.by_rows(change)
        finally:
            own[change.key[1]] = before
            self.library.meanings.clear()

    def by_rows(self, change: Change) -> str:
        decider = Decider(self.library)
        decider.most_calls = MOST_CALLS
        end, open_ones, rows = time.process_time() + self.most_seconds, 0, self.of(change.key)
        for row in [*rows]:
            found = computed(decider, row)
            if found.startswith((FAILS, UNREAD)):
                rows.insert(0, rows.pop(rows.index(row)))
                return NOTICED
            open_ones += found != HOLDS
            if time.process_time() > end:
                return LATE
        return EQUAL if change.called in SAME else OPEN if open_ones else MISSED


def tried(all_: All, most: int = WAYS) -> Iterator[tuple[Change, str]]:
    """Changes of each definition of the promise, and what rows say of them."""
    rows = Rows(all_)
    for key, it in sorted(page().items()):
        yield from ((it, rows.say(it)) for it in spread([*changes(rows.library, key, it.item)], most))


def tried_of_contract(all_: All) -> Iterator[tuple[Change, str]]:
    """All changes of the definitions of the contract, and what rows say of them."""
    rows = Rows(all_, 4 * MOST_SECONDS)  # all rows lead to most definitions
    reached = {key for _, below in rows.rows for key in below if key[0].startswith(CONTRACT)}
    for key in sorted(it for it in reached if it[0].removeprefix(CONTRACT) not in LOGS_OF_CONTRACT):
        item = rows.library.module(key[0]).own[key[1]]
        yield from ((it, rows.say(it)) for it in changes(rows.library, key, item))


def lacking_rows(found: Iterable[tuple[Change, str]]) -> list[str]:
    return [f"no row notices {it.called}: {said}" for it, said in found if said in (LATE, MISSED)]


def table(found: Iterable[tuple[Change, str]]) -> Iterator[str]:
    """A line for each file, with what rows say of the changes of its definitions; and those that none refuses."""
    seen: dict[str, Counter[str]] = {}
    left = []
    for change, said in found:
        seen.setdefault(change.key[0].removeprefix("Rattle.").replace(".specs.", "/"), Counter())[said] += 1
        why = f", {SAME[change.called]}" if said == EQUAL else ""
        left += [f"- `{change.called}`: {said}{why}"] if said != NOTICED else []
    whole = sum(seen.values(), Counter[str]())
    yield f"| File | Tried | {' | '.join(it.capitalize() for it in SAID)} |\n|{'---|' * (2 + len(SAID))}"
    for name, many in [*seen.items(), ("all", whole)]:
        yield f"| {name} | {sum(many.values())} | {' | '.join(str(many[it] or '') for it in SAID)} |"
    yield from left
