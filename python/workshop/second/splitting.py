"""Writes a clause of several forms once for each: the prover checks such a clause so, and Agda doesn't."""

from __future__ import annotations

import dataclasses
from collections.abc import Callable, Sequence
from dataclasses import dataclass, replace
from typing import Any

from dorydate.definitions.files import Clause
from dorydate.definitions.terms import Apply, Implicit, Name, Operation, Term, Tuple, Unknown, head_of

Place = tuple[int, ...]
APART = "apart"


@dataclass(frozen=True)
class Forms:
    """A type, its forms with how many parts each has, and one of them."""

    type: str
    all: tuple[tuple[str, int], ...]
    own: str


@dataclass(frozen=True)
class Written(Name):
    """The name of a form as Agda has it, which isn't looked for among the names of a file."""

    forms: Forms


def parts_of(pattern: Term) -> tuple[Term, ...]:
    match pattern:
        case Operation(_, left, right):
            return (left, right)
        case Tuple(items):
            return items
        case Implicit(_, term):
            return (term,)
    return pattern.given if isinstance(pattern, Apply) else ()


def with_parts(pattern: Term, parts: tuple[Term, ...]) -> Term:
    """A pattern with other parts."""
    match pattern:
        case Operation(word, _, _):
            return Operation(word, *parts)
        case Tuple():
            return Tuple(parts)
        case Implicit(name, _):
            return Implicit(name, *parts)
    assert isinstance(pattern, Apply)
    return Apply(pattern.function, parts)


class Splitter:
    """Splits the clauses of one definition, one after another."""

    def __init__(self, forms_of: Callable[[Term], Forms | None], new_name: Callable[[], str]) -> None:
        self.forms_of, self.new_name = forms_of, new_name
        self.before: list[tuple[Term, ...]] = []

    def ways(self, clause: Clause) -> list[Clause]:
        """The clauses that a clause means, where those before it don't fit."""
        found = self.split(clause)
        self.before.append(clause.patterns)
        return found

    def split(self, clause: Clause) -> list[Clause]:
        for other in self.before:
            found = self.place_of(clause.patterns, other)
            if isinstance(found, tuple):
                ways = [self.put(clause, *found, form, many) for form, many in found[1].all]
                return [way for it in ways for way in self.split(it)]
        return [] if any(self.covers(other, clause.patterns) for other in self.before) else [clause]

    def form(self, pattern: Term) -> Forms | None:
        return self.forms_of(Name(pattern.word) if isinstance(pattern, Operation) else head_of(pattern))

    def place_of(self, patterns: Sequence[Term], others: Sequence[Term]) -> tuple[Place, Forms] | str | None:
        """Where a name is for which the others have a form; APART where no value fits both."""
        found: tuple[Place, Forms] | None = None
        for at, (own, other) in enumerate(zip(patterns, others)):
            mine, theirs = self.form(own), self.form(other)
            is_name = mine is None and isinstance(own, (Name, Unknown))
            if mine and theirs and mine.own != theirs.own:
                return APART
            inner: tuple[Place, Forms] | str | None = ((), theirs) if is_name and theirs else None
            if not is_name:
                inner = self.place_of(parts_of(own), parts_of(other))
            if inner == APART:
                return APART
            if found is None and isinstance(inner, tuple):
                found = (at, *inner[0]), inner[1]
        return found

    def covers(self, others: Sequence[Term], patterns: Sequence[Term]) -> bool:
        """Whether whatever fits patterns fits the others."""
        for own, other in zip(patterns, others):
            mine, theirs = self.form(own), self.form(other)
            if theirs is None and isinstance(other, (Name, Unknown)):
                continue
            if theirs and (mine is None or mine.own != theirs.own) or not self.covers(parts_of(other), parts_of(own)):
                return False
        return True

    def put(self, clause: Clause, place: Place, forms: Forms, form: str, many: int) -> Clause:
        """A clause with a form where it has a name."""
        parts = tuple(Name(self.new_name()) for _ in range(many))
        head = Written(form, replace(forms, own=form))
        new: Term = Operation(form, *parts) if form == "∷" else Apply(head, parts) if parts else head
        patterns, name = put_at(clause.patterns, place, new)
        value, where = with_term((clause.value, clause.where), name, new)
        return replace(clause, patterns=patterns, value=value, where=where)


def put_at(patterns: tuple[Term, ...], place: Place, new: Term) -> tuple[tuple[Term, ...], str]:
    """Patterns with another term at a place, and the name that was there."""
    at, rest = place[0], place[1:]
    own = patterns[at]
    name = own.text if isinstance(own, Name) else "_"
    if rest:
        inner, name = put_at(parts_of(own), rest, new)
        new = with_parts(own, inner)
    return (*patterns[:at], new, *patterns[at + 1 :]), name


def with_term(term: Any, name: str, new: Term) -> Any:
    """A term with another for a name. No clause of these files binds a name anew."""
    if isinstance(term, Name):
        return new if term.text == name and not isinstance(term, Written) else term
    if isinstance(term, tuple):
        return tuple(with_term(it, name, new) for it in term)
    if dataclasses.is_dataclass(term) and not isinstance(term, type):
        return replace(
            term, **{it.name: with_term(getattr(term, it.name), name, new) for it in dataclasses.fields(term)}
        )
    return term
