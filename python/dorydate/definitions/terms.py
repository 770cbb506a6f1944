"""Terms of the language in which definitions are written, as trees."""

from __future__ import annotations

from collections.abc import Iterator
from dataclasses import dataclass
from typing import Union


@dataclass(frozen=True)
class Name:
    """A variable, a definition, a constructor or a word of the library."""

    text: str


@dataclass(frozen=True)
class Number:
    value: int


@dataclass(frozen=True)
class Text:
    """A string, which means the codes of its characters."""

    value: str


@dataclass(frozen=True)
class Implicit:
    """An argument in braces: `{n = e}`, or `{e}` without a name."""

    name: str | None
    term: Term


@dataclass(frozen=True)
class Apply:
    function: Term
    arguments: tuple[Term, ...]

    @property
    def given(self) -> tuple[Term, ...]:
        """The arguments that aren't in braces."""
        return tuple(it for it in self.arguments if not isinstance(it, Implicit))


@dataclass(frozen=True)
class Operation:
    """Two terms with an infix word between them."""

    word: str
    left: Term
    right: Term


@dataclass(frozen=True)
class Binder:
    """Names of one type, `(x y : A)` or `{x : A}`; without names the premise of an arrow."""

    names: tuple[str, ...]
    type: Term
    implicit: bool = False


@dataclass(frozen=True)
class ForAll:
    """`(x : A) → B`, or `A → B`."""

    binder: Binder
    body: Term


@dataclass(frozen=True)
class Part:
    name: str | None
    type: Term


@dataclass(frozen=True)
class Both:
    """`A × B × C`, or `(x : A) × B`: all of these parts, of which later ones may name earlier ones."""

    parts: tuple[Part, ...]


@dataclass(frozen=True)
class Parameter:
    """What a function takes: a name or a pattern, perhaps with its type."""

    pattern: Term
    type: Term | None = None


@dataclass(frozen=True)
class Function:
    """`λ x y. e`"""

    parameters: tuple[Parameter, ...]
    body: Term


@dataclass(frozen=True)
class Let:
    pattern: Term
    type: Term | None
    value: Term
    body: Term


@dataclass(frozen=True)
class Tuple:
    items: tuple[Term, ...]


@dataclass(frozen=True)
class Field:
    """`r.f`, or a name of a module: `m.f`"""

    of: Term
    name: str


@dataclass(frozen=True)
class Record:
    """`record { f = e; .. }`"""

    fields: tuple[tuple[str, Term], ...]


@dataclass(frozen=True)
class Changed:
    """`record r { f = e; .. }`: the record r with other fields."""

    of: Term
    fields: tuple[tuple[str, Term], ...]


@dataclass(frozen=True)
class Case:
    pattern: Term
    body: Term


@dataclass(frozen=True)
class Match:
    """`elim e [ p ↦ a | q ↦ b ]`, or without e a function that matches."""

    of: Term | None
    cases: tuple[Case, ...]


@dataclass(frozen=True)
class If:
    condition: Term
    then: Term
    otherwise: Term


@dataclass(frozen=True)
class Section:
    """`(◌+ e)` or `(e +◌)`: an infix word with one of its sides."""

    word: str
    term: Term
    is_right: bool


@dataclass(frozen=True)
class Universe:
    level: str


@dataclass(frozen=True)
class Unknown:
    """`_`"""


Term = Union[
    Name, Number, Text, Implicit, Apply, Operation, ForAll, Both, Function, Let, Tuple, Field, Record, Changed, Match,
    If, Section, Universe, Unknown,
]  # fmt: skip


def head_of(term: Term) -> Term:
    """What is applied in a term: the term itself where nothing is."""
    while isinstance(term, Apply):
        term = term.function
    return term


def for_all(binders: tuple[Binder, ...], body: Term) -> Term:
    """A statement about all of these."""
    for binder in reversed(binders):
        body = ForAll(binder, body)
    return body


def binders_of(type_: Term) -> list[Binder]:
    """What something of this type takes."""
    found = []
    while isinstance(type_, ForAll):
        found.append(type_.binder)
        type_ = type_.body
    return found


def taken_types(type_: Term) -> list[Term]:
    """The types of the arguments that something of this type takes, without those in braces."""
    return [it.type for it in binders_of(type_) if not it.implicit for _ in it.names or ("",)]


def arity(type_: Term) -> int:
    """How many arguments, without those in braces, something of this type takes."""
    return len(taken_types(type_))


def result_of(type_: Term) -> Term:
    """The type of what is left once all arguments are given."""
    while isinstance(type_, ForAll):
        type_ = type_.body
    return type_


def inside(term: object) -> Iterator[object]:
    """A term, or several, and all of which they are made."""
    yield term
    if hasattr(term, "__dataclass_fields__"):
        term = tuple(vars(term).values())
    for it in term if isinstance(term, (tuple, list)) else ():
        yield from inside(it)
