"""Computes terms, and finds the values of variables with which a term is a given value.

A variable may have no value yet: what a statement speaks of has none until a premise gives it one. What can't be
computed without it raises `Unbound`, and is tried later.
"""

from __future__ import annotations

from collections.abc import Callable, Iterator, Sequence
from dataclasses import dataclass, field
from typing import Union

from dorydate.definitions.values import (  # fmt: skip
    NIL, Data, Lambda, NotComputed, Struct, Value, applied, data, items_of, list_of, listed, number, reversed_list,
    struct,
)


class Unbound(Exception):
    """A variable has no value yet."""


class Lacking(NotComputed):
    """A record lacks a field, as the book of a log does."""

    def __init__(self, field: str) -> None:
        super().__init__(f"there is no field {field}")
        self.field = field


class Trail:
    """The variables that have a value, in the order in which they got it; and how many statements about all of a type
    are being looked at, one in another. Where one is, only its own variables get values: those outside it are fixed,
    known or not."""

    variables: list[Variable] = []
    level = 0


class Variable:
    """What a statement speaks of."""

    __slots__ = ("name", "type", "level", "value")

    def __init__(self, name: str, type_: str) -> None:
        self.name, self.type, self.level = name, type_, Trail.level
        self.value: Value | None = None


@dataclass(eq=False, slots=True)
class Evidence:
    """That a statement holds: the values and the evidence that its fields have, and of what it is said."""

    fields: dict[str, Slot] = field(default_factory=dict)
    given: Slots = ()

    def record(self) -> Value:
        """The record of its values, as functions of evidence see it; what it is said of is there by its place."""
        given = {braced(at): it for at, it in enumerate(map(known_value, self.given)) if it is not None}
        return struct({name: forced(it) for name, it in self.fields.items()} | given)


@dataclass(eq=False, slots=True)
class Delayed:
    """A term that is computed when it is wanted, or a statement."""

    term: Expression
    env: Env


Slot = Union[int, Data, Struct, Lambda, Variable, Evidence, Delayed]
Slots = Sequence[Slot]
Env = dict[str, Slot]


def braced(place: int) -> str:
    """How a record of evidence calls what it is said of."""
    return f"{{{place}}}"


def bound_so_far() -> int:
    return len(Trail.variables)


def bind(variable: Variable, value: Value) -> None:
    if variable.level < Trail.level:
        raise Unbound
    variable.value = value
    Trail.variables.append(variable)


def unbind(to: int) -> None:
    """Takes their values from the variables that got one since."""
    while len(Trail.variables) > to:
        Trail.variables.pop().value = None


def forced(slot: Slot) -> Value:
    """The value of what a name means."""
    if isinstance(slot, Variable):
        if slot.value is None:
            raise Unbound
        return slot.value
    if isinstance(slot, Delayed):
        return slot.term.value(slot.env)
    return slot.record() if isinstance(slot, Evidence) else slot


def known_value(slot: Slot) -> Value | None:
    """The value of what a name means; None where it isn't known, is a function or a statement."""
    found: Slot | None = slot
    if isinstance(slot, Variable):
        found = slot.value
    elif isinstance(slot, Delayed):
        found = None if slot.term.states else known(slot.term, slot.env)
    return found if isinstance(found, (int, Data, Struct)) else None


@dataclass(eq=False, slots=True)
class Goal:
    """A statement of the values of names, and the evidence that is made where it holds, if anybody looks at that."""

    statement: Expression
    env: Env
    evidence: Evidence | None = None


Goals = tuple[Goal, ...]


class Expression:
    """A term, with the ways in which it is looked at: computed, matched with a value, or held as a statement."""

    __slots__ = ()

    @property
    def states(self) -> bool:
        """Whether it is a statement, which has no value."""
        return False

    def value(self, env: Env) -> Value:
        raise NotComputed("a statement is no value")

    def match(self, env: Env, wanted: Value) -> Iterator[None]:
        """Each way to give variables values so that the term is this value."""
        if self.value(env) == wanted:
            yield

    def ways(self, env: Env, wanted: Value) -> Iterator[None]:
        """The same, by computing where that can be done."""
        try:
            found = self.value(env)
        except Unbound:
            yield from self.match(env, wanted)
            return
        if found == wanted:
            yield

    def says(self, env: Env, given: Slots, evidence: Evidence | None) -> Iterator[Goals]:
        """The goals that are left, for each way in which it may hold of these arguments."""
        found = self.value(env)
        if not isinstance(found, Lambda) or found.term is None:
            raise NotComputed("a value is no statement")
        yield from found.term.says(found.env, (*found.before, *given), evidence)

    def slot(self, env: Env) -> Slot:
        """The term as an argument: its value, if it has one yet."""
        try:
            return Delayed(self, env) if self.states else self.value(env)
        except Unbound:
            return Delayed(self, env)


def goals_of(statement: Expression, env: Env, rest: Slots, evidence: Evidence | None) -> Iterator[Goals]:
    """A statement as the goal that is left, or what it says of the arguments that it lacks."""
    return statement.says(env, rest, evidence) if rest else iter([(Goal(statement, env, evidence),)])


def known(expression: Expression, env: Env) -> Value | None:
    """The value of a term, if it has one yet."""
    try:
        return expression.value(env)
    except Unbound:
        return None


def ways_of_all(pairs: Sequence[tuple[Expression, Value]], env: Env) -> Iterator[None]:
    """Each way to give variables values so that all these terms are these values."""
    if not pairs:
        yield
        return
    (first, wanted), rest = pairs[0], pairs[1:]
    for _ in first.ways(env, wanted):
        yield from ways_of_all(rest, env)


def ways_of_slot(slot: Slot, wanted: Value) -> Iterator[None]:
    """Each way in which what a name means is this value."""
    if isinstance(slot, Variable) and slot.value is None:
        before = bound_so_far()
        bind(slot, wanted)
        yield
        unbind(before)
    elif isinstance(slot, Delayed):
        yield from slot.term.ways(slot.env, wanted)
    elif forced(slot) == wanted:
        yield


@dataclass(eq=False, slots=True)
class Literal(Expression):
    known: Value

    def value(self, env: Env) -> Value:
        return self.known


@dataclass(eq=False, slots=True)
class Unread(Expression):
    """A term that isn't computed here, and why; a branch of it may never be looked at."""

    why: Exception

    @property
    def states(self) -> bool:
        return True

    def value(self, env: Env) -> Value:
        raise self.why


@dataclass(eq=False, slots=True)
class Local(Expression):
    """A variable, or what a function takes."""

    name: str

    def value(self, env: Env) -> Value:
        slot = env[self.name]
        return slot if type(slot) is Data else forced(slot)

    def match(self, env: Env, wanted: Value) -> Iterator[None]:
        return ways_of_slot(env[self.name], wanted)

    def says(self, env: Env, given: Slots, evidence: Evidence | None) -> Iterator[Goals]:
        slot = env[self.name]
        if isinstance(slot, Delayed):
            return slot.term.says(slot.env, given, evidence)
        return Expression.says(self, env, given, evidence)

    def slot(self, env: Env) -> Slot:
        return env[self.name]


@dataclass(eq=False, slots=True)
class Construct(Expression):
    """A constructor with arguments."""

    form: str
    arguments: Sequence[Expression] = ()

    def value(self, env: Env) -> Value:
        return data(self.form, *[it.value(env) for it in self.arguments])

    def match(self, env: Env, wanted: Value) -> Iterator[None]:
        if isinstance(wanted, Data) and wanted.form == self.form and len(wanted.parts) == len(self.arguments):
            yield from ways_of_all([*zip(self.arguments, wanted.parts)], env)


@dataclass(eq=False, slots=True)
class Call(Expression):
    """A function of some arguments, or a statement about them."""

    function: Expression
    arguments: Sequence[Expression]

    @property
    def states(self) -> bool:
        takes = self.function.takes if isinstance(self.function, Defining) else None
        return takes is not None and takes <= len(self.arguments)

    def value(self, env: Env) -> Value:
        return applied(self.function.value(env), tuple([it.value(env) for it in self.arguments]))

    def match(self, env: Env, wanted: Value) -> Iterator[None]:
        function = self.function.value(env)
        if isinstance(function, Data):
            yield from Construct(function.form, [*map(Literal, function.parts), *self.arguments]).match(env, wanted)
        elif isinstance(function, Lambda) and isinstance(function.term, Defining):
            body, inner, rest = function.term.opened([*function.before, *(Delayed(it, env) for it in self.arguments)])
            if rest:
                raise Unbound
            yield from body.ways(inner, wanted)
        elif isinstance(function, Lambda) and function.run is reversed_list:
            yield from self.arguments[0].ways(env, reversed_list(wanted))
        else:
            raise Unbound

    def says(self, env: Env, given: Slots, evidence: Evidence | None) -> Iterator[Goals]:
        return self.function.says(env, [*(it.slot(env) for it in self.arguments), *given], evidence)


class Defining(Expression):
    """A definition by its name."""

    __slots__ = ()
    takes: int | None  # of how many arguments it says something; None where it says nothing

    @property
    def states(self) -> bool:
        return self.takes == 0

    def opened(self, given: Slots) -> tuple[Expression, Env, Slots]:
        """The value of the first clause that fits these arguments, the names in it, and the arguments that are left."""
        raise NotImplementedError


@dataclass(eq=False, slots=True)
class Join(Expression):
    """One list after another."""

    left: Expression
    right: Expression

    def value(self, env: Env) -> Value:
        left, right = self.left.value(env), self.right.value(env)
        return list_of(right) if left is NIL else listed(items_of(left), list_of(right))

    def match(self, env: Env, wanted: Value) -> Iterator[None]:
        members = [*items_of(wanted)]
        tails = [list_of(wanted)]
        for _ in members:
            tails.append(list_of(tails[-1].parts[1]))
        left, right = known(self.left, env), known(self.right, env)
        places = range(len(tails))
        if left is not None:
            places = places[list_of(left).length : list_of(left).length + 1]
        elif right is not None:
            at = len(members) - list_of(right).length
            places = range(at, at + 1) if at >= 0 and tails[at] is right else range(0)
        for many in places:
            for _ in self.left.ways(env, listed(members[:many])):
                yield from self.right.ways(env, tails[many])

    def is_open(self, env: Env) -> bool:
        """Whether neither side is known, so that a list has as many ways to be one as it has members."""
        return known(self.left, env) is None and known(self.right, env) is None


@dataclass(eq=False, slots=True)
class Arithmetic(Expression):
    """A sum, a difference, a product, a quotient, a remainder or a power."""

    word: str
    left: Expression
    right: Expression

    def value(self, env: Env) -> Value:
        return CALCULATED[self.word](number(self.left.value(env)), number(self.right.value(env)))

    def match(self, env: Env, wanted: Value) -> Iterator[None]:
        one, other = known(self.left, env), known(self.right, env)
        if self.word != "+" or one is None and other is None:
            raise Unbound
        less, unknown = (number(one), self.right) if one is not None else (number(other or 0), self.left)
        if less <= number(wanted):
            yield from unknown.ways(env, number(wanted) - less)


# a difference is at least 0; a division by 0 gives 0, and leaves all
CALCULATED: dict[str, Callable[[int, int], int]] = {
    "+": lambda a, b: a + b,
    "-": lambda a, b: max(a - b, 0),
    "*": lambda a, b: a * b,
    "/": lambda a, b: a // b if b else 0,
    "%": lambda a, b: a % b if b else a,
    "^": lambda a, b: int(a**b),
}


@dataclass(eq=False, slots=True)
class Selection(Expression):
    """A term by the form of a value: `elim`, `if`, or `let`, which has one case."""

    of: Expression
    cases: Sequence[tuple[Pattern, Expression]]

    @property
    def states(self) -> bool:
        return any(body.states for _, body in self.cases)

    def led(self, env: Env) -> tuple[Expression, Env]:
        """The first term whose pattern fits, with the names in it."""
        of = self.of.value(env)
        for pattern, body in self.cases:
            inner = dict(env)
            if pattern.fits(of, inner):
                return body, inner
        raise NotComputed("no case fits")

    def value(self, env: Env) -> Value:
        term, inner = self.led(env)
        return term.value(inner)

    def match(self, env: Env, wanted: Value) -> Iterator[None]:
        term, inner = self.led(env)
        return term.ways(inner, wanted)

    def says(self, env: Env, given: Slots, evidence: Evidence | None) -> Iterator[Goals]:
        return goals_of(*self.led(env), given, evidence)


@dataclass(eq=False, slots=True)
class Get(Expression):
    """A field of a record, of a tuple, or of evidence."""

    of: Expression
    name: str

    def value(self, env: Env) -> Value:
        return forced(self.field(env))

    def field(self, env: Env) -> Slot:
        """The field, which may be evidence itself."""
        of: Slot
        if isinstance(self.of, Local):
            of = env[self.of.name]
        else:
            of = self.of.field(env) if isinstance(self.of, Get) else self.of.value(env)
        if isinstance(of, Evidence):
            if self.name not in of.fields:
                raise Unbound
            return of.fields[self.name]
        found = forced(of)
        if not isinstance(found, Struct) or self.name not in found.fields:
            raise Lacking(self.name)
        return found.fields[self.name]

    def match(self, env: Env, wanted: Value) -> Iterator[None]:
        return ways_of_slot(self.field(env), wanted)


@dataclass(eq=False, slots=True)
class Build(Expression):
    """A record by its fields, or a tuple; or a record with other fields."""

    fields: Sequence[tuple[str, Expression]]
    of: Expression | None = None

    def value(self, env: Env) -> Value:
        of = Struct({}) if self.of is None else self.of.value(env)
        if not isinstance(of, Struct):
            raise NotComputed("what is changed is no record")
        return struct({**of.fields, **{name: it.value(env) for name, it in self.fields}})

    def match(self, env: Env, wanted: Value) -> Iterator[None]:
        if self.of is not None:
            raise Unbound
        if isinstance(wanted, Struct) and wanted.fields.keys() == {name for name, _ in self.fields}:
            yield from ways_of_all([(it, wanted.fields[name]) for name, it in self.fields], env)


@dataclass(eq=False, slots=True)
class Abstraction(Expression):
    """A function, by its parameters and its value."""

    patterns: Sequence[Pattern]
    body: Expression

    def inner(self, env: Env, given: Slots) -> Env:
        """The names in its value."""
        inner = dict(env)
        fits = [pattern.fits(it, inner) for pattern, it in zip(self.patterns, given)]
        if len(given) < len(self.patterns) or not all(fits):
            raise NotComputed("an argument of another form")
        return inner

    def value(self, env: Env) -> Value:
        return Lambda(len(self.patterns), lambda *given: self.body.value(self.inner(env, given)), (), self, env)

    def says(self, env: Env, given: Slots, evidence: Evidence | None) -> Iterator[Goals]:
        return goals_of(self.body, self.inner(env, given), given[len(self.patterns) :], evidence)


# ---- patterns


@dataclass(eq=False, slots=True)
class Pattern:
    """What an argument has to be, and the names that it gives to its parts. A name, or `_`, takes anything."""

    name: str = ""

    def fits(self, slot: Slot, env: Env) -> bool:
        if self.name:
            env[self.name] = slot
        return True


@dataclass(eq=False, slots=True)
class OfForm(Pattern):
    """A constructor with patterns for its arguments, named by its form."""

    parts: Sequence[Pattern] = ()

    def fits(self, slot: Slot, env: Env) -> bool:
        value = forced(slot)
        if type(value) is Data:
            return value.form == self.name and all(
                [pattern.fits(it, env) for pattern, it in zip(self.parts, value.parts)]
            )
        if self.name == "zero":
            return value == 0
        return self.name == "suc" and number(value) > 0 and self.parts[0].fits(number(value) - 1, env)


@dataclass(eq=False, slots=True)
class OfFields(Pattern):
    """A record or a tuple, with patterns for its fields."""

    parts: Sequence[tuple[str, Pattern]] = ()

    def fits(self, slot: Slot, env: Env) -> bool:
        value = forced(slot)
        return isinstance(value, Struct) and all(
            [pattern.fits(value.fields[name], env) for name, pattern in self.parts]
        )
