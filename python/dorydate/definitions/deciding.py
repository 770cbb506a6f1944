"""Decides statements of given values, by search.

A statement is a goal. To look at one gives the goals that it comes to, once for each way in which it may hold; a goal
that lacks the value of a variable waits until another has given it one. "There is" and the fields of a record are
variables, and "for all" holds where no way in which its premises hold breaks what they lead to.
"""

from __future__ import annotations

from collections.abc import Iterator, Mapping, Sequence
from dataclasses import dataclass

from dorydate.definitions.computing import (  # fmt: skip
    Delayed, Env, Evidence, Expression, Get, Goal, Goals, Join, Local, Slot, Slots, Trail, Unbound, Variable, bind,
    bound_so_far, known, unbind,
)
from dorydate.definitions.values import FALSE, TRUE, TYPE, Value, items_of, number

MOST_NUMBERS = 100_000  # how many are tried of a number that is only said to be less than another
DONE: Goals = ()


class Statement(Expression):
    """What may hold or not."""

    __slots__ = ()

    @property
    def states(self) -> bool:
        return True


@dataclass(eq=False, slots=True)
class Fixed(Statement):
    """What always holds, or never. As an argument it may be a type."""

    is_so: bool

    def value(self, env: Env) -> Value:
        return TYPE

    def says(self, env: Env, given: Slots, evidence: Evidence | None) -> Iterator[Goals]:
        return iter([DONE] if self.is_so else [])


@dataclass(eq=False, slots=True)
class Equal(Statement):
    left: Expression
    right: Expression

    def is_wide(self, env: Env) -> bool:
        """Whether it may hold in many ways, so that other goals are better looked at before."""
        sides = (self.left, self.right), (self.right, self.left)
        return any(isinstance(it, Join) and it.is_open(env) and known(other, env) is not None for it, other in sides)

    def says(self, env: Env, given: Slots, evidence: Evidence | None) -> Iterator[Goals]:
        try:
            value, other = self.right.value(env), self.left
        except Unbound:
            value, other = self.left.value(env), self.right
        for _ in other.ways(env, value):
            yield DONE


@dataclass(eq=False, slots=True)
class Less(Statement):
    """Less, or at most. A number without a value is tried from 0 on."""

    left: Expression
    right: Expression
    more: int

    def says(self, env: Env, given: Slots, evidence: Evidence | None) -> Iterator[Goals]:
        least = number(self.right.value(env)) + self.more
        try:
            if number(self.left.value(env)) < least:
                yield DONE
        except Unbound:
            if not isinstance(self.left, (Local, Get)) or least > MOST_NUMBERS:
                raise
            for value in range(least):
                for _ in self.left.ways(env, value):
                    yield DONE


@dataclass(eq=False, slots=True)
class Either(Statement):
    sides: Sequence[Expression]

    def says(self, env: Env, given: Slots, evidence: Evidence | None) -> Iterator[Goals]:
        return iter([(Goal(it, env),) for it in self.sides])


@dataclass(eq=False, slots=True)
class Member(Statement):
    """A list has a member."""

    values: Expression
    member: Expression

    def says(self, env: Env, given: Slots, evidence: Evidence | None) -> Iterator[Goals]:
        for value in dict.fromkeys(items_of(self.values.value(env))):
            for _ in self.member.ways(env, value):
                yield DONE


@dataclass(frozen=True)
class Conjunct:
    """A part of a product or a field of a record: a value of some type, or a statement."""

    name: str
    statement: Expression | None
    type: str
    is_named: bool  # whether a later part speaks of it


@dataclass(eq=False, slots=True)
class AllOf(Statement):
    """Parts that all hold, of which later ones may speak of earlier ones; one that is no statement is some value."""

    parts: Sequence[Conjunct]

    def says(self, env: Env, given: Slots, evidence: Evidence | None) -> Iterator[Goals]:
        return iter([self.goals(dict(env), evidence)])

    def goals(self, inner: Env, evidence: Evidence | None) -> Goals:
        """The parts as goals; their names are added to those there are."""
        goals = []
        for at, part in enumerate(self.parts):
            slot: Slot | None = None
            if part.statement is None:
                slot = Variable(part.name, part.type)
            else:
                made = Evidence() if part.is_named or evidence is not None else None
                goals.append(Goal(part.statement, inner, made))
                slot = made
            if slot is not None and part.name:
                inner[part.name] = slot
            if slot is not None and evidence is not None:
                evidence.fields |= {part.name or str(at): slot, str(at): slot}
        return tuple(goals)


@dataclass(eq=False, slots=True)
class Every(Statement):
    """For all values of some names for which the premises hold, something holds."""

    search: Search
    premises: AllOf
    conclusion: Expression

    def says(self, env: Env, given: Slots, evidence: Evidence | None) -> Iterator[Goals]:
        if next(self.breaks(env), None) is None:
            yield DONE

    def breaks(self, env: Env) -> Iterator[Env]:
        """The values that break it. Until the next is asked for, they are those of the variables."""
        level, before = Trail.level, bound_so_far()
        try:
            Trail.level = level + 1
            inner = dict(env)
            goals = self.premises.goals(inner, None)
            own = [it for it in inner.values() if isinstance(it, Variable) and it.level == level + 1]
            for _ in self.search.solve(goals, ()):
                for _ in self.search.guesses(own):
                    Trail.level = level + 2
                    if not self.search.holds((Goal(self.conclusion, inner),)):
                        yield inner
                    Trail.level = level + 1
        finally:
            Trail.level = level
            unbind(before)


@dataclass(eq=False, slots=True)
class Implied(Statement):
    """Something holds if the premises do, which speak of nothing new."""

    search: Search
    premises: Sequence[Expression]
    conclusion: Expression

    def says(self, env: Env, given: Slots, evidence: Evidence | None) -> Iterator[Goals]:
        Trail.level += 1
        try:
            asked = self.search.holds(tuple(Goal(it, env) for it in self.premises))
        finally:
            Trail.level -= 1
        yield (Goal(self.conclusion, env),) if asked else DONE


class Search:
    """Looks for values with which goals hold; variables of some types are tried with all values of these."""

    def __init__(self, domains: Mapping[str, Sequence[Value]] | None = None) -> None:
        self.domains: dict[str, Sequence[Value]] = {"Bool": (FALSE, TRUE), **(domains or {})}

    def holds(self, goals: Goals) -> bool:
        """Whether there are values with which all of these hold."""
        before = bound_so_far()
        try:
            return next(self.solve(goals, ()), self) is None
        finally:
            unbind(before)

    def solve(self, goals: Goals, late: Goals) -> Iterator[None]:
        """Each way in which all of these hold; late ones wait for values."""
        if not goals:
            yield from self.solve_late(late)
            return
        first, rest = goals[0], goals[1:]
        if is_wide(first):
            yield from self.solve(rest, (*late, first))
            return
        before = bound_so_far()
        moves: Iterator[Goals] | None = None
        more: Goals | None = None
        while True:
            try:
                if moves is None:
                    moves = first.statement.says(first.env, (), first.evidence)
                more = next(moves, None)
            except Unbound:
                if more is not None:
                    raise
                unbind(before)
                yield from self.solve(rest, (*late, first))
                return
            if more is None:
                return
            if late and bound_so_far() > before:
                yield from self.solve((*more, *late, *rest), ())
            else:
                yield from self.solve((*more, *rest), late)

    def solve_late(self, late: Goals) -> Iterator[None]:
        """Each way in which goals hold that have waited: those first that may hold in many ways; then by guesses."""
        if not late:
            yield
        elif wide := next(filter(is_wide, late), None):
            for found in wide.statement.says(wide.env, (), wide.evidence):
                yield from self.solve((*found, *(it for it in late if it is not wide)), ())
        else:
            free = free_in(late)
            if not any(it.type in self.domains and it.level >= Trail.level for it in free):
                raise Unbound
            for _ in self.guesses([it for it in free if it.type in self.domains][:1]):
                yield from self.solve(late, ())

    def guesses(self, variables: Sequence[Variable]) -> Iterator[None]:
        """Each way to give values to those of these variables that have none, and whose type has few values."""
        open_ones = [it for it in variables if it.value is None and it.type in self.domains]
        if not open_ones:
            yield
            return
        for value in self.domains[open_ones[0].type]:
            before = bound_so_far()
            bind(open_ones[0], value)
            yield from self.guesses(open_ones[1:])
            unbind(before)


def is_wide(goal: Goal) -> bool:
    return isinstance(goal.statement, Equal) and goal.statement.is_wide(goal.env)


def free_in(goals: Goals) -> list[Variable]:
    """The variables of these goals that have no value."""
    found: dict[Variable, None] = {}

    def walk(env: Env) -> None:
        for slot in env.values():
            if isinstance(slot, Variable) and slot.value is None:
                found[slot] = None
            elif isinstance(slot, (Delayed, Evidence)):
                walk(slot.env if isinstance(slot, Delayed) else slot.fields)

    for goal in goals:
        walk(goal.env)
    return [*found]
