"""Says which values break a statement."""

from __future__ import annotations

from collections.abc import Iterator, Mapping

from dorydate.definitions.compiling import Decider, Fields, called
from dorydate.definitions.computing import Env, Evidence, Expression, Goal, Slot, Unbound, known_value
from dorydate.definitions.deciding import AllOf, Equal, Every, Implied, Less
from dorydate.definitions.values import NotComputed, Struct, Value, shown

MOST_DEEP = 60_000  # so far a definition is followed that speaks of itself


class Reasons:
    """Looks for what breaks a statement that doesn't hold."""

    def __init__(self, decider: Decider, labels: Mapping[Value, str]) -> None:
        self.decider, self.labels = decider, labels

    def called(self, value: Value) -> str:
        """A value, by its line where the log has it."""
        if value in self.labels:
            return self.labels[value]
        if isinstance(value, Struct) and all(it.isdigit() for it in value.fields) and len(value.fields) > 1:
            return f"({', '.join(map(self.called, value.fields.values()))})"
        return shown(value)

    def of(self, statement: Expression, env: Env) -> list[str]:
        """What breaks it, from the outside in."""
        found: list[str] = []
        inner: list[str] = []  # the lines of which the last definition speaks that has any
        for _ in range(MOST_DEEP):
            step = next(self.step(statement, env, found), None)
            if step is None:
                break
            statement, env = step.statement, step.env
            inner = self.lines_in(env) or inner
        return [*dict.fromkeys([*inner, *found])]

    def lines_in(self, env: Env) -> list[str]:
        """The values that have a line in the log."""
        labels = {name: self.labels.get(value, "") for name, value in values_in(env).items()}
        return [f"{name}: {label}" for name, label in labels.items() if label.startswith("line")]

    def step(self, statement: Expression, env: Env, found: list[str]) -> Iterator[Goal]:
        """The part of a statement that breaks it, if it is one part. What is to be said is added."""
        try:
            said, arguments = called(statement)
            given = [it.slot(env) for it in arguments]
            if isinstance(said, Fields):
                yield Goal(said.parts, dict(zip(said.names, given)))
            elif said:
                ways = [*said.opens(given, None)]
                yield from ways[0] if len(ways) == 1 == len(ways[0]) else ()
            elif isinstance(statement, Every):
                for broken in statement.breaks(env):
                    values = {name: it for name, it in values_in(broken).items() if name not in env}
                    found += [f"{name}: {self.called(it)}" for name, it in values.items()]
                    # the variables lose their values when the search ends, so the rest is looked at here
                    found += self.of(statement.conclusion, {**broken, **values_in(broken)})
                    return
            elif isinstance(statement, Implied):
                yield Goal(statement.conclusion, env)
            elif isinstance(statement, AllOf) and all(it.statement for it in statement.parts):
                # the last part that doesn't hold: of a log, which is read newest first, the earliest
                yield from (it for it in reversed(statement.goals(dict(env), None)) if not self.decider.holds((it,)))
            elif isinstance(statement, (Equal, Less)):
                left, right = (self.called(it.value(env)) for it in (statement.left, statement.right))
                found.append(f"{left} {unlike(statement)} {right}")
        except (Unbound, NotComputed):
            return


def unlike(statement: Equal | Less) -> str:
    """How the sides of a statement are to each other that doesn't hold."""
    if isinstance(statement, Equal):
        return "isn't"
    return "is more than" if statement.more else "isn't less than"


def values_in(env: Mapping[str, Slot]) -> dict[str, Value]:
    """The names whose values are known, with these."""
    found = {name: known_value(it) for name, it in env.items() if not isinstance(it, Evidence)}
    return {name: it for name, it in found.items() if it is not None}
