"""A copy of a part of the model, which then changes in its own way.

Named tuples, texts and numbers never change, so both have the same ones. That makes a copy of a whole network some hundred times
faster than `copy.deepcopy`, which makes all crossings and packets anew.
"""

from __future__ import annotations

from collections import Counter
from collections.abc import Callable
from typing import Any, TypeVar, cast

T = TypeVar("T")
PLAIN = (int, str, bytes, bool, frozenset)


def forked(it: T) -> T:
    """A copy that shares nothing with it that can change."""
    return cast(T, Fork().of(it))


class Fork:
    """What is copied so far: of each original its copy."""

    def __init__(self) -> None:
        self.copies: dict[int, Any] = {}

    def of(self, it: Any) -> Any:
        """The copy of a value."""
        if never_changes(it):
            return it
        if id(it) not in self.copies:
            self.made(it)
        return self.copies[id(it)]

    def made(self, it: Any) -> None:
        """Copies a value that may hold itself."""
        kinds: dict[type, Callable[[Any], Any]] = {list: self.of_list, dict: self.of_dict, set: set, Counter: Counter}
        make = self.of_tuple if type(it) is tuple else kinds.get(type(it))
        if make:
            self.copies[id(it)] = make(it)
            return
        copied = self.copies[id(it)] = object.__new__(type(it))
        copied.__dict__.update((name, self.of(value)) for name, value in vars(it).items())

    def of_list(self, them: list[Any]) -> list[Any]:
        """The copy of a list, whose elements are all of one kind, or None."""
        return them.copy() if them and them[0] is not None and never_changes(them[0]) else [*map(self.of, them)]

    def of_tuple(self, them: tuple[Any, ...]) -> tuple[Any, ...]:
        """The copy of a tuple."""
        return tuple(map(self.of, them))

    def of_dict(self, them: dict[Any, Any]) -> dict[Any, Any]:
        """The copy of a table, whose keys never change."""
        return {key: self.of(value) for key, value in them.items()}


def never_changes(it: Any) -> bool:
    """Whether a value is one that nobody can change: a plain value, a named tuple, a function or a class."""
    kind = type(it)
    if kind in PLAIN or it is None or isinstance(it, type) or callable(it):
        return True
    return isinstance(it, tuple) and kind is not tuple
