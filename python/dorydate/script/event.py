"""What an event is: a frozen dataclass whose fields are the parts of its line, known by the word that the line begins with."""

from __future__ import annotations

from collections.abc import Callable
from dataclasses import dataclass, fields
from typing import ClassVar, TypeVar


@dataclass(frozen=True)
class Event:
    """An event of a script.

    >>> from dorydate.script import Calm, read_event
    >>> read_event("calm 3") == Calm(3), str(Calm(3))
    (True, 'calm 3')
    """

    word: ClassVar[str] = ""

    def __post_init__(self) -> None:
        for it in fields(self):
            it.metadata["form"].check(getattr(self, it.name))

    def __str__(self) -> str:
        return " ".join([self.word, *(str(getattr(self, it.name)) for it in fields(self))])


EVENTS: dict[str, type[Event]] = {}
Kind = TypeVar("Kind", bound=type[Event])


def event(word: str) -> Callable[[Kind], Kind]:
    """Makes a frozen dataclass the event of a word."""

    def made(kind: Kind) -> Kind:
        kind.word = word
        EVENTS[word] = kind
        return kind

    return made
