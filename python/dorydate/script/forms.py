"""How a part of an event is spelled: from how many words of a line it is read, and which values it may have."""

from __future__ import annotations

from collections.abc import Callable
from dataclasses import dataclass, field
from typing import Any

from dorydate.network import Host
from dorydate.script.values import MOST_NUMBER, BadLine, Flow, Text, host_of, in_range, whole


@dataclass(frozen=True)
class Form:
    """How a part of an event is read: from how many words, and by what."""

    words: int
    read: Callable[..., Any]
    kind: type
    most: int = MOST_NUMBER
    least: int = 0

    def check(self, value: Any) -> None:
        """Refuses a value that no line spells."""
        if self.kind is int:
            in_range(value, self.most, self.least)
        elif not isinstance(value, self.kind):
            raise BadLine(f"{value!r} is not a {self.kind.__name__}")


def part(words: int, read: Callable[..., Any], kind: type = str) -> Any:
    return field(metadata={"form": Form(words, read, kind)})


def number(most: int = MOST_NUMBER, least: int = 0) -> Any:
    return field(metadata={"form": Form(1, lambda word: whole(word, most, least), int, most, least)})


def a_host() -> Any:
    return part(1, host_of, Host)


def a_flow() -> Any:
    return part(3, Flow.read, Flow)


def a_text() -> Any:
    return part(2, Text.read, Text)
