"""The events of scripts, their words, what follows each, and where it happens; and the names of refusals."""

from __future__ import annotations

import json
from dataclasses import dataclass
from importlib.resources import files
from typing import Literal, TypedDict, cast

Of = Literal["raw", "every", "carrier", "subnet", "programs"]


@dataclass(frozen=True)
class Word:
    """The word with which an event's line begins.

    `operands` are the words after it, by their names in the sentences. `of` says whether the scripts of raw networks
    have it, of programs or both; or that it happens in every carrier, or in a subnet only, whatever its hosts do. `at`
    is the operand that says where it happens: the IMP or that of the host, the line, or the direction at whose end it
    does; empty for rounds.
    """

    word: str
    operands: tuple[str, ...]
    of: Of
    at: str

    @property
    def shape(self) -> str:
        """What it is about: what it has after its word, in one text."""
        return " ".join(self.operands)


class Table(TypedDict):
    """What events.mjs has."""

    events: dict[str, tuple[str, Of, str]]
    refusals: dict[str, str]


def read() -> Table:
    """The table, in the order of docs/program.md: what follows its name in events.mjs is JSON."""
    text = files("dorydate.sentences").joinpath("events.mjs").read_text(encoding="utf-8")
    return cast(Table, json.loads(text.split("TABLE = ", 1)[1].rstrip().removesuffix(";")))


TABLE = read()
EVENTS = {word: Word(word, tuple(operands.split(" ")), of, at) for word, (operands, of, at) in TABLE["events"].items()}
REFUSALS = TABLE["refusals"]  # by their names: who refuses, a carrier or the program of a host


def words_of(*kinds: Of) -> tuple[str, ...]:
    """The words of events of these kinds, in the order of docs/program.md."""
    return tuple(word for word, it in EVENTS.items() if it.of in kinds)


OF_CARRIERS = words_of("carrier", "subnet")  # what happens inside a network, whatever its hosts do
OF_SUBNETS = words_of("subnet")  # of these what plain mailboxes have no part for
OF_RAW = words_of("raw", "every", "carrier", "subnet")  # of scripts of raw networks
OF_WORLDS = words_of("every", "carrier", "subnet", "programs")  # and of those whose hosts have programs


def with_operands(*operands: str) -> tuple[str, ...]:
    """The words that have these operands and no more."""
    return tuple(word for word, it in EVENTS.items() if it.operands == operands)
