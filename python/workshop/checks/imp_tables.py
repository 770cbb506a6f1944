"""Networks whose tables exchange distances: as many IMPs as there can be, in a row and on rings, and random ones of every size."""

from __future__ import annotations

import random
from collections.abc import Iterator

from dorydate.model.packets import INFINITE, MOST_IMPS
from dorydate.model.tables import Exchange
from workshop.checks.readings import Reading

ROUNDS = 0, 1, 2, 7, 40, INFINITE, INFINITE + 1
HEARD = None, 0, 5, INFINITE


def networks() -> Iterator[Exchange]:
    """The networks that are tried, each with what its ports have heard at first."""
    row = [(at, at + 1) for at in range(1, MOST_IMPS)]
    rings = [(at + 1, (at + step) % MOST_IMPS + 1) for step in (1, 2) for at in range(MOST_IMPS)]
    for heard in HEARD:
        yield from (Exchange(MOST_IMPS, row, heard), Exchange(MOST_IMPS, rings, heard), Exchange(MOST_IMPS, [], heard))
    for count in range(1, MOST_IMPS + 1):
        chance = random.Random(count)
        lines = [(chance.randint(1, count), chance.randint(1, count)) for _ in range(chance.randint(0, 2 * count))]
        yield Exchange(count, [(a, b) for a, b in lines if a != b], chance.choice(HEARD))


def table_rows() -> Iterator[tuple[str, list[str]]]:
    """The networks as rows, each with what it has to come to."""
    return ((network.asked(rounds), network.owed(rounds)) for network in networks() for rounds in ROUNDS)


class TableRows:
    """Networks, each a row, answered by the model."""

    def answers(self, call: str, wanted: list[str]) -> list[str]:
        count, rounds, heard, *lines = call.split(" ")
        ends = [(int(a), int(b)) for a, b in (line.split("-") for line in lines)]
        return Exchange(int(count), ends, None if heard == "-" else int(heard)).owed(int(rounds))


def open_tables(call: str) -> tuple[Reading, list[str]]:
    """What a block of networks begins with."""
    return TableRows(), []
