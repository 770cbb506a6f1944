"""Own logs to be judged twice: of the stored scripts, of random worlds of hosts that keep the contract or lack a rule of
it and of programs, and of these spoilt by what is left out, done again or done too late."""

from __future__ import annotations

import random
from collections.abc import Iterator, Sequence

from dorydate.contract.acts import Act
from dorydate.contract.fold import Broken
from dorydate.contract.rules import NEEDED
from dorydate.contract.worlds.play import Acts, Play, some_world
from dorydate.contract.worlds.programs import among
from dorydate.model.names import spell_host
from workshop.contract.own_logs import of_interface

LENGTHS = 40, 80, 160
OwnLog = tuple[str, list[Act]]  # of a host


def by_host(acts: Acts) -> Iterator[OwnLog]:
    """What happened at each host."""
    for host in dict.fromkeys(host for host, _ in acts):
        yield spell_host(host), [act for at, act in acts if at == host]


def some_play(rng: random.Random, seed: int) -> Play:
    kind = seed % 3
    if kind == 2:
        return among(seed)
    return some_world(seed, (rng.choice(NEEDED).name,) if kind else ())


def spoilt(rng: random.Random, acts: Sequence[Act]) -> list[Act]:
    """A log in which something is left out, done again or exchanged with what comes soon after."""
    found = [*acts]
    at, later = sorted(rng.randrange(len(found)) for _ in range(2))
    kind = rng.choice(("out", "more", "again", "exchanged"))
    if kind == "again":
        found.insert(later, found[at])
    elif kind == "exchanged":
        soon = min(len(found) - 1, at + rng.choice((1, 1, 2, 5)))
        found[at], found[soon] = found[soon], found[at]
    else:
        del found[at : at + (1 if kind == "out" else rng.choice((2, 3, 8)))]
    return found


def of_world(seed: int) -> Iterator[OwnLog]:
    """The own logs of a random world, each as it is or spoilt once or twice."""
    rng = random.Random(seed)
    try:
        play = some_play(rng, seed)
    except Broken:  # a program that was misjudged, which `worlds` finds
        return
    for host, acts in by_host(play.world.done):
        found = acts[: rng.choice(LENGTHS)]
        for _ in range(rng.choice((0, 1, 1, 2))):
            found = spoilt(rng, found) if found else found
        yield host, of_interface(found)
