"""Random calls on worlds, with what the model answers: half of them have strangers.

The events are those of random scripts, some of them in a run. At the end the log is judged as it is, and with some
lines changed.
"""

from __future__ import annotations

import random
import re
from collections.abc import Iterator, Sequence

from dorydate.model.chance.strangers import mixed_script
from dorydate.model.chance.worlds import some_script
from dorydate.model.names import spell_host
from dorydate.model.topology import Topology
from workshop.checks.subnet_rows import spell_network
from workshop.checks.world_rows import JOINT, WorldRows, open_world
from workshop.rows import ANSWER, packed

MOST = 120  # events of a run, or so
AUDITS = 20  # of changed logs
NUMBER = re.compile(r"(?<= )[0-9]{1,9}(?= )")
Runs = Iterator[tuple[str, list[str]]]  # calls with their answers


def opening_of(network: Topology, strangers: Sequence[str] | None) -> str:
    """The row that opens a world."""
    row = spell_network(network.imps, network.lines).replace("subnet", "world", 1)
    if network.carrier == "plain":
        row = row.partition(" /")[0]
    return row if strangers is None else " ".join([row.rstrip(), "foreign", *strangers])


def calls_of(chance: random.Random, lines: Sequence[str], is_plain: bool) -> Iterator[str]:
    """The calls of a script, with questions between them."""
    left = [*lines]
    while left:
        if chance.random() < 0.2:
            yield chance.choice(["silent", "strangers", *["rests"] * is_plain])
        count = chance.randint(1, 8) if chance.random() < 0.2 else 1
        some = [line for line in left[:count] if not line.startswith("calm ") and JOINT not in line]
        if len(some) == count and count > 1:
            yield f"run {JOINT.join(some)}"
        else:
            count = 1
            yield f"turn {left[0]}" if some[:1] == left[:1] and chance.random() < 0.05 else left[0]
        del left[:count]


def changed(chance: random.Random, log: Sequence[str]) -> str:
    """A change of a log: another number, or a line that is there twice, or not at all."""
    place = chance.choice([at for at, line in enumerate(log) if line != "end"][-chance.choice([6, len(log)]) :])
    line = log[place]
    numbers = [*NUMBER.finditer(line)]
    match chance.choice(["number"] * 4 + ["gone", "twice"]):
        case "number" if numbers:
            found = chance.choice(numbers)
            other = max(0, int(found[0]) + chance.choice([-2, -1, 1, 2, 8]))
            return f"{place + 1} {line[: found.start()]}{other}{line[found.end() :]}"
        case "twice":
            return f"+{place + 1} {line}"
    return f"{place + 1}"


def rows_of(seed: int) -> tuple[list[str], list[str]]:
    """The rows of a run, and the words that say what it came to."""
    chance = random.Random(f"worlds {seed}")
    strangers: list[str] | None = None
    if seed % 2:
        network, script, world = mixed_script(seed, most=MOST)
        strangers = [*map(spell_host, world.strangers)]
        chance.shuffle(strangers)
        lines = script.lines
    else:
        network, plain = some_script(seed, most=MOST)
        lines = plain.lines
    opening = opening_of(network, strangers)
    reading, _ = open_world(opening)
    assert isinstance(reading, WorldRows)
    calls = [*calls_of(chance, lines, network.carrier == "plain"), "log", "audit"]
    rows, seen = [opening], list[str]()
    for call in calls:
        answers = reading.answers(call, [])
        rows += [call, *(ANSWER + (answer if call == "log" else packed(answer)) for answer in answers)]
        seen += [it.split(" ")[0] for it in answers[1:]] if call != "log" else []
        seen += [answers[0]] if answers[0].startswith("refused") else []
    log = reading.log()
    for _ in range(AUDITS if len(log) > 1 else 0):
        call = f"audit {JOINT.join(changed(chance, log) for _ in range(chance.choice([1, 1, 2])))}"
        (answer,) = reading.answers(call, [])
        rows += [call, ANSWER + answer]
        seen.append(re.sub("[0-9]+", "N", answer).replace("which is part N, ", ""))
    return rows, seen
