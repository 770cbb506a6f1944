"""All drawings: written to docs/pictures, and compared with what is stored there and with the sources."""

from __future__ import annotations

import os

from workshop.drawings import facts, formats, hosts, network, repository
from workshop.drawings.facts import FACTS
from workshop.parts import ROOT
from workshop.drawings.svg import Drawing

FOLDER = f"{ROOT}/docs/pictures"


def drawings() -> list[Drawing]:
    return [make() for make in (*formats.ALL, *network.ALL, *hosts.ALL, *repository.ALL)]


def write() -> int:
    """Writes all drawings, and says how many there are."""
    os.makedirs(FOLDER, exist_ok=True)
    made = drawings()
    for drawing in made:
        with open(f"{FOLDER}/{drawing.name}.svg", "w", encoding="utf-8") as file:
            file.write(drawing.svg())
    return len(made)


def unknown_numbers(drawing: Drawing) -> list[str]:
    """The numbers above 255 that a drawing names and that are neither a fact nor made of facts."""
    known = {fact.value for fact in FACTS.values()} | {facts.value("message_numbers") - 1, facts.value("message_numbers") - facts.value("window") - 1}
    return [f"pictures/{drawing.name}.svg: the number {it} is not of the sources" for it in sorted(drawing.numbers() - known) if it > 255]


def faults() -> list[str]:
    """What is wrong with the drawings: their numbers, their looks, and whether they are stored as they are made."""
    found = [*facts.faults(), *formats.faults(), *hosts.phase_faults(), *repository.faults()]
    for drawing in drawings():
        found += drawing.faults() + unknown_numbers(drawing)
        path = f"{FOLDER}/{drawing.name}.svg"
        stored = ""
        if os.path.exists(path):
            with open(path, encoding="utf-8") as file:
                stored = file.read()
        if stored != drawing.svg():
            found.append(f"docs/pictures/{drawing.name}.svg: not as it is made (./check docs --write)")
    return found
