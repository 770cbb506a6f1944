"""Programs that have many planted bugs, of which a run has one: where they are kept, and how a run with a bug ends."""

from __future__ import annotations

import glob
import hashlib
import os
import shutil
from collections.abc import Mapping, Sequence
from dataclasses import dataclass

from workshop import limited
from workshop.builds.drivers import EXAMPLE, USES, crates_below
from workshop.builds.switched import blamed, link, write_sources
from workshop.builds.unproved import NotKept, build, keep, kept_for_sources
from workshop.checks.copies import lines_of_crates
from workshop.checks.planting import Edit
from workshop.parts import ROOT, read_octets, text_of

SECONDS = 30  # of the processor, for an input with a bug
FIRST = f"{ROOT}/examples/first-message"


@dataclass(frozen=True)
class Kind:
    """A program: its name, the crates that it uses, its sources if it is no crate, and an input with its output."""

    name: str
    uses: str
    sources: str | None
    example: bytes
    wanted: bytes


PROGRAM = Kind("arpasim", "arpasim", None, *map(read_octets, (FIRST, f"{FIRST}.stdout")))
CALLS = Kind("calls", USES, f"{ROOT}/tools/calls/*.rs", EXAMPLE, EXAMPLE)


def digest_of(edits: Mapping[int, Edit]) -> str:
    """Twelve digits by which these bugs differ from others."""
    return hashlib.sha256(" ".join(f"{number} {it.digest}" for number, it in edits.items()).encode()).hexdigest()[:12]


def kept_with(kind: Kind, edits: Mapping[int, Edit]) -> str:
    """Where the program of the present sources is kept that has these bugs, whether or not it is there yet."""
    return f"{kept_for_sources()}-switched-{kind.name}-{digest_of(edits)}"


def there_of(kind: Kind, edits: Mapping[int, Edit]) -> str:
    """The file of the numbers of those bugs that the program has."""
    return f"{ROOT}/out/there-{kind.name}-{digest_of(edits)}"


def write(kind: Kind, edits: dict[int, Edit], room: str) -> list[int]:
    """Writes the sources of a program into a folder, and gives the numbers of the bugs that it has."""
    lines = {name: below.split() for name, below in lines_of_crates().items()}
    crates = {it: lines[it] for name in kind.uses.split() for it in reversed(crates_below(lines, name))}
    there = write_sources(f"{room}/sources", crates, edits)
    if kind.sources:
        os.makedirs(folder := f"{room}/sources/crates/{kind.name}/src")
        for path in glob.glob(kind.sources):
            shutil.copy(path, f"{folder}/{os.path.basename(path).removesuffix('.rs')}.rt")
        with open(f"{room}/sources/crates.txt", "a", encoding="utf-8") as file:
            file.write(f"{kind.name}: {kind.uses}\n")
    return there


def make(kind: Kind, edits: dict[int, Edit], room: str) -> None:
    """Builds the program into a folder without those bugs that don't compile, and writes which bugs it has."""
    there = write(kind, edits, folder := f"{room}/0")
    while True:
        try:
            build(f"{folder}/sources/crates/{kind.name}", kind.example, kind.wanted, folder, ["module.bc"])
            break
        except NotKept as why:
            if not (bad := blamed(str(why)) & {*there}):
                raise
            for it in sorted(bad):
                print(f"{edits[it].crate}/{edits[it].title}: does not compile", flush=True)
            folder = f"{room}/{len(there) - len(bad)}"
            there = write(kind, {number: edits[number] for number in there if number not in bad}, folder)
    link(folder, f"{room}/program")
    with open(there_of(kind, edits), "w", encoding="utf-8") as file:
        file.write(" ".join(map(str, there)))


def made(kind: Kind, edits: dict[int, Edit]) -> tuple[str, set[int]]:
    """The program, built where it is not kept yet, and the numbers of the bugs that it has."""
    if not os.path.exists(kept_at := kept_with(kind, edits)):
        print(f"building {kind.name} with {len(edits)} planted bugs, once for these sources", flush=True)
        keep(lambda: kept_with(kind, edits), lambda room: make(kind, edits, room))
    return kept_at, {*map(int, text_of(there_of(kind, edits)).split())}


def planted(number: int) -> dict[str, str]:
    """The variables of a run that has the bug of this number; of 0, none."""
    return {**os.environ, "PLANTED": str(number)}


def ended(program: str, words: Sequence[bytes], octets: bytes, number: int) -> tuple[int, bytes, bytes] | None:
    """How a run with a bug ends, or None where it does not."""
    try:
        command = [os.fsencode(program), *words]
        ran = limited.run_within(command, octets, SECONDS, planted(number))
    except limited.NotEnded:
        return None
    return ran.returncode, ran.stdout, ran.stderr
