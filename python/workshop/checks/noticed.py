"""Which planted bugs a run shows: ./check noticed [--rows | --limits] [CRATE | CRATE/NAME ..]

The proofs refuse each planted bug (`./check edits`). This says which of them stored inputs show too, and so which
mistakes in a definition they would. One program has all of them, and a run has the one that PLANTED names
(workshop.builds.switched); it is built without proofs, once for the present sources, which takes some ten minutes. Each
bug is run on the inputs of examples/, cases/ and logs/, until one ends otherwise than is stored, or doesn't end. With
--rows so is the program of tools/calls on the files of cases/calls, and with --limits the program on the inputs of
`./check limits`. No part of the gate: docs/measured/rows.md has what came of it.
"""

from __future__ import annotations

import glob
import sys
from collections import Counter
from collections.abc import Callable, Iterator, Mapping, Sequence
from concurrent.futures import ThreadPoolExecutor
from functools import partial

from workshop.builds.drivers import CORES
from workshop.builds.switching import CALLS, PROGRAM, ended, made
from workshop.builds.unproved import NotKept
from workshop.checks.cases import Case, cases_below
from workshop.checks.limits import NAMES, by_program, kept
from workshop.checks.planting import Edit, edits_of
from workshop.parts import ROOT, read_octets
from workshop.rows import files
from workshop.words import Words

MOST_OCTETS = 10_000_000  # of an input
Trials = Mapping[str, Callable[[int], bool]]  # by the names of inputs: whether a run with a bug ends otherwise


def numbered() -> dict[int, Edit]:
    """All planted bugs, each with the number that PLANTED has for it."""
    folders = sorted(glob.glob(f"{ROOT}/crates/*/wrong-bodies"))
    crates = [it.split("/")[-2] for it in folders]
    return dict(enumerate((edit for crate in crates for edit in edits_of(crate)), 1))


def inputs() -> dict[str, Case]:
    """The stored inputs by their names, the shortest first, but for those that take seconds."""
    folders = "cases", "logs", "examples"
    found = {f"{folder}/{case.name}": case for folder in folders for case in cases_below(f"{ROOT}/{folder}")}
    order = sorted(found, key=lambda it: ("-row-" in it, len(found[it].octets) + len(found[it].printed)))
    return {name: found[name] for name in order if len(found[name].octets) < MOST_OCTETS}


def of_cases(program: str) -> Trials:
    """The stored inputs."""

    def differs(case: Case, number: int) -> bool:
        wanted = case.status, case.printed, case.words.encode()
        return ended(program, (case.args or b"").splitlines(), case.octets, number) != wanted

    return {name: partial(differs, case) for name, case in inputs().items()}


def of_rows(program: str) -> Trials:
    """The files of rows, which are their own output."""

    def differs(octets: bytes, number: int) -> bool:
        return ended(program, (), octets, number) != (0, octets, b"")

    return {f"calls/{name}": partial(differs, read_octets(path)) for name, path in files().items()}


def of_limits(program: str) -> Trials:
    """The inputs of `./check limits`, with what the models say."""
    wanted = kept()

    def differs(name: str, number: int) -> bool:
        return by_program(program, name, {"PLANTED": str(number)}) != wanted[name]

    return {f"limits: {name}": partial(differs, name) for name in NAMES}


def noticing(trials: Trials, number: int, first: Sequence[str]) -> str | None:
    """The first input that shows a bug, of those that showed others of its crate before all else."""
    order = [*first, *(name for name in trials if name not in first)]
    return next((name for name in order if trials[name](number)), None)


def try_crate(crate: str, some: dict[int, Edit], has: set[int], trials: Trials) -> Counter[str]:
    """Tries the bugs of a crate, prints what comes of each, and counts."""
    seen, counts = list[str](), Counter[str]()
    with ThreadPoolExecutor(CORES) as threads:
        tried = [it for it in some if it in has]
        for number, name in zip(tried, threads.map(lambda it: noticing(trials, it, seen[:8]), tried)):
            counts["noticed" if name else "not noticed"] += 1
            print(f"{crate}/{some[number].title}: {f'noticed: {name}' if name else 'not noticed'}", flush=True)
            if name and name not in seen:
                seen.insert(0, name)
    for number in (it for it in some if it not in has):
        counts["not tried"] += 1
        print(f"{crate}/{some[number].title}: not tried", flush=True)
    return counts


def chosen(edits: dict[int, Edit], words: Sequence[str]) -> Iterator[tuple[str, dict[int, Edit]]]:
    """The crates that are asked for, or all, each with its bugs."""
    for crate in dict.fromkeys(it.crate for it in edits.values()):
        own = {number: it for number, it in edits.items() if it.crate == crate}
        some = {number: it for number, it in own.items() if not words or {crate, f"{crate}/{it.title}"} & {*words}}
        if some:
            yield crate, some


def main() -> int:
    words = Words(__doc__).names("edit", "a crate, or one bug of it as CRATE/NAME; all, if none is named")
    words.flag("rows", "run tools/calls on cases/calls").flag("limits", "run the inputs of ./check limits")
    asked = words.asked()
    edits = numbered()
    try:
        program, has = made(CALLS if asked.rows else PROGRAM, edits)
    except (NotKept, OSError) as why:
        sys.exit(f"check noticed: the program was not built: {why}")
    of = of_rows if asked.rows else of_limits if asked.limits else of_cases
    every = of(program)
    wrong = [name for name, differs in every.items() if differs(0)]
    trials = {name: it for name, it in every.items() if name not in wrong}
    for name in wrong:
        print(f"without a bug {name} ends otherwise, and is left out")
    total = Counter[str]()
    for crate, some in chosen(edits, asked.edit):
        counts = try_crate(crate, some, has, trials)
        print(f"{crate}: {counts['noticed']} of {len(some)} noticed, {counts['not tried']} not tried", flush=True)
        total += counts
    tried = total.total() - total["not tried"]
    print(f"check noticed: {total['noticed']} of {tried} planted bugs are noticed, {total['not tried']} not tried")
    return 1 if wrong else 0
