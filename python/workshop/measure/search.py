"""States and steps a second of searches of all states, by the program's trace and by the plain program (minutes): ./measure search [SECONDS] [--write]

Both walk through all lists of all events of five networks, with calms of one round, for SECONDS of one processor (60).
Printed are the greatest length of which all lists were looked at, and the states and steps to there; and what the
searches with names take, by the plain program. With --write docs/measured/search.md has them.
"""

from __future__ import annotations

import os
import resource
import subprocess
import tempfile
import time
from collections.abc import Callable, Iterator
from dataclasses import replace
from functools import partial
from pathlib import Path

from dorydate.explore import fast
from dorydate.explore.breadth import Asked, Walk
from dorydate.explore.named import SEARCHES
from dorydate.explore.pattern import read
from dorydate.program import Program
from workshop.checks.campaigns import spent as spent_by
from workshop.checks.shortest import BESIDE, CLAIMS, asked
from workshop.parts import ROOT, any_program
from workshop.words import Words

PAGE = f"{ROOT}/docs/measured/search.md"
DEEPEST = 40
MEGABYTES = 3000
COUNTED = "States | Steps | Steps a second"
FEW = 100_000  # steps: a search with fewer ends too soon to be measured


def spent() -> float:
    """The seconds of the processor that this process and those that it has run have used."""
    it = os.times()
    return it.user + it.system + it.children_user + it.children_system


def by_trace(asked: Asked, program: Program, seconds: float) -> str:
    """What a walk by the trace comes to, as cells of the table."""
    walk = Walk(asked.network, asked.pattern, program, asked.events, asked.opening)
    walk.clock = spent
    walk.run(asked.depth, seconds)
    if not walk.counts:
        return "none | | | "
    last, steps = walk.counts[-1], sum(it.steps for it in walk.counts)
    return cells(last.depth, not last.new, last.states, steps, last.seconds)


def by_plain(asked: Asked, finder: str, seconds: float) -> str:
    """What the plain program comes to."""
    answer, used = fast.Answer(), 0.0
    limit: Callable[[], None] = partial(resource.setrlimit, resource.RLIMIT_CPU, (int(seconds), int(seconds)))
    words = [finder, "--search", "--depth", str(asked.depth), "--seconds", "1000000", "--megabytes", str(MEGABYTES)]
    with tempfile.TemporaryFile() as given:
        given.write(fast.input_of(asked))
        given.seek(0)
        with subprocess.Popen(words, stdin=given, stdout=subprocess.PIPE, preexec_fn=limit, text=True) as running:
            assert running.stdout is not None
            for line in running.stdout:
                used = max(used, spent_by(running.pid)) if answer.take(line) else used
    whole = [it for it in answer.levels if it.depth <= answer.whole]
    return cells(answer.whole, answer.is_all, whole[-1].states, sum(it.steps for it in whole), used)


def of_names(finder: str) -> Iterator[str]:
    """Rows of what the searches with names take, by the plain program."""
    for claim in CLAIMS:
        before = spent()
        answer = fast.searched(asked(claim.network, read(SEARCHES[claim.name].pattern), claim.depth), program=finder)
        seconds, steps = spent() - before, sum(it.steps for it in answer.levels)
        if steps >= FEW:
            states = answer.levels[-1].states
            yield f"| {claim.name} | {claim.where} | {states:,} | {steps:,} | {seconds:.1f} | {steps / seconds:,.0f} |"


def cells(depth: int, is_all: bool, states: int, steps: int, seconds: float) -> str:
    rate = f"{steps / seconds:,.0f}" if seconds >= 0.01 else ""
    return f"{'all' if is_all else depth} | {states:,} | {steps:,} | {rate}"


def page(rows: list[str], names: list[str], seconds: float, path: str) -> str:
    """The page of both tables."""
    day, whose = time.strftime("%d %B %Y").lstrip("0"), " without proofs" if "unproved" in path else ""
    return "\n".join(
        [
            "# What searches of all states cost",
            "",
            f"`./measure search --write` has written this page on {day}: all lists of these events, for {seconds:.0f} seconds "
            f"of one processor each, by the trace of the program{whose} and by the plain program. *All*: there are no further "
            "states. Seconds are those of the processor up to that length. What it means: "
            "[the explorer](../python.md#all-states).",
            "",
            f"| Network | Events | Length, by the program | {COUNTED} | Length, by the plain program | {COUNTED} |",
            f"{'|---' * 10}|",
            *rows,
            "",
            "Searches with names, by the plain program with all events ([the table](shortest.md)):",
            "",
            "| Search | Network | States | Steps | Seconds | Steps a second |",
            f"{'|---' * 6}|",
            *names,
            "",
        ]
    )


def main() -> int:
    words = Words(__doc__).flag("write", "write the page")
    words.add_argument("seconds", nargs="?", type=float, default=60.0, metavar="SECONDS", help="for each search")
    asked = words.asked()
    seconds = asked.seconds
    path = os.environ.get("DORYDATE_PROGRAM") or any_program()
    if path is None:
        print("measure search: there is no program of these sources: ./build makes it")
        return 1
    program, finder = Program(path), fast.finder()
    rows, names = [], []
    for where, what in BESIDE.items():
        deep = replace(what, depth=DEEPEST)
        both = f"{by_trace(deep, program, seconds)} | {by_plain(deep, finder, seconds)}"
        rows.append(f"| {where} | {len(what.events)} | {both} |")
        print(rows[-1], flush=True)
    for row in of_names(finder):
        names.append(row)
        print(row, flush=True)
    if asked.write:
        Path(PAGE).write_text(page(rows, names, seconds, path), encoding="utf-8")
    return 0
