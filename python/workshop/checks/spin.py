"""SPIN's states of three models written from the pages: mailboxes, numbers, the initial connection (a minute): ./check spin [--write]

The models are in tools/spin. SPIN looks at all their states, breadth first and without reductions; what it counts has to be what
docs/measured/spin.md has, which --write writes anew. Of plain mailboxes the program's own trace has to have as many states. It is not part of
the gate. Where SPIN is missing and this may be done, it is installed (Debian's package spin).
"""

from __future__ import annotations

import os
import re
import shutil
import subprocess
import sys
import tempfile
from collections.abc import Iterator
from dataclasses import dataclass
from pathlib import Path

from dorydate.explore.beside import walked
from dorydate.explore.breadth import Asked
from dorydate.explore.pattern import Pattern
from dorydate.network import Network
from dorydate.program import Program
from dorydate.script import Flow, GiveUp, HostDown, HostUp, Out, Take, Text
from workshop.parts import ROOT, any_program
from workshop.words import Words

MODELS = f"{ROOT}/tools/spin"
PAGE = f"{ROOT}/docs/measured/spin.md"
SMALL, STOPS = ("NUMBERS=5", "WINDOW=2"), "STOPS"
MOST_DEPTH = 60


@dataclass(frozen=True)
class Run:
    """A run of a model: what it is about, in words, its definitions, and whether an assertion has to fail."""

    model: str
    what: str
    words: tuple[str, ...] = ()
    fails: bool = False


RUNS = [
    Run("mailboxes", "one link each way", ()),
    Run("mailboxes", "one link each way, and each host to itself", ("OWN",)),
    Run("mailboxes", "two links each way", ("LINKS=2",)),
    Run("mailboxes", "one link, with the table of boxes", ("BOXES",)),
    Run("mailboxes", "and each host to itself, with the table of boxes", ("BOXES", "OWN")),
    Run("mailboxes", "two links, with the table of boxes", ("BOXES", "LINKS=2")),
    Run("mailboxes", "without the rule: a host comes up when none of its messages waits", ("BOXES", "UNSETTLED"), True),
    Run("mailboxes", "without the rule: a link is blocked until its answer was taken", ("BOXES", "UNBLOCKED"), True),
    Run("numbers", "5 numbers, a window of 2, stops", (*SMALL, STOPS)),
    Run("numbers", "3 numbers, a window of 1, stops", ("NUMBERS=3", "WINDOW=1", STOPS)),
    Run("numbers", "5 and 2: questions may live when a message is given up", (*SMALL, STOPS, "QUESTIONS_MAY_LIVE")),
    Run("numbers", "5 and 2: and where the destination's IMP comes up or forgets", (*SMALL, STOPS, "QUESTIONS_MAY_STAY")),
    Run("numbers", "5 and 2: both", (*SMALL, STOPS, "QUESTIONS_MAY_LIVE", "QUESTIONS_MAY_STAY")),
    Run("numbers", "3 and 1: both", ("NUMBERS=3", "WINDOW=1", STOPS, "QUESTIONS_MAY_LIVE", "QUESTIONS_MAY_STAY")),
    Run("numbers", "without the rule: the number of a whole message is noted", (*SMALL, STOPS, "UNNOTED"), True),
    Run("numbers", "without the rule: a message is given up only when nothing of it is alive", (*SMALL, STOPS, "HASTY"), True),
    Run("numbers", "without the rule: an IMP comes up only when nothing of it is alive", (*SMALL, STOPS, "AT_ONCE"), True),
    Run("numbers", "without the rule: a number that is new is noted when it is asked about", (*SMALL, STOPS, "ASKED_UNNOTED"), True),
    Run("numbers", "without the rule: a question about a message that waits isn't answered", (*SMALL, STOPS, "IMPATIENT"), True),
    Run("numbers", "without the rule: no number is begun while the one a window before is alive", (*SMALL, STOPS, "NO_WINDOW"), True),
    Run("numbers", "without the rule: no number is begun that the destination's IMP keeps", (*SMALL, STOPS, "BEGINS_KEPT"), True),
    Run("initial-connection", "two users ask one server", ()),
    Run("initial-connection", "hosts may be reset", ("RESETS",)),
    Run("initial-connection", "a stranger guesses the server's sockets", ("STRANGER",)),
    Run("initial-connection", "a stranger, and resets", ("STRANGER", "RESETS")),
    Run("initial-connection", "without the rule: the server looks whose connections it has", ("STRANGER", "UNCHECKED"), True),
]


@dataclass(frozen=True)
class Seen:
    """What SPIN saw: states, the depth of the search, and whether an assertion failed or a state had no way on."""

    states: int
    depth: int
    errors: int


def spin() -> bool:
    """Whether SPIN and a compiler are there. SPIN is installed where that may be done."""
    if not shutil.which("spin") and os.geteuid() == 0 and shutil.which("apt-get"):
        subprocess.run(["apt-get", "install", "-y", "-qq", "spin"], capture_output=True, env={**os.environ, "DEBIAN_FRONTEND": "noninteractive"}, check=False)
    return bool(shutil.which("spin") and shutil.which("gcc"))


def seen(run: Run) -> Seen:
    """What SPIN says of a run."""
    with tempfile.TemporaryDirectory() as room:
        shutil.copy(f"{MODELS}/{run.model}.pml", f"{room}/model.pml")
        commands = [
            ["spin", *(f"-D{it}" for it in run.words), "-a", "model.pml"],
            ["gcc", "-O1", "-w", "-DBFS", "-DNOREDUCE", "-DVECTORSZ=2048", "-o", "pan", "pan.c"],
            ["./pan"],
        ]
        for command in commands:
            ran = subprocess.run(command, cwd=room, capture_output=True, text=True, check=False)
            if ran.returncode:
                sys.exit(f"check spin: {run.model}, {run.what}: {' '.join(command[:2])} says {(ran.stdout + ran.stderr).strip()[:300]}")
    counts = [re.search(words, ran.stdout) for words in (r"(\d+) states, stored", r"depth reached (\d+)", r"errors: (\d+)")]
    states, depth, errors = (int(it[1]) if it else -1 for it in counts)
    return Seen(states, depth, errors)


def by_trace(program: Program) -> Iterator[tuple[str, int]]:
    """The number of states of plain mailboxes, by the program's trace."""
    network = Network.joined("A", "B", raw=True, carrier="plain")
    hosts = network.hosts()
    for what, links, own in (("one link each way", 1, False), ("one link each way, and each host to itself", 1, True), ("two links each way", 2, False)):
        flows = [Flow(a, b, link) for a in hosts for b in hosts if own or a != b for link in range(links)]
        events = (*(Out(it, Text()) for it in flows), *map(GiveUp, flows), *map(Take, hosts), *map(HostDown, hosts), *map(HostUp, hosts))
        yield what, len(walked(Asked(network, Pattern("", ()), (), events, MOST_DEPTH, 600.0), program).states)


def page(found: list[tuple[Run, Seen]], traced: dict[str, int]) -> str:
    """The page of what SPIN counted."""
    rows = []
    for run, it in found:
        own = f"{traced[run.what]:,}" if run.model == "mailboxes" and run.what in traced else ""
        ended = f"an assertion fails after {it.depth + 1} events" if it.errors else f"no error to depth {it.depth}"
        rows.append(f"| {run.model} | {run.what} | {it.states:,} | {own} | {ended} |")
    return "\n".join(
        [
            "# What SPIN counts",
            "",
            "`./check spin --write` has written this page: all states of the models in `tools/spin`, breadth first and without reductions. They were written from [mailboxes](../mailboxes.md), [numbers](../numbers.md), [the law of one flow](../flow-law.md) and [the initial connection](../initial-connection.md), in another language, and not from the definitions. Assertions are the table of boxes, and that a server and its user are connected with each other. Where a rule is left out one fails, and the depth is that of the shortest failure. *By the trace*: as many states as the program's own trace has.",
            "",
            "| Model | What | States | By the trace | |",
            "|---|---|---|---|---|",
            *rows,
            "",
            "In the initial connection a user may wait for ever: one that asks a server which has already failed. Its socket still listens, so the connection opens, and nothing is sent on it.",
            "",
        ]
    )


def main() -> int:
    asked = Words(__doc__).flag("write", "write the page of what SPIN counts").asked()
    if not spin():
        print("check spin: SPIN or gcc is not installed, so nothing was looked at (apt-get install spin gcc)")
        return 0
    path = os.environ.get("DORYDATE_PROGRAM") or any_program()
    if path is None:
        print("check spin: there is no program of these sources: ./build makes it")
        return 1
    found = [(it, seen(it)) for it in RUNS]
    wrong = [f"{run.model}, {run.what}: {it}" for run, it in found if bool(it.errors) != run.fails]
    traced = dict(by_trace(Program(path)))
    for run, it in found:
        if run.model == "mailboxes" and run.what in traced and traced[run.what] != it.states:
            wrong.append(f"{run.what}: {it.states} states by SPIN, {traced[run.what]} by the trace")
    made = page(found, traced)
    if asked.write:
        Path(PAGE).write_text(made, encoding="utf-8")
    elif not os.path.isfile(PAGE) or Path(PAGE).read_text(encoding="utf-8") != made:
        wrong.append("docs/measured/spin.md is not what SPIN counts: ./check spin --write")
    print(*[f"check spin: {it}" for it in wrong], f"check spin: {len(RUNS)} runs, {len(wrong)} faults", sep="\n")
    return 1 if wrong else 0
