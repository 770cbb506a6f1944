"""What the program prints for each event of an input.

It is run on the whole input, and then on the same events with marks between them (dorydate.marks). Without the marks both runs have to print the
same. A script for which there are no marks is run once for each event, on its first part that ends there.
"""

from __future__ import annotations

import os
import re
import shutil
import subprocess
import sys
import tempfile
from collections.abc import Iterable, Iterator, Sequence
from concurrent.futures import ThreadPoolExecutor
from dataclasses import dataclass
from itertools import chain, islice

from dorydate.given import Input, is_event
from dorydate.explain.topology import network_by
from dorydate.marks import LAST, Marked, Unmarked, each_printed, mark_for
from dorydate.program import SECONDS, UNLIMITED, NoProgram, Program, Ran, TookTooLong
from dorydate.where import ROOT, found, repository

MOST_TRIED = 64_000_000  # octets of inputs that are run without a kept program
LONG_CALM = re.compile(rb"^foreign\b.*?^%$.*?^(calm \d{6,})$", re.MULTILINE | re.DOTALL)  # of a network with strangers
Ended = tuple[int, bytes, str]  # the status of a run, its output, and what it said on standard error


class CannotTell(Exception):
    """Why there is nothing to say."""


@dataclass(frozen=True)
class Happened:
    """An event: the number of its line in the file, its words, and the lines that it printed."""

    number: int
    words: list[str]
    printed: list[str]


@dataclass(frozen=True)
class Replayed:
    """How the program ended on an input: its status, what it said, and each event."""

    status: int
    said: str
    events: list[Happened]


def kept_program() -> Program | None:
    """The program of this machine; None in a clone where none can be kept, so that it is built for this call."""
    try:
        return found()
    except NoProgram:
        if repository() is not None and shutil.which("rt") is not None:
            return None
        raise


def ran(program: Program, octets: bytes, *options: str) -> Ran:
    """A run to its end. Where a stranger's IMP has no place for a message, a calm may have billions of rounds: such a run is stopped."""
    calm = LONG_CALM.search(octets)
    try:
        return program.run(octets, *options, seconds=SECONDS if calm else UNLIMITED)
    except TookTooLong as why:
        passing = "may pass while a stranger's IMP has no place for a message: give it fewer"
        said = f"; all rounds of `{calm[1].decode()}` {passing}" if calm else ""
        raise CannotTell(f"{why}{said}") from None


def answers(program: Program, inputs: Iterable[bytes], options: Sequence[str] = ()) -> Iterator[Ended]:
    """How the program ends on each of these inputs, in turn."""

    def run(octets: bytes) -> Ended:
        ended = ran(program, octets, *options)
        return ended.status, ended.output.encode("latin-1"), ended.said

    left = iter(inputs)
    with ThreadPoolExecutor(os.cpu_count()) as pool:
        while some := list(islice(left, 64)):
            yield from pool.map(run, some)


def answers_without_proofs(inputs: Iterable[bytes]) -> Iterator[Ended]:
    """The same by `rt try`, which builds the program without proofs, once for all inputs."""
    print("explain: building without proofs for this call only", file=sys.stderr)
    with tempfile.TemporaryDirectory() as cases:
        number, octets = 0, 0
        for number, given in enumerate(inputs, 1):
            octets += len(given)
            if octets > MOST_TRIED:
                raise CannotTell("this input is too long for a program that is not kept: run ./build first")
            with open(f"{cases}/{number:06}", "wb") as case:
                case.write(given)
        try:
            tried = subprocess.run(["rt", "try", "--cases", cases], cwd=f"{ROOT}/crates/arpasim", capture_output=True)
        except FileNotFoundError:
            raise CannotTell("the toolchain's command rt is not on the path") from None
    ended = ends_of_cases(tried.stdout, tried.stderr.decode())
    if len(ended) != number:
        raise CannotTell(f"`rt try` did not run the program on this input:\n{tried.stderr.decode()}")
    return iter(ended)


def ends_of_cases(output: bytes, notes: str) -> list[Ended]:
    """How each case ended, by what `rt try` prints of all."""
    outputs: dict[str, bytes] = {}
    name = ""
    for line in output.splitlines(keepends=True):
        if line.startswith(b"== "):
            name = line[3:].decode().strip()
            outputs[name] = b""
        else:
            outputs[name] += line
    ended: list[Ended] = []
    said = ""
    for note in notes.splitlines(keepends=True):
        if found := re.match(r"case=(\d+) run=ended status=(\d+)", note):
            ended.append((int(found[2]), outputs.get(found[1], b""), said))
        said = said + note if note.startswith("arpasim: ") else ""
    return ended


def replay(given: Input, program: Program | None) -> Replayed:
    """How the program ends on the input, and what each event printed."""
    events = [(number, line) for number, line in given.script if is_event(line)]
    lines = [line for _, line in events]
    network = network_by(given)
    marked = Marked(given.topology(), lines, mark_for(map(str, network.hosts()), lines) if network else None)
    parts = [*marked.parts()]
    inputs = chain([given.octets], map(marked.input, parts))
    ended = answers(program, inputs) if program else answers_without_proofs(inputs)
    status, whole, said = next(ended)
    if status != 0:
        return Replayed(status, said, [])
    try:
        printed = each_printed(parts, (output.decode() for _, output, _ in ended))
    except Unmarked as why:
        raise CannotTell(str(why)) from None
    if [*chain.from_iterable(printed), LAST] != whole.decode().splitlines():
        raise CannotTell("with marks between its events, the script prints something else than without them")
    return Replayed(0, said, [Happened(number, line.decode().split(" "), its) for (number, line), its in zip(events, printed)])


def lives(given: Input, program: Program | None, raw: bool) -> list[str]:
    """The lines of the book, of a network with host programs and a kept program."""
    if program is None or raw:
        return []
    ((_, output, _),) = answers(program, [given.octets], ["--book"])
    return [line for line in output.decode().splitlines() if line.startswith("life ")]
