"""Runs stored inputs through the program and compares how each of them ends: python3 python cases FOLDER..

It takes the proved program, or where ./build has not made that the one that was built without proofs, which is slow.

A file NAME of a folder, or of a folder below it, is an input, but for programs (.py, .c). Beside it may be

- NAME.args: the options, one a line
- NAME.stdout: what is printed; without this file, nothing
- NAME.stderr and NAME.status: the line on standard error and the exit status; without these files, nothing and 0
- NAME.rows: a table of inputs that end alike. NAME is then the beginning that they share, and is no input itself; each
  line of NAME.rows is what follows it in one of them. Such a line is octets between double quotes, with the escapes
  of Python and Rust; `"x"*9` is nine times x, and texts that are separated by blanks follow each other. Lines
  that begin with # are ignored, and so are empty lines.
"""

from __future__ import annotations

import ast
import os
import re
from collections.abc import Iterator
from concurrent.futures import ThreadPoolExecutor
from dataclasses import dataclass

from workshop.limited import NotEnded, run_within
from workshop.parts import any_program
from workshop.rows import FOLDER as CALLS
from workshop.words import Words

SECONDS = 120  # of the processor, for one input
PART = re.compile(r'("(?:[^"\\]|\\.)*")(?:\*(\d+))?(?: +|$)')
BESIDE = (".args", ".stdout", ".stderr", ".status", ".rows")


class Wrong(Exception):
    """What is wrong with the stored files."""


def octets_of(path: str) -> bytes | None:
    """The content of a file, or None where there is no such file."""
    if not os.path.exists(path):
        return None
    with open(path, "rb") as file:
        return file.read()


def row_of(line: str) -> bytes:
    """The octets that a line of a table spells."""
    octets, place = b"", 0
    while place < len(line):
        part = PART.match(line, place)
        if not part:
            raise Wrong(f"no row: {line}")
        octets += ast.literal_eval("b" + part[1]) * int(part[2] or 1)
        place = part.end()
    return octets


def rows_of(table: bytes) -> list[bytes]:
    """The rows of a table, in its order."""
    return [row_of(it) for it in table.decode("ascii").splitlines() if it and not it.startswith("#")]


@dataclass(frozen=True)
class Case:
    """An input, its options, and how it is to end."""

    name: str
    octets: bytes
    args: bytes | None
    printed: bytes
    words: str
    status: int

    @staticmethod
    def read(name: str, octets: bytes, path: str) -> Case:
        """The case of an input, with what is stored beside a file."""
        printed, words = octets_of(path + ".stdout") or b"", (octets_of(path + ".stderr") or b"").decode()
        options = octets_of(path + ".args")
        if printed and words and options != b"--live\n":
            raise Wrong(f"{name}: an input that is refused prints nothing, but in a session")
        return Case(name, octets, options, printed, words, int(octets_of(path + ".status") or 0))

    def differs(self, program: str, may_help: bool = False) -> str | None:
        """How what comes of the case differs from what is stored, or None. A form that `may_help` says more after a fault."""
        words = [os.fsencode(program), *(self.args or b"").splitlines()]
        try:
            ran = run_within(words, self.octets, SECONDS)
        except NotEnded as why:
            return str(why)
        if ran.returncode != self.status:
            return f"status {ran.returncode}, wanted {self.status}"
        fault, end, help_ = ran.stderr.decode(errors="backslashreplace").partition("\n")
        helps = may_help and all(it.startswith("arpasim: ") for it in help_.splitlines())
        if fault + end != self.words or help_ and not helps:
            return f"standard error: {ran.stderr!r}, wanted {self.words!r}"
        if ran.stdout == self.printed:
            return None
        pairs = zip(ran.stdout.splitlines(), self.printed.splitlines())
        line = next((at for at, (one, other) in enumerate(pairs, 1) if one != other), None)
        return f"line {line} differs" if line else f"{len(ran.stdout)} octets are printed, wanted {len(self.printed)}"


def cases_below(folder: str) -> Iterator[Case]:
    """The cases of a folder, by name."""
    for place, _, files in sorted(os.walk(folder)):
        for file in sorted(it for it in files if not it.endswith((*BESIDE, ".py", ".c"))):
            path = f"{place}/{file}"
            name = os.path.relpath(path, folder).replace("/", "-")
            head, table = octets_of(path) or b"", octets_of(path + ".rows")
            if table is None:
                yield Case.read(name, head, path)
            else:
                for number, row in enumerate(rows_of(table), start=1):
                    yield Case.read(f"{name}-row-{number}", head + row, path)


def stray_files(folder: str) -> Iterator[str]:
    """Files beside an input that is not there. Calls, of which `./check rows` has a file each, are no inputs."""
    for place, _, files in os.walk(folder):
        if os.path.realpath(place) == CALLS:
            continue
        yield from (f"{place}/{it}" for it in files if it.endswith(BESIDE) and os.path.splitext(it)[0] not in files)


def run() -> int:
    """Runs the cases of these folders. The status is 0 if each ended as it should."""
    folders = Words(__doc__).names("folder", "folders of stored inputs").asked().folder
    try:
        stray = [it for folder in folders for it in stray_files(folder)]
        if stray:
            raise Wrong(f"no input beside {', '.join(stray)}")
        cases = [case for folder in folders for case in cases_below(folder)]
        if len({case.name for case in cases}) < len(cases):
            raise Wrong("two cases have one name")
    except Wrong as wrong:
        print(f"cases: {wrong}")
        return 1
    program = any_program()
    if not program:
        print("cases: there is no program of these sources")
        return 1
    with ThreadPoolExecutor(os.cpu_count()) as threads:
        ends = threads.map(Case.differs, cases, [program] * len(cases))
        differing = [f"{case.name}: {how}" for case, how in zip(cases, ends) if how]
    print(*differing, sep="\n", end="\n" if differing else "")
    print(f"cases: {len(cases)} inputs, of which {len(differing)} differ" if differing else f"cases: {len(cases)} inputs, each as stored")
    return 1 if differing else 0

