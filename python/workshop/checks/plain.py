"""A plain program in Rust, written from the rules without proofs, prints what is stored (half a minute): ./check plain [--beside FILE INPUT..]

`tools/plain` is there so that the proved program can be compared with what one writes who proves nothing (docs/PERFORMANCE.md). It is
an independent program, too: this builds it with `rustc` and compares its output with what is stored of examples/ and cases/, with
their options. With --beside, it is also run on further inputs beside another program, such as the proved one, whose output and
status it has to have. What the plain program leaves out is counted apart: options that it doesn't have, and the documents of
topologies that are refused or that it doesn't read. It is not part of the gate.
"""

from __future__ import annotations

import subprocess
from collections import Counter
from collections.abc import Iterable, Iterator, Sequence

from dorydate.explore import fast
from workshop.checks.cases import cases_below
from workshop.parts import ROOT
from workshop.words import Words

LEFT_OUT = ("--log", "--trace", "--audit", "--live")


def ended(program: str, options: Iterable[str], octets: bytes) -> tuple[int, bytes, str]:
    """How a program ends on an input: its status, what it prints, and what it says."""
    ran = subprocess.run([program, *options], input=octets, capture_output=True, check=False)
    return ran.returncode, ran.stdout, ran.stderr.decode(errors="backslashreplace")


def stored(program: str) -> Iterator[tuple[str, str]]:
    """Of each stored input its name, and "same", "differs" or "left out"."""
    for folder in ("examples", "cases"):
        for case in cases_below(f"{ROOT}/{folder}"):
            options = (case.args or b"").decode().split("\n")
            wanted = case.status, case.printed, case.words
            if any(it in LEFT_OUT for it in options):
                yield f"{folder}: {case.name}", "left out"
            elif ended(program, filter(None, options), case.octets) == wanted:
                yield f"{folder}: {case.name}", "same"
            else:
                yield f"{folder}: {case.name}", "left out" if "topology" in case.words else "differs"


def beside(program: str, other: str, paths: Sequence[str]) -> Iterator[tuple[str, str]]:
    """The same of further inputs, beside another program."""
    for path in paths:
        with open(path, "rb") as file:
            octets = file.read()
        yield path, "same" if ended(program, [], octets) == ended(other, [], octets) else "differs"


def main() -> int:
    words = Words(__doc__)
    beside_it = "also beside this program, on further inputs"
    words.add_argument("--beside", nargs="+", metavar=("FILE", "INPUT"), help=beside_it)
    other = words.asked().beside
    program = fast.finder()
    told = [*stored(program)]
    if other:
        told += beside(program, other[0], other[1:])
    for name, how in told:
        if how == "differs":
            print(f"differs: {name}")
    for name, count in Counter(name.split("-row-")[0] for name, how in told if how == "left out").items():
        print(f"left out: {name}" + (f", {count} rows" if count > 1 else ""))
    counts = [sum(how == it for _, how in told) for it in ("same", "differs", "left out")]
    print("check plain: {} the same, {} differ, {} left out".format(*counts))
    return 1 if counts[1] else 0

