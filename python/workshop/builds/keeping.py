"""Builds the program of the present sources without proofs and keeps it, as out/HASH/arpasim-unproved (tools/kept-program).

Beside it, as arpasim-unproved.bc, the module is kept that LLVM made it of, for ./build --wasm. How is in python/workshop/builds/unproved.py. What is built is kept only if it prints the right lines when it is run on the first example by
itself, and if the sources are still the same. What was kept of other sources is removed.
"""

from __future__ import annotations

import signal
import sys

from workshop.builds.unproved import NotKept, build, keep, kept_for_sources
from workshop.parts import ROOT
from workshop.words import Words

EXAMPLE = f"{ROOT}/examples/first-message"


def make(room: str) -> None:
    """Builds the program into a folder."""
    with open(EXAMPLE, "rb") as octets, open(f"{EXAMPLE}.stdout", "rb") as wanted:
        build(f"{ROOT}/crates/arpasim", octets.read(), wanted.read(), room, ("program", "module.bc"))


def main() -> int:
    Words(__doc__).asked()
    for number in (signal.SIGTERM, signal.SIGHUP, signal.SIGINT):
        signal.signal(number, lambda number, _: sys.exit(128 + number))
    try:
        keep(lambda: f"{kept_for_sources()}-unproved", make)
    except (NotKept, OSError) as why:
        print(f"keep-unproved: {why}", file=sys.stderr)
        return 1
    return 0

