"""What ./arpasim takes beyond the program itself, when nothing has changed: ./measure start [ROUNDS]

The processor time of `./arpasim < examples/first-message`, with the processes that it starts, less that of the program that it runs, in turn
with it. Prints the least and the median of the rounds, since other work on the machine makes each of them longer.
"""

from __future__ import annotations

import os
import resource
import statistics
import subprocess
import sys

from workshop.parts import ROOT, any_program
from workshop.words import Words


def taken(words: list[str], given: str) -> float:
    """Milliseconds of the processor that a command and what it starts take."""
    before = resource.getrusage(resource.RUSAGE_CHILDREN)
    with open(given, "rb") as octets:
        subprocess.run(words, stdin=octets, stdout=subprocess.DEVNULL, stderr=subprocess.DEVNULL, check=True)
    after = resource.getrusage(resource.RUSAGE_CHILDREN)
    return 1000 * (after.ru_utime + after.ru_stime - before.ru_utime - before.ru_stime)


def main() -> None:
    rounds = Words(__doc__).count("rounds", 50, "how often each is run").asked().rounds
    program, given = any_program(), f"{ROOT}/examples/first-message"
    if not program:
        sys.exit("measure start: there is no program of these sources")
    taken([f"{ROOT}/arpasim"], given)
    fronts, programs = zip(*((taken([f"{ROOT}/arpasim"], given), taken([program], given)) for _ in range(rounds)))
    least = min(fronts) - min(programs)
    median = statistics.median(fronts) - statistics.median(programs)
    load = os.getloadavg()[0]
    print(f"./arpasim beyond its program: {least:.1f} ms at least, {median:.1f} ms by the medians of {rounds} rounds, at a load of {load:.0f}")
