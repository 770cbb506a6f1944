"""How fast long texts are, beside an earlier state: ./measure texts OTHER [ROUNDS]

OTHER is a clone at another commit, the earlier one. ./build has to be run in both before. The two are measured in turn,
so that a busy machine slows both.

- A script of near 1,048,576 octets, whose messages have texts of 8,063 bits. Each message is sent, taken and answered.
  The texts are random, the same ones each time. What is printed has to be the same. Told are the processor time,
  from the start of the process to its end, and the most memory that the process held.
- The public calls pad16, strip, cut, write and read, on a body of 8,064 bits: the processor time of a call. They are
  called by tools/texts.rs, which is proved and built for each state in a temporary folder, over copies of the crates that
  it uses and of what their checks kept (`rt check` in crates/packetiser of both clones saves minutes).

It wants GNU time at /usr/bin/time, which says how much memory a process held. It is not part of the gate.
"""

from __future__ import annotations

import os
import random
import re
import shutil
import statistics
import subprocess
import sys
import tempfile
from collections.abc import Sequence

from workshop.builds.drivers import crates_below
from workshop.measure import MOST_OCTETS, most_memory, processor_time, written
from workshop.parts import ROOT, proved_program
from workshop.words import Words

TEXT_BITS = 8063
TOPOLOGY = 'carrier = "plain"\nraw = true\n[[imp]]\nid = 1\nhosts = 1\n[[imp]]\nid = 2\nhosts = 1\n%\n'
CALLS = {"pad16": 20_000, "strip": 20_000, "cut": 8_000, "write": 8_000, "read": 8_000}


def long_texts() -> tuple[str, int]:
    """A script of as many messages as an input has room for, and their number."""
    chance = random.Random(8063)
    lines, size = [TOPOLOGY], len(TOPOLOGY)
    while True:
        octets = chance.getrandbits(TEXT_BITS) << -TEXT_BITS % 8
        line = f"out 0/1 0/2 5 {TEXT_BITS} {octets:0{-(-TEXT_BITS // 8) * 2}X}\ntake 0/2\ntake 0/1\n"
        if size + len(line) > MOST_OCTETS:
            return "".join(lines), len(lines) - 1
        lines.append(line)
        size += len(line)


def told(name: str, before: float, after: float, *, unit: str) -> None:
    """Prints a row: both values and how many times the first is the second."""
    shown = [f"{value:,.0f}" if value >= 100 else f"{value:.2f}" for value in (before, after)]
    print(f"| {name} | {shown[0]} {unit} | {shown[1]} {unit} | {before / after:.1f} |", flush=True)


def measure_script(programs: Sequence[str], folder: str, rounds: int) -> None:
    """Runs the script of long texts in both states."""
    text, count = long_texts()
    source = written(folder, "script", text)
    held = [most_memory(program, source) for program in programs]
    if held[0][1] != held[1][1] or held[0][1].count(b"\n") != 3 * count + 1:
        sys.exit("measure texts: the two programs print something else")
    times: list[list[float]] = [[], []]
    for _ in range(rounds):
        for taken, program in zip(times, programs):
            taken.append(1000 * processor_time([program], source))
    name = f"a script of {len(text):,} octets, {count} messages"
    told(f"{name}: median", *(statistics.median(it) for it in times), unit="ms")
    told(f"{name}: best", *(min(it) for it in times), unit="ms")
    told(f"{name}: most memory", held[0][0], held[1][0], unit="KiB")


def caller(root: str, folder: str) -> str:
    """Proves and builds tools/texts.rs over the crates of a clone."""
    with open(f"{root}/crates.txt", encoding="utf-8") as file:
        lines: dict[str, str] = dict(re.findall(r"^(\w+):(.*)$", file.read(), re.MULTILINE))
    needed = crates_below({name: below.split() for name, below in lines.items()}, "packetiser")
    os.makedirs(f"{folder}/crates/texts/src")
    shutil.copy(f"{ROOT}/tools/texts.rs", f"{folder}/crates/texts/src/main.rt")
    for name in needed:
        shutil.copytree(f"{root}/crates/{name}", f"{folder}/crates/{name}", symlinks=True)
    with open(f"{folder}/crates.txt", "w", encoding="utf-8") as file:
        file.writelines(f"{name}:{lines[name]}\n" for name in needed)
        file.write("texts: bit_messages interface packetiser\n")
    ran = subprocess.run(["rt", "run", "--", "pad16", "0"], cwd=f"{folder}/crates/texts", capture_output=True, text=True)
    if ran.returncode != 0:
        sys.exit(f"measure texts: tools/texts.rs is not proved over {root}:\n{ran.stderr[-2000:]}")
    return f"{folder}/crates/texts/out/texts"


def call_time(program: str, call: str, count: int) -> float:
    """How many microseconds of the processor a call takes."""
    start = processor_time([program, call, "0"])
    return 1_000_000 * (processor_time([program, call, str(count)]) - start) / count


def measure_calls(programs: Sequence[str], rounds: int) -> None:
    """Makes each public call in both states, so often that each state takes about the same time."""
    for call, count in CALLS.items():
        times: list[list[float]] = [[], []]
        for _ in range(rounds):
            times[0].append(call_time(programs[0], call, count))
            times[1].append(call_time(programs[1], call, 20 * count))
        told(f"`{call}`: median", *(statistics.median(it) for it in times), unit="us")


def main() -> None:
    words = Words(__doc__)
    words.add_argument("other", metavar="OTHER", help="a clone at another commit")
    asked = words.count("rounds", 21, "how often each is run").asked()
    roots, rounds = [os.path.realpath(asked.other), ROOT], asked.rounds
    programs = [proved_program(root) for root in roots]
    with tempfile.TemporaryDirectory() as folder:
        print("| Measured | Before | After | Times |\n|---|---|---|---|")
        measure_script(programs, folder, rounds)
        callers = [caller(root, f"{folder}/{name}") for root, name in zip(roots, ("before", "after"))]
        measure_calls(callers, max(3, rounds // 3))
