"""How fast plain mailboxes are with many messages waiting, beside an earlier state: ./measure boxes [--program FILE] OTHER [ROUNDS]

OTHER is a clone at another commit, the earlier one, or its program. ./build has to be run in both before, or FILE is the
program of this state. The two are measured in turn, so that a busy machine slows both.

The scripts fit into an input. They begin with as many messages as have room, which wait for 35 hosts, and then

- a host for which nothing waits takes, again and again;
- the messages are given up, the newest first, or the oldest first;
- a message is offered on each flow again, and refused;
- a host that has sent nothing stops and starts, and one whose message waits stops and may not start again.

What is missing of the lines is filled with takes of a host for which nothing waits.

Each script is measured at 6,000 and at 60,000 lines: the processor time from the start of the process to its end, the
median of the rounds. Both states have to print the same. The last column says how many times as long the later state
takes for ten times the lines; at most twelve times is wanted, and at most 150 ms for 60,000 lines on a quiet core.

The earlier state is run only once on a script that takes it more than a second. It is not part of the gate.
"""

from __future__ import annotations

import argparse
import os
import statistics
import subprocess
import sys
import tempfile

from workshop.measure import processor_time, words_with, written
from workshop.parts import ROOT, proved_program

TOPOLOGY = 'carrier = "plain"\nraw = true\n' + "".join(f"[[imp]]\nid={imp}\nhosts=4\n" for imp in range(1, 10)) + "%\n"
# A host that sends nothing and is sent nothing, and the others.
IDLE = "3/9"
HOSTS = [f"{host}/{imp}" for imp in range(1, 10) for host in range(4) if f"{host}/{imp}" != IDLE]
# The flows with the shortest names, all for one host before those for the next one.
FLOWS = [f"{source} {to} {link}" for links in (range(10), range(10, 100)) for to in HOSTS for link in links for source in HOSTS]


def out(count: int) -> list[str]:
    return [f"out {flow} 0 -" for flow in FLOWS[:count]]


def takes(count: int) -> list[str]:
    return out(count // 2)


def givings_up(count: int) -> list[str]:
    waiting = 45 * count // 100
    return out(waiting) + [f"giveup {flow}" for flow in reversed(FLOWS[:waiting])]


def givings_up_in_order(count: int) -> list[str]:
    waiting = 45 * count // 100
    return out(waiting) + [f"giveup {flow}" for flow in FLOWS[:waiting]]


def refused_offers(count: int) -> list[str]:
    return 2 * out(43 * count // 100)


def stops_and_starts(count: int) -> list[str]:
    changes = [f"hostdown {IDLE}", f"hostup {IDLE}", f"hostdown {HOSTS[0]}", f"hostup {HOSTS[0]}"]
    return out(count // 2) + [changes[at % 4] for at in range(count // 2)]


SCRIPTS = {
    "takes where nothing waits": takes,
    "givings up from the newest": givings_up,
    "givings up from the oldest": givings_up_in_order,
    "refused offers": refused_offers,
    "stops and starts": stops_and_starts,
}


def printed(program: str, source: str) -> bytes:
    with open(source, "rb") as octets:
        return subprocess.run([program], stdin=octets, capture_output=True, check=True).stdout


def filled(name: str, count: int) -> str:
    """A script of this many lines."""
    lines = SCRIPTS[name](count)
    lines += (count - len(lines)) * [f"take {IDLE}"]
    return TOPOLOGY + "\n".join(lines) + "\n"


def words_of() -> argparse.Namespace:
    words = words_with(__doc__, "program")
    words.add_argument("other", metavar="OTHER", help="a program, or a clone that has built one")
    return words.count("rounds", 11, "how often each is run").asked()


def main() -> None:
    words = words_of()
    other = os.path.realpath(words.other)
    programs = [other if os.path.isfile(other) else proved_program(other), words.program or proved_program(ROOT)]
    rounds = words.rounds
    with tempfile.TemporaryDirectory() as folder:
        print("| Measured | Lines | Before | After | Times | Ten times the lines |\n|---|---|---|---|---|---|")
        for name in SCRIPTS:
            short = 0.0
            for count in (6_000, 60_000):
                source = written(folder, f"{name}-{count}", filled(name, count))
                if printed(programs[0], source) != printed(programs[1], source):
                    sys.exit(f"measure boxes: {name}: the two programs print something else")
                times = [[1000 * processor_time([program], source)] for program in programs]
                for _ in range(rounds - 1):
                    for taken, program in zip(times, programs):
                        if taken[0] < 1000:
                            taken.append(1000 * processor_time([program], source))
                before, after = (statistics.median(it) for it in times)
                growth = f"{after / short:.1f}" if short else "-"
                print(f"| {name} | {count:,} | {before:.1f} ms | {after:.1f} ms | {before / after:.1f} | {growth} |", flush=True)
                short = after
