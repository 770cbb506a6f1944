"""How many hops and events a second a subnet runs: ./measure subnet [--program FILE] [--beside FILE] [--instructions] [--only WORDS] [ROUNDS]

./build has to be run before, or FILE is the program. With --beside, the program of an earlier state is run in turn with it, so
that a busy machine slows both; both have to print the same, and kinds that the earlier one refuses are measured by themselves. With
--instructions, callgrind of Valgrind counts the instructions of one run, which no load changes (it may want a program without debug
information, as `strip -g` leaves it). With --only, the kinds whose names have these words are measured.
Each kind of script is measured at one size and at ten times that size:

- messages over a chain of eight IMPs: eight messages at a time go from the first to the last, and then `calm` lets them
  and their RFNMs pass. Each makes 14 hops of a packet, besides the routes and acknowledgements that go along.
- messages between 64 hosts, four at each of 16 IMPs in a ring: one from each host at a time, each for another host, and then
  `calm` lets them and their RFNMs pass.
- quiet rounds in that ring, with nothing but distances in transit: in each, 32 frames are delivered and 64 hosts take.
- messages between 252 hosts, four at each of 63 IMPs, the most that there can be, with 157 lines: 250 at a time.
- one message over 63 IMPs in a row, after as many rounds as its routes need.
- eight packets in the channels of a line that are sent again and again: after 32 times the line is full, and each copy is lost.
- single random events in a ring of 16 IMPs with eight chords. The independent model of the rules in Python goes along, so
  that frames that are there are delivered and dropped, and messages are begun on idle flows.

For each the median and the best processor time of the rounds are printed, from the start of the process to its end, and the
greatest memory; growth compares the best. At least 200,000 hops and 500,000 events a second are wanted on a quiet core,
and for ten times the events at most eleven times as long. It wants GNU time at /usr/bin/time, and is not part of the
gate.
"""

from __future__ import annotations

import argparse
import random
import statistics
import subprocess
import sys
import tempfile
from collections.abc import Callable, Sequence
from dataclasses import dataclass

from dorydate.model.names import Flow, HostName
from dorydate.model.packets import MOST_IMPS
from dorydate.model.subnet import Subnet
from workshop.measure import best_of_all, instructions, most_memory, processor_time, words_with, written
from workshop.parts import proved_program

HOPS = 14
Script = tuple[str, list[str]]  # a topology, and the lines of a script
RING = [(number, number % 16 + 1) for number in range(1, 17)]


def network(imps: Sequence[tuple[int, int]], lines: Sequence[tuple[int, int]]) -> str:
    """The document of IMPs with this many hosts, and of lines."""
    sites = "".join(f"[[imp]]\nid={number}\nhosts={hosts}\n" for number, hosts in imps)
    return 'carrier = "subnet"\nraw = true\n' + sites + "".join(f"[[line]]\na={a}\nb={b}\n" for a, b in lines) + "%\n"


def chain(messages: int) -> Script:
    imps = [(number, int(number in (1, 8))) for number in range(1, 9)]
    lines = ["calm 8"]
    for _ in range(messages // 8):
        lines += [f"out 0/1 0/8 {link} 0 -" for link in range(8)] + ["calm 16"]
    return network(imps, [(number, number + 1) for number in range(1, 8)]), lines


def between_many(messages: int) -> Script:
    hosts = [f"{host}/{number}" for number in range(1, 17) for host in range(4)]
    lines = ["calm 16"]
    for at in range(messages // 64):
        lines += [f"out {source} {hosts[(place + 7 * at % 63 + 1) % 64]} {at % 8} 0 -" for place, source in enumerate(hosts)]
        lines += ["calm 20"]
    return network([(number, 4) for number in range(1, 17)], RING), lines


def quiet(rounds: int) -> Script:
    return network([(number, 4) for number in range(1, 17)], RING), ["calm 100"] * (rounds // 100)


def between_most(messages: int) -> Script:
    """A ring of all IMPs with lines to the next but one, and to the one across, and messages for hosts all over it."""
    numbers = range(1, MOST_IMPS + 1)
    hosts = [f"{host}/{number}" for number in numbers for host in range(4)]
    near = [(number, (number + step - 1) % MOST_IMPS + 1) for step in (1, 2) for number in numbers]
    lines = ["calm 12"]
    for at in range(messages // 250):
        lines += [f"out {source} {hosts[(place + 7 * (place + at) % 251 + 1) % 252]} {at % 8} 0 -" for place, source in enumerate(hosts[:250])]
        lines += ["calm 16"]
    return network([(number, 4) for number in numbers], near + [(number, number + 31) for number in range(1, 32)]), lines


def row(messages: int) -> Script:
    imps = [(number, int(number in (1, MOST_IMPS))) for number in range(1, MOST_IMPS + 1)]
    lines = ["calm 63"] + [f"out 0/1 0/{MOST_IMPS} 5 8 FF", "calm 64"] * messages
    return network(imps, [(number, number + 1) for number in range(1, MOST_IMPS)]), lines


def chance(events: int) -> Script:
    chosen = random.Random(1972)
    imps = [(number, 1) for number in range(1, 17)]
    ends = RING + [(number, number + 8) for number in range(1, 9)]
    subnet = Subnet(imps, ends)
    lines = []

    def add(line: str, happen: Callable[[], object]) -> None:
        lines.append(line)
        happen()

    for _ in range(3):
        for number, _hosts in imps:
            add(f"route {number}", lambda: subnet.happen("route", number))
    while len(lines) < events:
        kind = chosen.choices(["out", "take", "resend", "route", "frame"], [3, 6, 1, 1, 4])[0]
        number = chosen.randrange(1, 17)
        if kind == "out":
            other = chosen.randrange(1, 17)
            link = chosen.randrange(9)
            flow = Flow(HostName(0, number), HostName(0, other), link)
            add(f"out 0/{number} 0/{other} {link} 0 -", lambda: subnet.happen("out", flow, ""))
        elif kind == "take":
            add(f"take 0/{number}", lambda: subnet.happen("take", HostName(0, number)))
        elif kind == "frame":
            ways = [(line, way) for line, both in enumerate(subnet.live) for way, live in both.items() if live]
            for line, way in chosen.sample(ways, min(len(ways), 12)):
                add(f"deliver {line} {way} 0", lambda: subnet.happen("deliver", line, way, 0))
                add(f"drop {line} {way} 0", lambda: subnet.happen("drop", line, way, 0))
        else:
            add(f"{kind} {number}", lambda: subnet.happen(kind, number))
    return network(imps, ends), lines[:events]


def again(times: int) -> Script:
    lines = ["calm 3"] + [f"out {link // 4}/1 {link // 4}/2 {link % 4} 8 AB" for link in range(8)]
    return network([(1, 2), (2, 2)], [(1, 2)]), lines + ["resend 1"] * times


def input_of(head: str, lines: Sequence[str]) -> str:
    return head + "\n".join(lines) + "\n"


MEASURED = [
    ("messages over a chain of 8 IMPs", chain, (1_000, 10_000), "hops", HOPS),
    ("messages between 64 hosts, 16 IMPs", between_many, (3_200, 32_000), "messages", 1),
    ("quiet rounds of 64 hosts, 16 IMPs", quiet, (1_000, 10_000), "rounds", 1),
    ("random single events, 16 IMPs", chance, (8_000, 80_000), "events", 1),
    ("eight packets sent again on a full line", again, (6_000, 60_000), "events", 1),
    ("messages over 63 IMPs in a row", row, (1, 10), "messages", 1),
    ("messages between 252 hosts, 63 IMPs, 157 lines", between_most, (1_000, 10_000), "messages", 1),
]


def ended(program: str, source: str) -> tuple[int, bytes]:
    """The status of a run, and what it printed."""
    with open(source, "rb") as octets:
        ran = subprocess.run([program], stdin=octets, capture_output=True)
    return ran.returncode, ran.stdout


def alone(program: str, source: str, rounds: int) -> tuple[float, float]:
    """The median and the best processor time of this many runs."""
    runs = [processor_time([program], source) for _ in range(rounds)]
    return statistics.median(runs), min(runs)


def words_of() -> argparse.Namespace:
    words = words_with(__doc__, "program", "beside", "only").flag("instructions", "counts instructions by callgrind")
    return words.count("rounds", 11, "how often each is run").asked()


@dataclass(frozen=True)
class Measure:
    """The programs, how often they are run, and whether what they take is counted in instructions, not in milliseconds."""

    program: str
    beside: str | None
    rounds: int
    counts: bool

    def head(self) -> str:
        taken = "Instructions" if self.counts else "Median | Best | A second"
        columns = "Before | After | After by before | Most memory before | after" if self.beside else f"{taken} | Most memory"
        told = f"| Measured | Count | {columns} | Ten times the count |"
        return f"{told}\n|{'---|' * (told.count('|') - 1)}"

    def number(self, taken: float) -> str:
        return f"{taken:,.1f} M" if self.counts else f"{1000 * taken:.1f} ms"

    def row(self, source: str, unit: str, count: int) -> tuple[str, float]:
        """The words of a row, and what the program takes."""
        memory = most_memory(self.program, source)[0]
        if not self.beside:
            median, best = [instructions(self.program, source)] * 2 if self.counts else alone(self.program, source, self.rounds)
            taken = self.number(best) if self.counts else f"{self.number(median)} | {self.number(best)} | {count / median:,.0f} {unit}"
            return f"{taken} | {memory:,} KiB", best
        (status, earlier), (_, later) = (ended(it, source) for it in (self.beside, self.program))
        if status == 0 and earlier != later:
            sys.exit(f"measure subnet: the two programs print something else on {source}")
        programs = [self.beside, self.program] if status == 0 else [self.program]
        costs = [instructions(it, source) for it in programs] if self.counts else best_of_all(programs, source, self.rounds)
        if status != 0:
            return f"refused | {self.number(costs[0])} | | | {memory:,} KiB", costs[0]
        before, after = costs
        told = f"{self.number(before)} | {self.number(after)} | {after / before:.2f}"
        return f"{told} | {most_memory(self.beside, source)[0]:,} KiB | {memory:,} KiB", after


def main() -> None:
    words = words_of()
    measure = Measure(words.program or proved_program(), words.beside, words.rounds, words.instructions)
    print(measure.head())
    with tempfile.TemporaryDirectory() as folder:
        for name, make, counts, unit, each in MEASURED:
            short = 0.0
            for count in counts if words.only in name else []:
                source = written(folder, f"{make.__name__}-{count}", input_of(*make(count)))
                told, best = measure.row(source, unit, each * count)
                print(f"| {name} | {count:,} | {told} | {f'{best / short:.1f} times' if short else '-'} |", flush=True)
                short = best
