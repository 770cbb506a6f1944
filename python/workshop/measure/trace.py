"""How long a trace takes beside the plain run of the same script: ./measure trace [--program FILE] [ROUNDS]

Over plain mailboxes the scripts repeat four lines, after the topology of examples/first-message: a message is sent, taken and
answered, and every fourth line has nothing to do; and they are calms, in which the same happens. Over a subnet messages go over a
chain of four IMPs, once with each frame delivered and dropped by a line of its own, and once in calms. Hosts with programs grant, send
and take over both carriers, in calms. Both ways are run in turn, so that a busy machine slows both. A time is the processor time from
the start of the process to its end, the best of the rounds. At least 100 million octets a second are wanted, in what the trace takes
beyond the plain run. A script that is too long for the program is left out.

It is not part of the gate.
"""

from __future__ import annotations

import argparse
import subprocess
import tempfile

from workshop.measure import MOST_OCTETS, processor_time, words_with, written
from workshop.measure.worlds import CARRIERS, opened, ready
from workshop.parts import ROOT, proved_program

TOPOLOGY = 'carrier = "plain"\nraw = true\n[[imp]]\nid = 1\nhosts = 1\n[[imp]]\nid = 2\nhosts = 1\n%\n'
SINGLE = ["out 0/1 0/2 5 24 414243", "take 0/2", "take 0/1", "take 0/2"]
CALM = ["out 0/1 0/2 5 24 414243", "calm 2"]
CHAIN = 'raw = true\n' + "".join(f"[[imp]]\nid = {imp}\nhosts = {hosts}\n" for imp, hosts in enumerate((1, 0, 0, 1), 1)) + "".join(f"[[line]]\na = {imp}\nb = {imp + 1}\n" for imp in (1, 2, 3)) + "%\n"
# a frame goes over a line and brings the acknowledgement back
OVER = [f"{call} {line} {way} 0" for line in (0, 1, 2) for way in "+-" for call in ("deliver", "drop")]
BACK = [f"{call} {line} {way} 0" for line in (2, 1, 0) for way in "-+" for call in ("deliver", "drop")]
HOPS = ["out 0/1 0/4 5 24 414243", *OVER, "take 0/4", *BACK, "take 0/1"]
NEITHER_AND_TRACE: tuple[list[str], list[str]] = [], ["--trace"]
QUIET = ["out 0/1 0/4 5 24 414243", "calm 2"]
Kind = tuple[str, str, list[str], list[str]]  # its name, its topology, its first lines, and the lines that are repeated


def of_programs(carrier: str) -> Kind:
    """Hosts with programs over this carrier: ten octets are granted, sent and taken, again and again."""
    topology, other, rounds = CARRIERS[carrier]
    message = ["grant 0/1 132 1 80", f"send {other} 133 80 {'5A' * 10}", f"calm {2 * rounds}"]
    return f"programs over {carrier}, calms", topology, ready(other, rounds) + opened(other, "0/1", rounds), message


KINDS: list[Kind] = [
    ("plain mailboxes, single events", TOPOLOGY, [], SINGLE),
    ("plain mailboxes, calms", TOPOLOGY, [], CALM),
    ("a chain of 4 IMPs, single events", CHAIN, ["calm 4"], HOPS),
    ("a chain of 4 IMPs, calms", CHAIN, ["calm 4"], QUIET),
    of_programs("plain mailboxes"),
    of_programs("a chain of 4 IMPs"),
]


def script(topology: str, first: list[str], lines: list[str], count: int) -> str:
    return topology + "\n".join(first + lines * (count // len(lines))) + "\n"


def printed(program: str, source: str, *options: str) -> bytes:
    with open(source, "rb") as octets:
        return subprocess.run([program, *options], stdin=octets, capture_output=True, check=True).stdout


def words_of() -> argparse.Namespace:
    return words_with(__doc__, "program").count("rounds", 21, "how often each is run").asked()


def main() -> None:
    words = words_of()
    program = words.program or proved_program(ROOT)
    with tempfile.TemporaryDirectory() as folder:
        print("| Lines of the script | Plain | `--trace` | Times | Lines of the trace | Its octets | Millions a second |")
        print("|---|---|---|---|---|---|---|")
        for name, topology, first, lines in KINDS:
            for count in (2_000, 20_000, 60_000):
                text = script(topology, first, lines, count)
                if len(text) > MOST_OCTETS:
                    continue
                source = written(folder, f"{name}-{count}", text)
                times = [[1000 * processor_time([program, *options], source) for options in NEITHER_AND_TRACE] for _ in range(words.rounds)]
                plain, trace = (min(it) for it in zip(*times))
                output = printed(program, source, "--trace")
                told = len(output.splitlines())
                speed = len(output) / (trace - plain) / 1000
                print(f"| {count:,}, {name} | {plain:,.1f} ms | {trace:,.1f} ms | {trace / plain:.1f} | {told:,} | {len(output):,} | {speed:.0f} |", flush=True)
