"""Every kind of script at two sizes, beside the program of an earlier state: ./measure kinds BEFORE AFTER [--only WORDS] [ROUNDS]

BEFORE and AFTER are programs; tools/optimised builds that of a clone. The kinds are those of `./measure worlds`, `subnet` and
`boxes`, each at one size and at ten times that. Both programs have to print the same, and what BEFORE refuses is measured
of AFTER only. Of each size the best processor time of the rounds is printed, run in turn so that a busy machine slows both, and
the greatest memory; of the smaller one also the instructions, which no load changes. The last column compares the times of
AFTER. At most twelve times as long is wanted for ten times the work. It wants GNU time and Valgrind, and takes some minutes.
"""

from __future__ import annotations

import argparse
import subprocess
import sys
import tempfile
from collections.abc import Callable, Iterator
from functools import partial

from workshop.measure import best_of_all, build_of, instructions, most_memory, words_with, written
from workshop.measure import boxes, subnet, worlds

HEAD = "| Measured | Network | Count | Instructions before | after | Times | Time before | after | Times | Memory before | after | Ten times the count |"
MAILBOXES = "plain mailboxes"
Kind = tuple[str, str, list[tuple[int, Callable[[], str]]]]  # its name, its network, and what gives the input of each size


def kinds() -> Iterator[Kind]:
    """The name of each kind, its network, and what gives the input of each of its sizes."""
    for name, make, carriers, pairs in worlds.MEASURED:
        for carrier in carriers:
            for sizes in pairs:
                yield name, carrier, [(size, partial(world_of, make, worlds.CARRIERS[carrier], size)) for size in sizes]
    for name, script, sizes, _unit, _each in subnet.MEASURED:
        yield name, "IMPs and lines", [(size, partial(subnet_of, script, size)) for size in sizes]
    for name in boxes.SCRIPTS:
        yield name, MAILBOXES, [(size, partial(boxes.filled, name, size)) for size in (6_000, 60_000)]


def world_of(make: worlds.Make, carrier: worlds.Carrier, size: int) -> str:
    """An input of hosts with programs."""
    head, sender, passing = carrier
    return head + "\n".join(make(sender, passing, size)[0]) + "\n"


def subnet_of(make: Callable[[int], subnet.Script], size: int) -> str:
    """An input of a raw network."""
    return subnet.input_of(*make(size))


def printed(program: str, source: str) -> bytes | None:
    """What a program prints; None where it refuses the input."""
    with open(source, "rb") as octets:
        ran = subprocess.run([program], stdin=octets, capture_output=True)
    return None if ran.returncode else ran.stdout


def columns(before: float | None, after: float | None, *, unit: str) -> list[str]:
    """What the two programs take, and how many times less the later one; without the earlier one only its own."""
    taken = [f"{it:,.1f} {unit}" if it else "" for it in (before, after)]
    return [*taken, f"{before / after:.2f}" if before and after else ""]


def row(words: argparse.Namespace, source: str, is_small: bool) -> tuple[list[str], float]:
    """The columns of one size, and the time that AFTER takes."""
    programs = [words.before, words.after]
    earlier, later = (printed(it, source) for it in programs)
    if later is None or earlier not in (None, later):
        sys.exit(f"measure kinds: {source}: AFTER refuses it, or the two programs print something else")
    alone = earlier is None
    counts = [None if it == words.before and alone else instructions(it, source) for it in programs] if is_small else [None, None]
    times: list[float | None] = [None, *best_of_all(programs[1:], source, words.rounds)] if alone else [*best_of_all(programs, source, words.rounds)]
    memory = ["" if it == words.before and alone else f"{most_memory(it, source)[0]:,} KiB" for it in programs]
    told = columns(*counts, unit="M") if is_small else ["", "", ""]
    return [*told, *columns(*(it and 1000 * it for it in times), unit="ms"), *memory], times[1] or 0.0


def words_of() -> argparse.Namespace:
    words = words_with(__doc__, "only")
    words.add_argument("before", metavar="BEFORE", help="a program")
    words.add_argument("after", metavar="AFTER", help="another one")
    return words.count("rounds", 5, "how often each is run").asked()


def main() -> None:
    words = words_of()
    for program in (words.before, words.after):
        print(f"{program}: {build_of(program)}")
    print("", HEAD, f"|{'---|' * (HEAD.count('|') - 1)}", sep="\n")
    with tempfile.TemporaryDirectory() as folder:
        for name, network, sizes in kinds():
            short: float | None = None
            for size, make in sizes if words.only in name else []:
                told, taken = row(words, written(folder, "input", make()), short is None)
                growth = f"{taken / short:.1f} times" if short else ""
                print(f"| {name} | {network} | {size:,} | {' | '.join(told)} | {growth} |", flush=True)
                short = taken
