"""What the program holds grows no more than it has to (seconds): ./check memory [PROGRAM] [--write | --planted]

No contract says how much memory a body keeps. One that never drops commands which have gone out, or ends of connections
that are over, would pass each proof. So here the octets that the program holds are counted, as it asks for them and
gives them back, in dialogues of N steps and of 2N. For each step more it may hold at most as many more as memory.json
has it: what stays of a step in the book, the log and the lines of a script, or of an IMP in the texts of its parts.
That is what the program held when it was written, and a hundredth more; `--write` writes what it holds now. Lists
double, so they are as full after N steps as after 2N. It wants a C compiler for tools/holding.c, which is loaded before
the C library. Without one it says that nothing was tried, and where the variable CI is set it fails.

With `--planted` the bodies of planted_limits.py that hold too much are planted, one at a time, in a program without
proofs that is built with all of them, in some ten minutes; each has to be noticed by the dialogue that it names.
"""

from __future__ import annotations

import json
import os
import shutil
import subprocess
import tempfile
from collections.abc import Callable, Mapping
from concurrent.futures import ThreadPoolExecutor
from typing import NamedTuple

from dorydate.model.topology import Topology, spelled_input
from workshop.checks.limits import CONTACT, JOINED, PAIR, in_lines, lives_of, opened, ring
from workshop.checks.planted_limits import HELD, missed
from workshop.parts import ROOT, any_program
from workshop.tools import left_out
from workshop.words import Words

KEPT = os.path.join(os.path.dirname(__file__), "memory.json")
SUBNET = Topology("subnet", False, [(1, 1), (2, 1)], [(1, 2)])
READY = ["contact 0/1 0/2", "calm 3"]
ONE = ["openrecv 0/1 0/2 16 33", "opensend 0/2 0/1 33 16 8", "calm 2"]
# many ends at once, each with a link of its own, and their partners
MANY = [
    *(f"openrecv 0/1 0/2 {2 * at} {2 * at + 1}" for at in range(1, 60)),
    *(f"opensend 0/2 0/1 {2 * at + 1} {2 * at} 8" for at in range(1, 60)),
]
CUT = ["enddown 1 0", "endup 1 0", "calm 2"]


class Dialogue(NamedTuple):
    """The options, the input of a number of steps, and how many steps are a half."""

    options: list[str]
    octets: Callable[[int], bytes]
    steps: int


def scripted(network: Topology, begins: list[str], step: list[str], steps: int, *options: str) -> Dialogue:
    """A dialogue whose steps are lines of a script."""
    return Dialogue([*options], lambda count: spelled_input(network, begins + step * count), steps)


def calm(steps: int, *options: str) -> Dialogue:
    """Two echo services that send one octet to and fro, a step each round."""
    talk = [*JOINED, "send 0/1 101 8 5A"]
    return Dialogue([*options], lambda count: spelled_input(PAIR, [*talk, f"calm {count}"]), steps)


def of_imps(count: int) -> bytes:
    """A network of a number of IMPs, whose routes settle."""
    imps = [(imp, 1) for imp in range(1, count + 1)]
    lines: list[tuple[int, ...]] = [*ring(count)]
    return spelled_input(Topology("subnet", True, imps, lines), ["calm 2"])


def of_lives(count: int) -> bytes:
    """A log of a number of connections."""
    return in_lines([*CONTACT, *opened(count), *lives_of(count), *["handed 0 -"] * (2 * count), "end"])


DIALOGUES: dict[str, Dialogue] = {
    "connections that close": scripted(PAIR, READY, [*ONE, "close 0/1 16", "calm 2"], 1_500),
    "commands that go out": scripted(PAIR, READY, [*["echo 0/1 0/2 65"] * 60, "calm 2"], 300),
    "lives that a stop ends": scripted(PAIR, [], [*READY, *MANY, "calm 9", "hostdown 0/1", "hostup 0/1"], 60),
    "hosts that start again": scripted(PAIR, READY, ["hostdown 0/1", "hostup 0/1", *READY], 3_000),
    "rounds of a calm": calm(6_000),
    "rounds of a calm that is traced": calm(1_500, "--trace"),
    "messages of a subnet": scripted(SUBNET._replace(raw=True), ["calm 3"], ["out 0/1 0/2 5 8 41", "calm 3"], 6_000),
    "routes of a subnet that is traced": scripted(SUBNET, ["calm 3"], CUT, 1_500, "--trace"),
    "IMPs of a network that is traced": Dialogue(["--trace"], of_imps, 30),
    "connections of a log": Dialogue(["--audit"], of_lives, 1_500),
}


def most_held(program: str, options: list[str], octets: bytes, variables: Mapping[str, str]) -> int:
    """The most octets that the program ever holds on an input, on which it has to end well."""
    with tempfile.NamedTemporaryFile() as held:
        env = {**variables, "HELD": held.name}
        subprocess.run([program, *options], input=octets, stdout=subprocess.DEVNULL, env=env, check=True)
        return int(held.read())


def growth(program: str, before: str, name: str, variables: Mapping[str, str]) -> int:
    """How many octets more it holds for each step more of a dialogue."""
    dialogue = DIALOGUES[name]
    env = {**variables, "LD_PRELOAD": before}
    counts = dialogue.steps, 2 * dialogue.steps
    less, more = (most_held(program, dialogue.options, dialogue.octets(count), env) for count in counts)
    return (more - less) // dialogue.steps


def counting(compiler: str, room: str) -> str:
    """The library that counts what a program holds, made in a folder."""
    library = f"{room}/holding.so"
    words = [compiler, "-O1", "-shared", "-fPIC", "-o", library, f"{ROOT}/tools/holding.c", "-ldl"]
    subprocess.run(words, check=True)
    return library


def counted(program: str, before: str) -> dict[str, int]:
    """The same of each dialogue."""
    with ThreadPoolExecutor(os.cpu_count() or 1) as threads:
        return dict(zip(DIALOGUES, threads.map(lambda it: growth(program, before, it, {}), DIALOGUES)))


def write(found: dict[str, int]) -> None:
    """Writes limits, each a hundredth above what is held now."""
    with open(KEPT, "w", encoding="utf-8") as file:
        json.dump({name: octets + octets // 100 for name, octets in found.items()}, file, indent=2)
        file.write("\n")


def kept() -> dict[str, int]:
    """How many octets more it may hold for each step more of a dialogue."""
    with open(KEPT, encoding="utf-8") as file:
        limits: dict[str, int] = json.load(file)
    return limits


def planted(compiler: str) -> int:
    """Plants each body that holds too much."""
    limits = kept()
    with tempfile.TemporaryDirectory() as room:
        before = counting(compiler, room)

        def shows(program: str, name: str, variables: Mapping[str, str]) -> bool:
            return growth(program, before, name, variables) > limits[name]

        return missed("memory", HELD, [*DIALOGUES], shows)


def main() -> int:
    words = Words(__doc__).one("program", None, "the program; that of the present sources, if it is left out")
    words.flag("write", "keep what it holds now as the limits")
    asked = words.flag("planted", "plant bodies that hold too much, and name those that no dialogue notices").asked()
    compiler = shutil.which("cc") or shutil.which("clang")
    if asked.planted and compiler:
        return planted(compiler)
    program = asked.program or any_program()
    if program is None:
        print("check memory: there is no program of these sources")
        return 1
    if not compiler or program.startswith(f"{ROOT}/released/") or program.endswith((".mjs", "-unproved")):
        left_out("memory", "all of it", "it wants a C compiler, and a proved program that loads libraries (./build)")
        return 1 if os.environ.get("CI") else 0
    with tempfile.TemporaryDirectory() as room:
        found = counted(program, counting(compiler, room))
    if asked.write:
        write(found)
    limits = kept()
    over = [name for name, octets in found.items() if octets > limits[name]]
    for name, octets in found.items():
        much = ", which is too much" if name in over else ""
        print(f"check memory: {name}: {octets:,} octets for each, of {limits[name]:,}{much}")
    print(f"check memory: {len(found)} dialogues, and in {len(over)} of them it holds too much")
    return 1 if over else 0
