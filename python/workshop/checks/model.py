"""The program against the independent model in Python, on random inputs (two minutes).

Compares the program with an independent model of its rules, on random inputs.

The proofs say that the program does what the definitions say. Whether the definitions say what docs/program.md and
docs/mailboxes.md say is for readers to judge; this script tries it as well. python/dorydate/model/runs.py, and what it uses,
was written from those rules, in another language and another form. Both run every input, and status, output and standard
error have to be the same. The same inputs are made each time. TOML itself is not tried: documents are written in its
plainest spelling.

Networks with host programs are tried as far as the program runs them, which it is asked first: their scripts are made event by
event, by looking at what the model has come to (python/dorydate/model/chance/worlds.py), and it is counted what they came to. So are scripts of raw
networks in which IMPs ask what became of their messages (python/dorydate/model/chance/questions.py). Of these the log is compared too, since two answers
are printed alike. And so are scripts of networks with strangers, some by their logs (python/dorydate/model/chance/strangers.py). Some of each kind are sessions, whose lines are answered one by one.
`./check model asking RUNS` tries only those with questions, this many.

It takes the proved program, or where ./build has not made that the one that was built without proofs. With `--try`, and perhaps the folder of another clone of the repository, it
takes the program that `rt try` builds without proofs, and fewer inputs, since that one is slow.
"""

from __future__ import annotations

import os
import random
import re
import subprocess
import sys
import tempfile
from collections import Counter
from collections.abc import Iterable, Iterator, Sequence
from concurrent.futures import ThreadPoolExecutor
from typing import Protocol

from dorydate.model.chance.inputs import Given, changed, some_input
from dorydate.model.chance.questions import Counting, Questions
from dorydate.model.chance.strangers import mixed_script, naming, perhaps_refused
from dorydate.model.log import ends_log
from dorydate.model.topology import Topology, spelled_input
from dorydate.model.runs import End, expected
from dorydate.model.chance.worlds import reached
from dorydate.model.chance.worlds import some_script as some_script_of_world
from workshop.limited import run_within
from workshop.parts import ROOT, any_program
from workshop.words import Words

Run = tuple[list[str], bytes]  # options and an input
PLAIN_AND_LOG: tuple[list[str], list[str]] = [], ["--log"]
SECONDS = 60  # of the processor, for one input
INPUTS = 3000
WORLDS = 1500
MIXED = 500
SESSIONS = 200  # of each kind of network
ASKING = 500

# ---- random inputs


def some_world_input(seed: int, runs: Sequence[str]) -> Given:
    """Options, a network with host programs, and the lines of a script that was made by looking at the model."""
    chance = random.Random(f"world {seed}")
    network, script = some_script_of_world(seed, "services" in runs)
    lines = script.lines
    if chance.random() < 0.15:
        place = chance.randrange(len(lines))
        others = ["out 0/1 0/2 5 0 -", "listen 0/1 16 256", "grant 0/1 16 65536 0", "send 0/1 33 8 F", "server 0/1 7 100", "type 0/1"]
        lines[place] = changed(chance, lines[place]) if chance.random() < 0.6 else chance.choice(others)
    options: list[list[str]] = [[], ["--book"], ["--texts", "--book"]]
    return chance.choice(options), network, lines


def some_mixed_input(seed: int) -> Given:
    """Options, a network with strangers, and the lines of a script that was made by looking at the model."""
    network, script, world = mixed_script(seed)
    chance, lines = random.Random(f"mixed {seed}"), script.lines
    if chance.random() < 0.3:
        other = perhaps_refused(chance, network)
        lines[chance.randrange(len(lines))] = changed(chance, other) if chance.random() < 0.2 else other
    options: list[list[str]] = [[], ["--book"], ["--texts", "--book"], ["--log"]]
    return chance.choice(options), naming(network, world.strangers), lines


def some_sessions(seed: int, runs: Sequence[str]) -> Iterator[Given]:
    """Networks of each kind, and scripts whose lines are answered one by one."""
    for _, network, lines in some_input(random.Random(seed)), some_world_input(seed, runs), some_mixed_input(seed):
        yield ["--live"], network, lines


def some_questions(seed: int, seen: Counter[str]) -> tuple[Topology, list[str]]:
    """A network and the lines of a script in which IMPs ask. What its questions come to is counted."""
    questions = Questions(seed, make=Counting)
    if isinstance(questions.subnet, Counting):
        seen += questions.subnet.came_to()
    return questions.network, questions.lines


# ---- the program


class Program(Protocol):
    """A program that is run on inputs."""

    def ends(self, inputs: Iterable[Run]) -> Iterator[End]:
        """How it ends on inputs with their options: its status, its output and its words."""


class Kept:
    """The program that ./build keeps."""

    def __init__(self, path: str) -> None:
        self.path = path

    def ends(self, inputs: Iterable[Run]) -> Iterator[End]:
        """How it ends on inputs with their options: its status, its output and its words."""

        def run(given: Run) -> End:
            options, octets = given
            ran = run_within([self.path, *options], octets, SECONDS)
            return ran.returncode, ran.stdout.decode("latin-1"), ran.stderr.decode("latin-1")

        with ThreadPoolExecutor(os.cpu_count() or 1) as threads:
            yield from threads.map(run, inputs)


class Tried:
    """The program of a folder with the repository, built without proofs."""

    def __init__(self, folder: str) -> None:
        self.crate = f"{folder}/crates/arpasim"

    def ends(self, inputs: Iterable[Run]) -> Iterator[End]:
        with tempfile.TemporaryDirectory() as cases:
            for number, (options, octets) in enumerate(inputs):
                for name, content in (f"{number:06}", octets), (f"{number:06}.args", "".join(f"{it}\n" for it in options).encode()):
                    with open(f"{cases}/{name}", "wb") as file:
                        file.write(content)
            ran = subprocess.run(["rt", "try", "--cases", cases], cwd=self.crate, capture_output=True)
        outputs = dict(re.findall(r"^== (\d+)\n((?:(?!== \d+\n).*\n)*)", ran.stdout.decode("latin-1"), re.MULTILINE))
        said, ended = "", 0
        for line in ran.stderr.decode("latin-1").splitlines(keepends=True):
            if found := re.match(r"case=(\d+) run=ended status=(\d+)", line):
                ended += 1
                yield int(found[2]), outputs.get(found[1], ""), said
            said = line if line.startswith("arpasim: ") else ""
        if not ended:
            sys.exit(f"check model: `rt try` ran nothing:\n{ran.stderr.decode('latin-1')}")


def what_it_runs(program: Program) -> list[str]:
    """What the program runs beside raw networks: worlds, and services on their hosts. It is asked with small inputs."""
    network = Topology("plain", False, [(1, 1)], [])
    questions = {"worlds": "offer 0/1", "services": "server 0/1 7 100"}
    answers = program.ends([(["--check"], spelled_input(network, [line])) for line in questions.values()])
    return [name for name, (status, _, _) in zip(questions, answers) if status == 0]


def compare(program: Program, inputs: Sequence[Given], runs: Sequence[str]) -> Counter[str] | None:
    """Compares the program with the model on inputs. What they came to, and how many lines were printed; None where one differs."""
    ends, lines_printed, came_to = Counter[str](), 0, Counter[str]()
    given = [(options, spelled_input(network, lines)) for options, network, lines in inputs]
    for place, (found, (options, network, lines)) in enumerate(zip(program.ends(given), inputs)):
        wanted = ends_log(network, [*lines, ""]) if options == ["--log"] else expected(options, network, [*lines, ""], runs)
        if found != wanted:
            print(f"check model: input {place} differs, with the options {options}:\n{given[place][1]!r}\nfound  {found}\nwanted {wanted}")
            return None
        ends[re.sub(r" \d+", " N", found[2].strip()) or "run or read to the end"] += 1
        lines_printed += found[1].count("\n")
        came_to += reached(found[1].splitlines())
    for said, count in sorted(ends.items()):
        print(f"check model: {count} inputs: {said}")
    print(f"check model: {len(inputs)} inputs, {lines_printed} lines of output, all the same")
    return came_to


def main() -> int:
    words = Words(__doc__)
    tried = "the program that `rt try` builds, of this clone or another"
    words.add_argument("--try", nargs="?", const=ROOT, dest="clone", metavar="CLONE", help=tried)
    words.add_argument("what", nargs="?", choices=["asking"], help="only networks whose IMPs ask")
    asked = words.count("runs", 10_000, "how many of these").asked()
    is_tried = asked.clone is not None
    path = None if is_tried else any_program()
    if not is_tried and path is None:
        print("check model: there is no program of these sources")
        return 1
    program: Program = Tried(asked.clone or ROOT)
    if path:
        program = Kept(path)
    runs = what_it_runs(program)
    if asked.what == "asking":
        return compare_asking(program, asked.runs, runs)
    inputs, worlds = (INPUTS, WORLDS) if not is_tried else (INPUTS // 20, WORLDS // 10)
    if compare(program, [some_input(random.Random(seed)) for seed in range(inputs)], runs) is None:
        return 1
    if "worlds" not in runs:
        print("check model: this program runs no networks with host programs, so none is tried")
        return 0
    came_to = compare(program, [some_world_input(seed, runs) for seed in range(worlds)], runs)
    if came_to is None:
        return 1
    print("check model: worlds came to", ", ".join(f"{count} {name}" for name, count in sorted(came_to.items())))
    mixed = [some_mixed_input(seed) for seed in range(MIXED if not is_tried else MIXED // 10)]
    sessions = [given for seed in range(SESSIONS if not is_tried else SESSIONS // 10) for given in some_sessions(seed, runs)]
    if compare(program, mixed, runs) is None or compare(program, sessions, runs) is None:
        return 1
    return compare_asking(program, ASKING if not is_tried else ASKING // 10, runs)


def compare_asking(program: Program, count: int, runs: Sequence[str]) -> int:
    """Compares the program with the model on scripts with questions, each by what is printed and by its log."""
    seen = Counter[str]()
    for first in range(0, count, 500):
        scripts = [some_questions(seed, seen) for seed in range(first, min(first + 500, count))]
        asked: list[Given] = [(options, *script) for script in scripts for options in PLAIN_AND_LOG]
        if compare(program, asked, runs) is None:
            return 1
    print(f"check model: {count} scripts with questions, each by what is printed and by its log; they came to", ", ".join(f"{number} {name}" for name, number in sorted(seen.items())))
    return 0
